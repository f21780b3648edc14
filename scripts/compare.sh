#!/usr/bin/env bash
# scripts/compare.sh [PROGRAM]: compares flashrom and flashnor on the same emulated W25Q128FV.
#
# Both programs identify the chip, read it, and write a random image to a chip full of FFh. Both verify what they wrote;
# flashnor also writes a journal, from which it then restores its chip. Both write and erase two regions. If flashrom
# lists protection ranges, flashnor must list the same ranges. Then, for each value of the protection bits that the
# datasheets define, both must also print the same protected range. The exit status is 1 if anything differs.
#
# The script prints the times of flashnor for identification, reading and writing, divided by those of flashrom and, for
# reading, also by that of `cp`. Each time is the best of three rounds (or of ROUNDS). A ratio above its goal is marked,
# but is no failure. The merge gate doesn't run this script, because it needs flashrom.
set -euo pipefail

top=$(cd "$(dirname "$0")/.." && pwd)
program=${1:-$top/crates/flashnor/out/flashnor}
rounds=${ROUNDS:-3}
size=16777216
compared=0

PATH=$PATH:/usr/sbin:/sbin
if ! command -v flashrom > /dev/null; then
    echo "skipped: compare, since flashrom isn't installed (on Debian: apt-get install flashrom)"
    exit 0
fi
if [[ ! -x $program ]]; then
    echo "$program isn't built: 'make' proves and builds it." >&2
    exit 1
fi
program=$(realpath "$program")

work=$(mktemp -d)
trap 'rm -rf "$work"' EXIT
cd "$work"

fail() {
    echo "compare: $*" >&2
    exit 1
}

# Runs a command with its output in the file `said`, and sets `took` to its time in microseconds.
timed() {
    local start=${EPOCHREALTIME/[.,]/}
    "$@" > said 2>&1 || { cat said >&2; fail "'$*' ended with a fault"; }
    took=$((${EPOCHREALTIME/[.,]/} - start))
}

rom() { timed flashrom -p dummy:emulate=W25Q128FV,image=rom.bin "$@"; }
nor() { timed "$program" -p dummy:emulate=W25Q128FV,image=nor.bin "$@"; }

# Creates the images: `blank` is full of FFh, and `random` is the keystream of AES-256 in counter mode with the key 1,
# which openssl computes.
make_images() {
    head -c $size /dev/zero | tr '\000' '\377' > blank
    head -c $size /dev/zero | openssl enc -aes-256-ctr -K "$(printf '%064x' 1)" -iv "$(printf '%032x' 0)" > random
    [[ $(stat -c %s random) == "$size" ]] || fail "openssl made no image of $size bytes"
}

# both_hold IMAGE: copies the image to the chips of both programs, and removes the files of the round before.
both_hold() {
    cp "$1" rom.bin
    cp "$1" nor.bin
    rm -f rom.out nor.out journal
}

same() {
    cmp "$1" "$2" || fail "$1 and $2 differ"
    compared=$((compared + 1))
}

probe() {
    both_hold blank
    rom "$@"
    rom_took=$took
    chip=$(sed -n 's/^Found Winbond flash chip "\([^"]*\)".*/\1/p' said | head -n 1)
    [[ -n $chip ]] || fail "flashrom didn't find the chip: $(cat said)"
    nor
    [[ $(cat said) == "Found W25Q128FV (ef4018), $size bytes." ]] || fail "flashnor found: $(cat said)"
}

read_all() {
    both_hold random
    rom "$@" -r rom.out
    rom_took=$took
    nor -r nor.out
    same rom.out random
    same nor.out random
}

# Times a reading, and a copy of the chip's file.
read_and_copy() {
    both_hold random
    timed cp nor.bin rom.out
    rom_took=$took
    nor -r nor.out
    same nor.out rom.out
}

write_all() {
    both_hold blank
    rom "$@" -w random
    rom_took=$took
    grep -q VERIFIED said || fail "flashrom didn't verify: $(cat said)"
    nor -w random --journal journal
    same rom.bin random
    same nor.bin rom.bin
}

# measure NAME GOAL COMMAND..: runs the command in each round, and prints the ratio of the best times, and the goal if
# it isn't empty.
measure() {
    local name=$1 wanted=$2 best_rom='' best_nor='' round
    for ((round = 0; round < rounds; round++)); do
        "${@:3}"
        [[ -n $best_rom ]] && ((best_rom <= rom_took)) || best_rom=$rom_took
        [[ -n $best_nor ]] && ((best_nor <= took)) || best_nor=$took
    done
    awk -v name="$name" -v wanted="$wanted" -v nor="$best_nor" -v rom="$best_rom" 'BEGIN {
        text = wanted == "" ? "" : sprintf(", wanted %.3f%s", wanted, nor / rom > wanted ? ": longer than wanted" : "")
        printf "%-32s %.3f (%.1f ms to %.1f ms%s)\n", name, nor / rom, nor / 1000, rom / 1000, text
    }'
}

# Restores the chip from the journal of the last write.
restore() {
    nor --restore journal
    same nor.bin blank
    echo "restored from the journal of $(stat -c %s journal) bytes: the same bytes as before"
}

# Writes the blank image to two regions of a chip with random bytes, and erases these regions of another such chip. One
# region is smaller than a sector. Both programs must leave the same bytes, and so must a write and an erase.
regions() {
    printf '00000800:000008ff small\n00123000:00124567 large\n' > layout
    both_hold random
    rom -l layout -i small -i large -w blank
    nor -l layout -i small,large -w blank --journal journal
    same nor.bin rom.bin
    cp nor.bin written
    both_hold random
    rom -l layout -i small -i large -E
    nor -l layout -i small,large -E --journal journal
    same nor.bin rom.bin
    same nor.bin written
    echo "regions written and erased: the same bytes"
}

# Compares the lists of protection ranges. flashrom prints a range as "start=0x00fc0000 length=0x00040000 (upper 1/64)",
# and flashnor as "0xfc0000,0x040000".
ranges() {
    both_hold blank
    flashrom -p dummy:emulate=W25Q128FV,image=rom.bin --wp-list > said 2>&1 || true
    sed -n 's/^[[:space:]]*start=0x\([0-9a-f]*\) length=0x\([0-9a-f]*\).*/\1 \2/p' said > rom.said
    if [[ ! -s rom.said ]]; then
        echo "ranges: this flashrom lists none, so none are compared"
        return
    fi
    nor --wp-list
    sed -n 's/^0x\([0-9a-f]*\),0x\([0-9a-f]*\)$/\1 \2/p' said > nor.said
    sorted rom.said > rom.ranges
    sorted nor.said > nor.ranges
    diff rom.ranges nor.ranges || fail "the ranges differ (< flashrom's, > flashnor's)"
    compared=$((compared + 1))
    echo "ranges on offer: the same $(wc -l < nor.ranges)"
    codes
}

# Compares the protected range for each of the 64 values of the protection bits. flashrom gets the status bytes in the
# key spi_status, the second one first. The datasheets don't define four of these values (SEC with BP 110). For them
# flashnor prints `undefined`, and flashrom a range, so they aren't compared.
codes() {
    local code one two same=0
    for ((code = 0; code < 64; code++)); do
        one=$(printf '%02x' $(((code & 31) << 2)))
        two=$(printf '%02x' $((code >> 5 << 6)))
        printf '%b' "\\x$one\\x$two" > status
        timed "$program" -p dummy:emulate=W25Q128FV,status=status --wp-status
        grep -qx 'Range: undefined' said && continue
        sed -n 's/^Range: 0x\([0-9a-f]*\),0x\([0-9a-f]*\)$/\1 \2/p' said > nor.range
        timed flashrom -p "dummy:emulate=W25Q128FV,spi_status=0x$two$one" -c "$chip" --wp-status
        sed -n 's/^Protection range: start=0x\([0-9a-f]*\) length=0x\([0-9a-f]*\).*/\1 \2/p' said > rom.range
        [[ -s rom.range && $(sorted nor.range) == "$(sorted rom.range)" ]] ||
            fail "under the status $one $two the ranges differ"
        same=$((same + 1))
    done
    ((same == 60)) || fail "$same codes are defined, not 60"
    echo "range under each protection code: the same for $same, undefined for $((64 - same))"
}

# sorted FILE: prints the pairs of hexadecimal numbers in a file, each with eight digits, in ascending order and without
# duplicates.
sorted() {
    local start length
    while read -r start length; do
        printf '%08x %08x\n' "0x$start" "0x$length"
    done < "$1" | sort -u
}

((rounds > 0)) || fail "no round, so nothing is compared"
make_images
version=$(flashrom --version 2> /dev/null | sed -n '1s/^flashrom //p')
echo "time of flashnor to that of flashrom (its version: $version), best of $rounds"
measure "probe" 0.0625 probe
measure "probe, flashrom by -c" "" probe -c "$chip"
measure "read 16 MiB" 0.1667 read_all
measure "read 16 MiB, flashrom by -c" "" read_all -c "$chip"
measure "read 16 MiB, to cp" 1.3 read_and_copy
measure "write 16 MiB" 0.1 write_all
measure "write 16 MiB, flashrom by -c" "" write_all -c "$chip"
restore
regions
ranges
((compared > 0)) || fail "nothing was compared"
echo "compare: $compared files and lists of ranges were the same"
