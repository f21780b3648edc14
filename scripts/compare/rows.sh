#!/usr/bin/env bash
# scripts/compare/rows.sh [PROGRAM]: runs flashrom and flashnor for most rows of docs/FLASHROM.md.
#
# Each row has arguments that flashrom accepts or refuses, and arguments that flashnor accepts or refuses. The script
# recognizes a refusal by the exit status and (except for `--programmer`) by the printed line. Each option that
# docs/FLASHROM.md names before its section on flashnor-serprog must be tried by a row. The exit status is 1 if a
# program does something else than the page says. The merge gate doesn't run this script, because it needs flashrom.
set -euo pipefail

top=$(cd "$(dirname "$0")/../.." && pwd)
program=${1:-$top/crates/flashnor/out/flashnor}
size=16777216
rows=0
runs=0
tried=()
failed=0

PATH=$PATH:/usr/sbin:/sbin
if ! command -v flashrom > /dev/null; then
    echo "skipped: the rows on flashrom's options, since it isn't installed (on Debian: apt-get install flashrom)"
    exit 0
fi
if [[ ! -x $program ]]; then
    echo "$program isn't built: 'make' proves and builds it." >&2
    exit 1
fi
program=$(realpath "$program")

work=$(mktemp -d)
trap 'rm -rf "$work"' EXIT
cd "$work"

wrong() {
    echo "rows: $row: $*" >&2
    failed=$((failed + 1))
}

# Creates the files that each row needs at the start: chips full of FFh, an equal image and its first 4 KiB, another
# image whose first 8 KiB differ, a text file, and a layout of two regions of 4 KiB.
lay() {
    rm -rf -- *
    head -c $size /dev/zero | tr '\000' '\377' > image
    cp image rom.bin
    cp image nor.bin
    head -c 4096 image > piece
    seq 3000 > numbers
    { head -c 8192 numbers; tail -c +8193 image; } > other
    printf '000000:000fff a\n001000:001fff b\n' > layout
}

# run PROGRAM ARGUMENTS..: runs the program with the image as its standard input, and with its output in the file
# `said`. Adds the options to `tried`.
run() {
    local word
    runs=$((runs + 1))
    for word in "${@:2}"; do [[ $word != -* ]] || tried+=("${word%%=*}"); done
    "$@" < image > said 2>&1
}

# rom ARGUMENTS..: runs flashrom on a W25Q128FV with the file rom.bin, or on the chip that `chip` names. Unless `any` is
# set, flashrom also gets `--chip W25Q128.V`, its own name for a W25Q128FV, which makes it faster.
rom() {
    local named=(--chip W25Q128.V)
    [[ -z ${any+set} ]] || named=()
    run flashrom -p "dummy:emulate=${chip:-W25Q128FV,image=rom.bin}" "${named[@]}" "$@"
}
nor() { run "$program" -p "dummy:emulate=${chip:-W25Q128FV,image=nor.bin}" "$@"; }

# takes WHO ARGUMENTS..: checks that the program (`rom` or `nor`) accepts these arguments, and ends with status 0.
takes() {
    "$@" || wrong "${*@Q} isn't taken: $(tail -n 1 said)"
}

# refuses TEXT WHO ARGUMENTS..: checks that the program (`rom` or `nor`) prints TEXT, and doesn't end with status 0. For
# flashnor, TEXT must be the last line.
refuses() {
    local text=$1
    shift
    if "$@"; then
        wrong "${*@Q} is taken"
    elif [[ $1 == nor ]]; then
        [[ $(tail -n 1 said) == "$text" ]] || wrong "${*@Q} is refused so: $(tail -n 1 said)"
    else
        grep -qF -e "$text" said || wrong "${*@Q} is refused so: $(tail -n 1 said)"
    fi
}

# both ARGUMENTS..: checks that both programs accept these arguments.
both() {
    takes rom "$@"
    takes nor "$@"
}

# says TEXT: checks that the last run printed TEXT.
says() { grep -qF -e "$1" said || wrong "$1 isn't said, but: $(tail -n 1 said)"; }

is_same() { cmp -s -- "$1" "$2" || wrong "$1 and $2 differ"; }

# row NAME: starts a new row.
row() {
    row=$1
    rows=$((rows + 1))
    lay
}

# flashnor prints this line if it doesn't know an option.
unknown='Usage fault 1.'

same_options() {
    row 'the same options'
    any='' both
    takes nor -L
    run flashrom -L || wrong "'flashrom -L' isn't taken"
    takes rom --flash-size
    says $size
    takes nor --flash-size
    says $size
    both --wp-list
    both --wp-status
    both -v image
    refuses FAILED rom -v other
    refuses 'Error 14: bytes differ at 0x000000.' nor -v other
    both -h
    takes rom -r rom.out
    takes nor -r nor.out
    is_same rom.out nor.out
    takes rom -n -w image
    takes nor -n -w image --journal journal
    cp other rom.bin
    cp other nor.bin
    takes rom -E
    takes nor -E --journal another
    is_same rom.bin image
    is_same nor.bin image
}

emulated_chips() {
    row 'the chips that are emulated'
    both
    chip=W25Q64FV refuses 'Invalid chip specified for emulation' rom
    chip=W25Q64FV takes nor
    chip=TINY64 refuses 'Invalid chip specified for emulation' rom
    chip=TINY64 takes nor
    chip=W25Q128FV,spi_status=0x0000 takes rom
    chip=W25Q128FV,spi_status=0x0000 refuses 'Usage fault 3.' nor
    printf '\0\0' > status
    chip=W25Q128FV,status=status refuses 'Unhandled programmer parameters' rom
    chip=W25Q128FV,status=status takes nor
    chip=W25Q128FV,trace=trace,unique=0000000000000001,busy=1,power=00,stop=99 takes nor
    chip=W25Q128FV,hwwp=yes takes rom
    chip=W25Q128FV,hwwp=yes refuses 'Usage fault 3.' nor
}

changes() {
    row 'changes with a journal or a rehearsal'
    local words
    for words in '-w image' -E '--wp-range=0xfc0000,0x40000'; do
        # shellcheck disable=SC2086  # the shell must split these words
        {
            takes rom $words
            refuses 'Usage fault 6.' nor $words
            takes nor $words --journal "journal of ${words:0:3}"
            takes nor $words --rehearse 9,9
            refuses 'unrecognized option' rom $words --journal journal
            refuses 'unrecognized option' rom $words --rehearse 9,9
        }
    done
    row 'restores and unlocks'
    takes nor -E --journal journal --unlock
    takes nor --restore journal
    refuses 'unrecognized option' rom --restore journal
    refuses 'unrecognized option' rom -E --unlock
}

# Tests a chip whose last 256 KiB are protected. flashrom lifts this protection without an option; flashnor needs
# --unlock.
protection() {
    row 'protection in the way'
    { head -c $((size - 1)) image; printf '\0'; } > other
    printf '\4\0' > status
    cp other rom.bin
    cp other nor.bin
    chip=W25Q128FV,image=rom.bin,spi_status=0x0004 takes rom -E
    is_same rom.bin image
    chip=W25Q128FV,image=nor.bin,status=status refuses 'Error 10: protected at 0xfff000.' nor -E --journal journal
    is_same nor.bin other
    chip=W25Q128FV,image=nor.bin,status=status takes nor -E --unlock --journal another
    is_same nor.bin image
}

ranges() {
    row 'how a range is spelt'
    local number=0 spelling
    for spelling in --wp-range=0xfc0000,0x40000 '--wp-range 0xfc0000,0x40000' --wp-range=16515072,262144 \
        --wp-range=0,0; do
        number=$((number + 1))
        # shellcheck disable=SC2086  # the shell must split these words
        takes rom $spelling
        # shellcheck disable=SC2086
        takes nor $spelling --journal "journal $number"
    done
    refuses 'Invalid wp-range argument format' rom '--wp-range=0 0'
    refuses 'Usage fault 5.' nor '--wp-range=0 0' --journal other
}

# Tests how regions are read. flashrom writes 00h to all other bytes of the file, and flashnor writes FFh.
regions() {
    row 'how regions are named and read'
    cp other rom.bin
    cp other nor.bin
    takes rom -l layout -i a -r rom.part
    takes nor -l layout -i a -r nor.part
    { head -c 4096 other; head -c $((size - 4096)) /dev/zero; } > zeros
    { head -c 4096 other; tail -c +4097 image; } > ones
    is_same rom.part zeros
    is_same nor.part ones
    takes rom -l layout -i a -i b -r out
    refuses "$unknown" nor -l layout -i a -i b -r out
    refuses 'Invalid region specified' rom -l layout -i a,b -r out
    takes nor -l layout -i a,b -r out
    takes rom -l layout -r out
    refuses 'Usage fault 7.' nor -l layout -r out
    refuses 'no layout data is available' rom -i a -r out
    refuses 'Usage fault 7.' nor -i a -r out
    takes rom -l layout -i a:piece -w image
    refuses 'Layout fault 8.' nor -l layout -i a:piece -w image --journal journal
}

layouts() {
    row 'how a layout is written'
    local format fault
    while IFS=' ' read -r fault format; do
        # shellcheck disable=SC2059  # `format` is a format of printf
        printf "$format" > layout
        takes rom -l layout -i a -r out
        if ((fault)); then
            refuses "Layout fault $fault at line 1." nor -l layout -i a -r out
        else
            takes nor -l layout -i a -r out
        fi
    done << 'END'
0 000000:000fff a\n
0 000000:000fff   a
0 0x0:0xFFF a\n
1 000000:000fff\ta\n
2 \040000000:000fff a\n
2 \t000000:000fff a\n
4 000000:000fff a\r\n
4 000000:000fff a word\n
4 000000:000fff a\040\n
END
    printf '000000:000fff a word\n001000:001fff b\n' > layout
    refuses 'Error parsing layout file' rom -l layout -i a -r out
    printf '# a comment\n000000:000fff a\n' > layout
    refuses 'Error parsing layout file' rom -l layout -i a -r out
    refuses 'Layout fault 1 at line 1.' nor -l layout -i a -r out
}

names() {
    row 'the names of chips'
    any='' takes rom -c W25Q128.V
    any='' refuses "Unknown chip 'W25Q128FV'" rom -c W25Q128FV
    takes nor -c W25Q128FV
    refuses 'Error 3: another chip than named.' nor -c W25Q128.V
}

standard_input() {
    row 'a file called -'
    takes rom -w -
    [[ ! -e - ]] || wrong "flashrom made a file called -"
    takes rom -v -
    refuses 'File fault 1: -.' nor -w - --journal journal
    refuses 'File fault 1: -.' nor -v -
    takes rom -r -
    is_same ./- image
    rm -- -
    takes nor -r -
    is_same ./- image
}

told_otherwise() {
    row 'what is told otherwise'
    takes rom --flash-name
    says 'name="W25Q128.V"'
    takes nor
    says 'Found W25Q128FV'
    takes rom -V
    takes rom -o log
    refuses "$unknown" nor --flash-name
    refuses "$unknown" nor -V
    refuses "$unknown" nor -o log
}

spellings() {
    row 'long spellings'
    local word
    for word in --read --write --verify --output; do
        takes rom "$word" image
        refuses "$unknown" nor "$word" image
    done
    run flashrom --programmer dummy:emulate=W25Q128FV || wrong "'flashrom --programmer' isn't taken"
    ! run "$program" --programmer dummy:emulate=W25Q128FV || wrong "'flashnor --programmer' is taken"
    for word in --help --erase --noverify --verbose --list-supported --version; do
        takes rom "$word"
        refuses "$unknown" nor "$word"
    done
    takes rom --layout layout --include a -r out
    refuses "$unknown" nor --layout layout --include a -r out
    any='' takes rom --chip W25Q128.V
    refuses "$unknown" nor --chip W25Q128FV
}

# Tests options that flashnor doesn't have. Some options of flashrom need data that this chip doesn't contain, such as
# an fmap. For these options flashrom must print that the data are missing, which shows that it knows the option.
left_out() {
    row 'what there is none of'
    local words
    for words in --wp-enable --wp-disable '--wp-region a -l layout' -R -f '-N -v image' '-x -l layout' \
        '--flash-contents image -v image'; do
        # shellcheck disable=SC2086  # the shell must split these words
        {
            takes rom $words
            refuses "$unknown" nor $words
        }
    done
    refuses 'Failed to read fmap from ROM' rom --fmap -r out
    refuses 'Failed to read fmap from buffer' rom --fmap-file image -r out
    refuses "Couldn't parse the descriptor" rom --ifd -r out
    for words in --fmap '--fmap-file image' --ifd; do
        # shellcheck disable=SC2086
        refuses "$unknown" nor $words -r out
    done
}

# Fails for each option that docs/FLASHROM.md names before its section on flashnor-serprog and that no row tried.
all_tried() {
    row "the options of docs/FLASHROM.md"
    local option
    # shellcheck disable=SC2016  # the backticks are those of the page
    sed '/^## flashnor-serprog/,$d' "$top/docs/FLASHROM.md" | grep -oE '`[^`]*`' | tr -d '`' |
        grep -oE -- '(^| )--?[A-Za-z][a-z-]*' | tr -d ' ' | sort -u > named
    [[ -s named ]] || wrong "docs/FLASHROM.md names no option"
    printf '%s\n' "${tried[@]}" | sort -u > were_tried
    while read -r option; do wrong "nothing tries $option"; done < <(comm -23 named were_tried)
}

same_options
emulated_chips
changes
protection
ranges
regions
layouts
names
standard_input
told_otherwise
spellings
left_out
all_tried
echo "rows: $rows rows on flashrom's options, $runs runs of it and of flashnor, $failed otherwise"
[[ $failed == 0 ]]
