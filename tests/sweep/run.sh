#!/usr/bin/env bash
# tests/sweep/run.sh [PROGRAM [RUN [NUMBER]]]: the allocation-failure test. Runs flashnor many times, and refuses one or
# more of its allocations. RUN selects one run by its name. For one of the first four runs, NUMBER selects the only
# allocation that is refused (0 refuses none).
#
# Four runs work on a TINY64 with given bytes. Each first runs without a refused allocation, and must print and leave
# what its line at the end of this script says. It is then repeated once for each of its allocations, which refuse.c
# refuses. It must end as usual, or with status 1 and one of the lines that report that memory ran out. After such a
# line, image and status must be as before the run. But if the line reports that one of the two was not written, the
# other must be as after the run. If there is a journal, it must be complete and restore the chip, or be a prefix of the
# usual journal.
#
# Four further sessions and their restores are refused every allocation while only the journal is used: from the moment
# in which the journal's file was created (or was closed after it was read) until the chip's file is written. Each must
# print and leave what its line says.
#
# The test ends at the first run that does something else, or that requests no memory at the point where an allocation
# must be refused. It prints the command that repeats this run, and ends with status 1. The run `wrong` checks that the
# test detects programs that print wrong lines, change the chip, or leave a wrong journal. The test needs a C compiler.
set -euo pipefail

top=$(cd "$(dirname "$0")/../.." && pwd)
program=${1:-$top/crates/flashnor/out/flashnor}
only=${2:-}
at=${3:-}
passed=0
size=65536

if ! command -v cc > /dev/null; then
    echo "skipped: sweep, since there is no C compiler (cc)"
    exit 0
fi
if [[ ! -x $program ]]; then
    echo "$program isn't built: 'make' proves and builds it." >&2
    exit 1
fi
program=$(realpath "$program")

work=$(mktemp -d)
trap 'rm -rf "$work"' EXIT
cd "$work"
cc -std=c11 -Wall -Wextra -O1 -shared -fPIC -o refuse.so "$top/tests/sweep/refuse.c"

# finish FAILED: prints the last line of the test, with the number of failed runs, and ends the script.
finish() {
    echo "sweep: $passed passed, $1 failed"
    exit "$1"
}

fail() {
    echo "sweep: $*" >&2
    finish 1
}

# refuse.c can refuse only malloc, calloc and realloc, so the program must not allocate memory with other functions.
nm -D --undefined-only "$program" > symbols || fail "nm tells no calls of $program"
others=$(grep -owE 'mmap|mmap64|s?brk|aligned_alloc|posix_memalign|memalign|valloc|reallocarray' symbols | xargs || true)
[[ -z $others ]] || fail "the program takes memory by $others too, which refuse.c doesn't refuse"

# bytes COUNT VALUE: prints COUNT bytes, each with the octal value VALUE.
bytes() { head -c "$1" /dev/zero | tr '\000' "\\$2"; }

# Creates images for the chips, a layout, and two status files. The status in `guarding` protects the last 128 KiB of a
# chip of 8 MiB.
make_files() {
    local large=8388608 place=8257536
    bytes $size 377 > erased
    { bytes 1 000; bytes $((size - 1)) 377; } > byte_00
    { bytes 1 001; bytes $((size - 1)) 377; } > byte_01
    { bytes 4096 000; bytes $((size - 4096)) 377; } > sector_00
    { bytes 2048 000; bytes 256 377; bytes 1792 000; bytes $((size - 4096)) 377; } > region_ff
    { bytes 36864 000; bytes $((size - 36864)) 377; } > nine_00
    bytes $size 000 > all_00
    bytes $large 377 > large_ff
    { bytes $place 377; bytes 1 000; bytes $((large - place - 1)) 377; } > guarded_00
    printf '\004\000' > guarding
    printf '\000\000' > clear
    echo '0x800:0x8ff bios' > layout
}

# begin BEFORE IMAGE: creates the chip's image with the bytes of BEFORE, and its status file with those of the file
# that `bits` names. Copies IMAGE to the file `wanted`, and removes the journal.
begin() {
    cp "$1" chip.bin
    cp "$2" wanted
    cp "$bits" status.bin
    rm -f journal
}

# attempt NUMBER JOURNAL ARGUMENTS..: runs the program, and refuses the allocation NUMBER and those while only JOURNAL
# is used (SPAN in refuse.c). The output goes to the files `said` and `faults`. `asked`, `refused`, `spans` and `until`
# are set to what refuse.c wrote: three counts and a file's name.
attempt() {
    local number=$1 journal=$2
    shift 2
    rm -f count
    status=0 asked=0 refused=0 spans=0 until=none
    timeout 60 env LD_PRELOAD="$work/refuse.so" REFUSE="$number" SPAN="$journal" COUNTED=count \
        "$program" -p "$chip" "$@" > said 2> faults || status=$?
    [[ ! -s count ]] || read -r asked refused spans until < count
}

# differs PROBLEM..: prints the problem of the current run, and ends the script. If `number` is empty, every allocation
# while only the journal is used was refused.
differs() {
    {
        echo "sweep: $run with allocation ${number:-after allocation} refused: $*; the status is $status. It printed"
        cat said faults
        echo "Run it again with: tests/sweep/run.sh $program $run $number"
    } >&2
    finish 1
}

# Succeeds if the run ended and printed as usual, that is, as without a refused allocation.
is_own() { [[ $status == 0 && ! -s faults && $(cat said) == "$answer" ]]; }

# Succeeds if the run reported that memory ran out. Sets `kind` to the fault or error in this report, and `unwritten` to
# the file of the chip that was not written, if any. If the run reported an unwritten file of the chip, and only then,
# it must have printed its result.
tells_memory() {
    local last
    unwritten=''
    last=$(cat faults)
    case $last in
        'Usage fault 10.' | 'Layout fault 7.') kind=${last%.} ;;
        'Error 18: out of memory.' | 'Error 11: journal not written.') kind=${last%%:*} ;;
        'File fault 1: chip.bin.' | 'File fault 1: status.bin.') kind=${last%%:*} ;;
        'File fault 2: journal.') kind=${last%%:*} ;;
        'File fault 1: wanted.' | 'File fault 1: layout.') is_given "${last:14:6}" && kind=${last%%:*} || return 1 ;;
        'File fault 2: chip.bin.' | 'File fault 2: status.bin.')
            kind=${last%%:*} unwritten=${last#*: }
            unwritten=${unwritten%.}
            ;;
        *) return 1 ;;
    esac
    [[ $status == 1 && $(cat said) == "${unwritten:+$answer}" ]]
}

# Succeeds if the file $1 is among the run's arguments.
is_given() { [[ " ${words[*]} " == *" $1 "* ]]; }

# Checks the chip, its status and the journal after a report that memory ran out.
check_left() {
    local file left=([0]="$before" [1]="$bits")
    [[ -z $unwritten ]] || left=([0]="$after" [1]="$bits")
    [[ $unwritten == chip.bin ]] || cmp -s chip.bin "${left[0]}" || differs "the image file was changed"
    [[ $unwritten == status.bin ]] || cmp -s status.bin "${left[1]}" || differs "the status file was changed"
    if [[ -e journal && -e saved ]] && cmp -s journal saved; then
        restores 0 ''
    elif [[ -n $unwritten && -e saved ]]; then
        differs "its journal isn't complete"
    elif [[ -e journal ]]; then
        file=$(stat -c %s journal)
        { [[ -e saved ]] && cmp -s -n "$file" journal saved; } || differs "its journal is no prefix of the right one"
        restores 1 'Error 15: journal fault 1.'
    fi
}

# restores STATUS ERROR: runs a restore, which must end with STATUS and print ERROR to standard error. Afterwards, the
# chip must be as before the session.
restores() {
    local ended=0
    "$program" -p "$chip" --restore journal > restored 2> unrestored || ended=$?
    [[ $ended == "$1" && $(cat unrestored) == "$2" ]] || differs "the restore ended with $ended: $(cat unrestored)"
    { cmp -s chip.bin "$before" && cmp -s status.bin "$bits"; } || differs "the restore leaves another chip"
}

# sweep RUN BEFORE IMAGE AFTER ANSWER ARGUMENTS..: tests a run with each of its allocations refused in turn. BEFORE and
# AFTER are the chip's bytes before and after the run, IMAGE is the file `wanted`, and ANSWER is the usual output of the
# run.
sweep() {
    run=$1 answer=$5 chip=$tiny bits=clear
    local before=$2 image=$3 after=$4 number=0 most own=0 kind unwritten words=("${@:6}")
    local -A told=()
    [[ -z $only || $only == "$run" ]] || return 0
    begin "$before" "$image"
    attempt 0 '' "${words[@]}"
    { is_own && cmp -s chip.bin "$after" && cmp -s status.bin "$bits"; } || differs "that isn't its own answer"
    ((asked > 0)) || differs "no allocation was counted"
    most=$asked
    rm -f saved
    [[ ! -e journal ]] || cp journal saved
    for ((number = ${at:-1}; number <= ${at:-$most}; number++)); do
        begin "$before" "$image"
        attempt "$number" '' "${words[@]}"
        ((refused == (number > 0))) || differs "$refused allocations were refused"
        if is_own; then
            cmp -s chip.bin "$after" || differs "the image file isn't what its own answer leaves"
            cmp -s status.bin "$bits" || differs "the status file isn't what its own answer leaves"
            [[ ! -e saved ]] || cmp -s journal saved || differs "the journal isn't that of its own answer"
            own=$((own + 1))
        elif tells_memory; then
            check_left
            told[$kind]=$((${told[$kind]:-0} + 1))
        else
            differs "that is neither its own answer nor a lack of memory"
        fi
        passed=$((passed + 1))
    done
    if [[ -n $at ]]; then
        echo "$run with allocation $at refused:" "$(cat said faults)"
    else
        echo "$run: $most allocations refused in turn, $own own answers, the rest by $(kinds); no difference"
    fi
}

# span RUN CHIP BEFORE AFTER ANSWER UNDONE ARGUMENTS..: tests a session and its restore with every allocation refused
# while only the journal is used. BEFORE and AFTER are the chip's bytes before and after the session. ANSWER is the
# output of the session, and UNDONE that of the restore.
span() {
    run=$1 chip=$2 answer=$5 bits=clear
    [[ $chip == "$tiny" ]] || bits=guarding
    local before=$3 after=$4 undone=$6 number='' in_session
    shift 6
    [[ -z $only || $only == "$run" ]] || return 0
    begin "$before" "$after"
    attempt_without_memory "$after" "$@" --journal journal
    in_session=$((refused - spans))
    answer=$undone
    attempt_without_memory "$before" --restore journal
    echo "$run: each allocation refused, $in_session of the session, $((refused - spans)) of its restore; no difference"
}

# attempt_without_memory AFTER ARGUMENTS..: runs the program, and refuses every allocation while only the journal is
# used. The chip must then have the bytes of AFTER.
attempt_without_memory() {
    local bytes=$1
    shift
    attempt 0 journal "$@"
    ((spans == 1)) || differs "there were $spans spans of the journal's file"
    [[ $until == chip.bin ]] || differs "the span didn't last until the chip's file was written, but $until"
    ((refused >= 1)) || differs "nothing was refused"
    { is_own && cmp -s chip.bin "$bytes" && cmp -s status.bin "$bits"; } || differs "that isn't its own answer"
    passed=$((passed + 1))
}

# Prints each fault or error (`kind`) that reported that memory ran out, with the number of runs that ended with it.
kinds() {
    for kind in "${!told[@]}"; do echo "$kind (${told[$kind]})"; done | sort | paste -sd, | sed 's/,/, /g'
}

# wrong COMMANDS WHAT: tests a program that runs COMMANDS if one of its allocations is refused. This script must fail
# for this program, and print WHAT.
wrong() {
    local printed status=0
    [[ -z $only || $only == wrong ]] || return 0
    # The stub reads the number of the refused allocation from REFUSE. It makes this number of allocations, and runs
    # COMMANDS. If the number is 0 or missing, or the stub has no arguments, it runs the program instead.
    [[ -x stub ]] || cc -std=gnu11 -O1 -x c -o stub - << EOT
#include <stdlib.h>
#include <unistd.h>
static void *(*volatile ask)(size_t) = malloc;
int main(int count, char **arguments) {
    const char *refused = getenv("REFUSE");
    unsigned long number = refused && count > 1 ? strtoul(refused, NULL, 10) : 0;
    if (number == 0) return execv("$program", arguments);
    while (number-- > 0) free(ask(1));
    unsetenv("LD_PRELOAD");
    return system(getenv("WRONG")) != 0;
}
EOT
    printed=$(WRONG=$1 bash "$top/tests/sweep/run.sh" "$PWD/stub" a_byte_with_a_journal 7 2>&1) || status=$?
    if [[ $status == 1 && $printed == *"$2"* ]]; then
        passed=$((passed + 1))
    else
        fail "a program that does this if an allocation is refused is not detected: $1"
    fi
}

make_files
tiny=dummy:emulate=TINY64,image=chip.bin,status=status.bin
large=dummy:emulate=W25Q64FV,image=chip.bin,status=status.bin
found="Found SFDP (fe1010), $size bytes."
# The next two runs also detect a program that always reports a lack of memory for its image (the first run) or layout.
sweep memory_for_image erased erased erased "$found
Done: touched 0, erases 0, programs 0, transactions 23." -w wanted --journal journal
sweep layout_memory sector_00 erased region_ff "$found
Done: touched 1, erases 1, programs 15, transactions 57." -w wanted -l layout -i bios --journal journal
sweep a_byte_with_a_journal byte_00 byte_01 byte_01 "$found
Done: touched 1, erases 1, programs 1, transactions 30." -w wanted --journal journal
sweep a_byte_rehearsed byte_00 byte_01 byte_00 "Rehearsal: session stopped.
Restores: 1.
Chip as before." -w wanted --rehearse 25
found_large="Found W25Q64FV (ef4017), 8388608 bytes."
span a_byte_without_memory $tiny byte_00 byte_01 "$found
Done: touched 1, erases 1, programs 1, transactions 30." "$found
Done: touched 1, erases 0, programs 1, transactions 13." -w wanted
span nine_sectors_without_memory $tiny nine_00 erased "$found
Done: touched 9, erases 2, programs 0, transactions 38." "$found
Done: touched 9, erases 0, programs 144, transactions 466." -w wanted
span all_sectors_without_memory $tiny all_00 erased "$found
Done: touched 16, erases 1, programs 0, transactions 42." "$found
Done: touched 16, erases 0, programs 256, transactions 823." -w wanted
span unlock_without_memory $large large_ff guarded_00 "$found_large
Done: touched 1, erases 0, programs 1, transactions 2063." "$found_large
Done: touched 1, erases 1, programs 0, transactions 15." -w wanted --unlock
fault='File fault 2:' done="Found SFDP (fe1010), $size bytes.
Done: touched 1, erases 1, programs 1, transactions 30."
wrong "echo '$fault chip.binary.' >&2; exit 1" 'neither its own answer nor a lack of memory'
wrong "echo '$done'; echo '$fault journal.' >&2; exit 1" 'neither its own answer nor a lack of memory'
wrong "cp wanted chip.bin; echo '$fault journal.' >&2; exit 1" 'the image file was changed'
wrong "cp guarding status.bin; echo 'Error 18: out of memory.' >&2; exit 1" 'the status file was changed'
wrong "echo '$done'; echo '$fault chip.bin.' >&2; exit 1" "its journal isn't complete"
wrong "cp saved journal; echo '$done'; cp guarding chip.bin; echo '$fault status.bin.' >&2; exit 1" 'the image file was'
wrong "head -c 99 wanted > journal; echo 'Error 11: journal not written.' >&2; exit 1" 'its journal is no prefix'
((passed > 0)) || fail "there is no run $only"
finish 0
