#!/usr/bin/env bash
# tests/kill/run.sh [PROGRAM [RUN [CALL HOW]]]: the crash test. Kills flashnor at its calls on files, and makes these
# calls fail, as the function `ways` says. RUN selects one run by its name, CALL one call of the run by its number, and
# HOW one of the ways of cut.c in which this call is interrupted (for a run `lost/..`, an event and a choice).
#
# There are ten sessions, each on a chip with given files (or none), ten restores from their journals, a read and a
# rehearsal. An uninterrupted run must print and leave what its line at the end of this script says. A run with one
# interrupted call (laws.sh) must meet these requirements:
#   - If it is killed, it has printed nothing before all files are written. Otherwise it prints its usual result, the
#     lines for the failure, or both.
#   - Each file that could be written is as it must be, including the trace and the file of -r.
#   - The steps of RECOVERY in flashnor(8) work. Either `--restore` ends with status 0, and image and status are then as
#     before the session. Or the journal is missing, or `--restore` reports that it is incomplete, and image and status
#     are still as before the session.
# If a run fails, its first failure is printed with the command that repeats it (if ALL is set, each failure), and the
# exit status is 1.
#
# The runs `folders`, `locks` and `modes` are further checks (checks.sh). Then the test tries host crashes (lost.py), in
# the runs `lost/..`, and mutants that it must detect (self.sh). The test needs a C compiler.
set -euo pipefail

top=$(cd "$(dirname "$0")/../.." && pwd)
program=${1:-$top/crates/flashnor/out/flashnor}
only=${2:-}
at=${3:-}
way=${4:-}
passed=0
failed=0
part=''
names=()

if ! command -v cc > /dev/null; then
    echo "skipped: kill, since there is no C compiler (cc)"
    exit 0
fi
if [[ ! -x $program ]]; then
    echo "$program isn't built: 'make' proves and builds it." >&2
    exit 1
fi
program=$(realpath "$program")

work=$(mktemp -d)
trap 'rm -rf "$work"' EXIT
mkdir "$work/chip"
cd "$work/chip"
# shellcheck source=tests/kill/laws.sh
. "$top/tests/kill/laws.sh"
# shellcheck source=tests/kill/checks.sh
. "$top/tests/kill/checks.sh"
cc -std=c11 -O1 -shared -fPIC -o ../cut.so "$top/tests/kill/cut.c"

# Prints the last line, with the counts, and ends the script. A part (`begin_part`) only ends, with status 1.
finish() {
    [[ -z $part ]] || exit 1
    echo "kill: $passed passed, $failed failed"
    exit $((failed > 0))
}

tell() {
    echo "kill: $*" >&2
    failed=$((failed + 1))
}

fail() {
    tell "$*"
    finish
}

# The program may import only those functions on files that cut.c intercepts, because no other call could be
# interrupted.
changing='open|creat|write|trunc|sync|rename|link|remove|fallocate|splice|tee|sendfile|copy_file|mmap|temp|syscall'
changing+='|chmod|chown|utime|mkdir|rmdir|mknod|mkfifo|lock|stat|seek|dup|fcntl'
files=(image status trace out journal)
nm -D --undefined-only "$program" > ../symbols || fail "nm tells no calls of $program"
others=$(awk '{ sub(/@.*/, "", $NF); print $NF }' ../symbols | grep -E "$changing" | grep -v '^pthread_' |
    grep -vxF -f <(nm -D --defined-only ../cut.so | awk '{ print $NF }') || true)
[[ -z $others ]] || fail "the program makes calls that cut.c doesn't know: ${others//$'\n'/ }"

# bytes COUNT VALUE: prints COUNT bytes, each with the octal value VALUE.
bytes() { head -c "$1" /dev/zero | tr '\000' "\\$2"; }

# Creates images for chips of 64 KiB and of 8 MiB, which have FFh in most bytes, a layout, and status files.
make_files() {
    local tiny=65536 large=8388608 guarded=131072
    bytes $tiny 377 > erased
    { bytes 1 000; bytes $((tiny - 1)) 377; } > byte_00
    { bytes 1 001; bytes $((tiny - 1)) 377; } > byte_01
    { bytes 4096 000; bytes $((tiny - 4096)) 377; } > sector_00
    { bytes 4096 132; bytes $((tiny - 4096)) 377; } > sector_5a
    { bytes 16384 377; bytes 1 000; bytes $((tiny - 16385)) 377; } > one_of_two
    { bytes 16384 377; bytes 1 001; bytes 24575 377; bytes 1 245; bytes $((tiny - 40961)) 377; } > two_sectors
    { bytes 1 001; bytes $((tiny - 2)) 377; bytes 1 245; } > both_ends
    { bytes 4096 000; bytes $((large - guarded - 4096)) 377; bytes 1 000; bytes $((guarded - 1)) 377; } > guarded_00
    { bytes 4096 000; bytes $((large - guarded - 4096)) 377; bytes 1 001; bytes $((guarded - 1)) 377; } > guarded_01
    echo '0x7e0000:0x7fffff top' > layout
    printf '\000\000' > clear
    printf '\004\000' > guarding
}

# Prints the non-volatile bits of a status file: all except BUSY, WEL and SUS, which may be set after a stop.
kept_bits() { od -An -tu1 "$1" | while read -r one two; do echo $((one & 0xfc)) $((two & 0x7f)); done; }

# have IMAGE STATUS: succeeds if the chip's files have these contents. For `-` the file may be missing, or be that of an
# erased chip.
have() {
    local image=${1/#-/erased} status=${2/#-/clear}
    [[ $1 == - && ! -e image ]] || cmp -s image "../$image" || return 1
    [[ $2 == - && ! -e status ]] || cmp -s status "../$status" ||
        [[ $(stat -c %s status) == 2 && $(kept_bits status) == "$(kept_bits "../$status")" ]]
}

# attempt NUMBER HOW ARGUMENTS..: runs the program, and interrupts the call NUMBER in the way HOW (0 interrupts none).
# The output goes to the files `said` and `faults`, the calls go to the file `calls`, and `ended` is set to the exit
# status.
attempt() {
    local number=$1 how=$2
    shift 2
    : > calls
    ended=0
    {
        LD_PRELOAD=$work/cut.so CALL=$number HOW=$how CALLS=calls "$program" "$@" > said 2> faults || ended=$?
    } 2> killed
}

# Creates the chip's files as they are before the run (`-` in `from`: no file) and, for a restore, its journal.
begin() {
    rm -f "${files[@]}" ./*.old
    [[ ${from[0]} == - ]] || cp "../${from[0]}" image
    [[ ${from[1]} == - ]] || cp "../${from[1]}" status
    [[ -z $sealed ]] || cp "$kept" journal
}

# Succeeds if the run printed its usual result and left the right files: those of the uninterrupted run (`own`) or, in
# the uninterrupted run itself, the image and status that `to` names.
is_own() {
    local printed=said none=faults status=0
    [[ $answer != Error* ]] || printed=faults none=said status=1
    [[ $ended == "$status" && $(< "$printed") == "$answer" && ! -s $none ]] || return 1
    if [[ -d $own ]]; then is_as_own "${files[@]}"; else have "${to[@]}"; fi
}

# Runs a restore. If the restore reports that a file which the session created has the wrong length, moves this file
# away and repeats the restore.
rescue() {
    local i file=(image status)
    attempt 0 '' -p "$chip" --restore journal
    for i in 0 1; do
        if [[ ${before[i]} == - && $(cat faults) == "File fault 3: ${file[i]}." ]]; then
            mv "${file[i]}" ../aside
            attempt 0 '' -p "$chip" --restore journal
        fi
    done
}

# A restore prints this line if its journal was never sealed.
unsealed='Error 15: journal fault 1.'

# Succeeds if the rescue restores the chip. After an interrupted session, the journal may also be incomplete or missing,
# but then the chip must be as before.
is_given_back() {
    if [[ -e journal ]]; then
        rescue
        [[ $ended == 0 && ! -s faults ]] ||
            [[ -z $sealed && $ended == 1 && $(cat said faults) == "$unsealed" ]]
    else
        [[ -z $sealed ]]
    fi && have "${before[@]}"
}

# Succeeds if the rescue restores the chip. If an earlier run left equal files, the rescue isn't repeated.
is_rescued() {
    local left
    left="files: $(cksum image status journal 2> /dev/null || true)"
    [[ -z ${rescued[$left]:-} ]] || return 0
    is_given_back || return 1
    rescued[$left]=yes
}

# cut_off NUMBER HOW: runs the program, interrupts the call NUMBER in the way HOW, and counts the result.
cut_off() {
    local number=$1 how=$2 call=${made[$1 - 1]:-none} problem=''
    runs=$((runs + 1))
    begin
    attempt "$number" "$how" "${words[@]}"
    ended_rightly "$number" "$call" "$how" ||
        problem="it ended with $ended, or left files, as it must not. $(cat said faults)"
    is_rescued || problem=${problem:-"the chip is lost. --restore ended with $ended. $(cat said faults)"}
    [[ -z $sealed ]] || cmp -s journal "$kept" || problem=${problem:-"its journal was changed"}
    if [[ -z $problem ]]; then
        passed=$((passed + 1))
        return
    fi
    failed=$((failed + 1)) lost=$((lost + 1))
    [[ -z ${ALL:-} ]] && ((lost > 1)) || echo "kill: $run, call $number ($call), $how: $problem
Run it again with: tests/kill/run.sh $program $run $number $how" >&2
}

# Tries host crashes (lost.py), unless run.sh was given the name of another run. If run.sh was given no name at all,
# also checks that mutants are detected (self.sh). Without Python, does neither.
lose_machines() {
    local status=0 last
    [[ -z $only || $only == lost/* ]] || return 0
    if ! command -v python3 > /dev/null; then
        echo "skipped: lost machines, since there is no Python (python3)"
        return
    fi
    # Empty arguments are left out.
    python3 -B "$top/tests/kill/lost.py" "$program" ../cut.so ${only:+"$only"} ${at:+"$at"} ${way:+"$way"} |
        tee ../machines || status=$?
    last=$(tail -n 1 ../machines)
    if [[ $last =~ ^'lost machines: '([0-9]+)' '.*' '([0-9]+)' lost the chip'$ ]]; then
        passed=$((passed + BASH_REMATCH[1] - BASH_REMATCH[2])) failed=$((failed + BASH_REMATCH[2]))
    fi
    ((status == 0 || failed > 0)) || tell "lost.py ended with $status"
    [[ -z $only ]] || return 0
    bash "$top/tests/kill/self.sh" "$program" ../cut.so | tee ../wrong || true
    last=$(tail -n 1 ../wrong)
    [[ $last =~ ^([0-9]+)' passed, '([0-9]+)' failed'$ ]] || fail "self.sh doesn't come to its end"
    passed=$((passed + BASH_REMATCH[1])) failed=$((failed + BASH_REMATCH[2]))
}

# Prints the number of the last call on the journal before image and status are written: a read, write or sync of the
# journal, or a stat or fstat that directly follows. If the run has no journal, prints the number of all calls.
last_before() {
    local i is_last=''
    for ((i = ${#made[@]}; i > 0; i--)); do
        case ${made[i - 1]} in
            'read journal' | 'write journal' | 'fsync journal') is_last=yes && break ;;
        esac
    done
    [[ -n $is_last ]] || i=${#made[@]}
    while [[ ${made[i]:-} == 'statx journal' || ${made[i]:-} == 'fstat journal' ]]; do i=$((i + 1)); done
    echo "$i"
}

# Runs the program once without an interruption, and then once for each call and each way to interrupt it.
cut_each() {
    local number how runs=0 lost=0 made called own=../own.${run//\//.}
    local -A rescued=()
    begin
    attempt 0 '' "${words[@]}"
    is_own || fail "$run: without an interruption it ended with $ended: $(cat said faults)"
    [[ -s calls ]] || fail "$run makes no call on a file"
    mapfile -t made < calls
    called=$(last_before)
    mkdir "$own"
    for how in "${files[@]}"; do [[ ! -e $how ]] || cp "$how" "$own"; done
    check_order
    [[ -n $sealed || -z $kept ]] || keep_journal
    [[ -z $only || $only == "$run" ]] || return 0
    for ((number = ${at:-1}; number <= ${at:-${#made[@]}}; number++)); do
        for how in ${way:-$(ways "$number")}; do cut_off "$number" "$how"; done
    done
    echo "$run: ${#made[@]} calls, $runs runs, $lost lost"
}

# Keeps the journal for the restores. Also checks that `is_given_back` fails if the program does nothing, and if a byte
# of the image is wrong that the journal doesn't save.
keep_journal() {
    cp journal "$kept"
    ! program=true is_given_back || fail "$run passes as restored by a program that does nothing"
    printf '\132' | dd of=image bs=1 seek=50000 conv=notrunc status=none
    ! is_given_back || fail "$run passes as restored although another byte was changed"
}

# begin_part NAME: starts a part of the test, in its own directory. Several parts can run at once, and `gather` then
# prints their output and adds their counts.
begin_part() {
    part=$1 passed=0 failed=0
    trap end_part EXIT
    mkdir "../in.$part"
    cd "../in.$part"
}

# shellcheck disable=SC2317  # the trap calls this function
end_part() {
    local status=$?
    ((status == 0 || failed > 0)) || tell "$part ended with $status"
    echo "$passed $failed" > "$work/$part.counts"
}

# await_core NAME: waits until a core is free for the part of this name.
await_core() {
    while (($(jobs -rp | wc -l) >= $(nproc))); do wait -n || true; done
    names+=("$1")
}

gather() {
    local name counts
    wait
    for name in ${names[@]+"${names[@]}"}; do
        cat "../$name.said"
        cat "../$name.faults" >&2
        read -r -a counts < "../$name.counts"
        passed=$((passed + counts[0])) failed=$((failed + counts[1]))
    done
}

# job NAME CHIP BEFORE AFTER END UNDONE ARGUMENTS..: tests a session with ARGUMENTS, and its restore. BEFORE and AFTER
# are image and status before and after the session. END is what the session prints, and UNDONE what the restore prints.
# If `stop` is set, it is added to CHIP for the session.
job() {
    [[ -z $only || ${only%/restore} == "$1" ]] || return 0
    await_core "$1"
    { begin_part "$1"; cut_session "${stop:-}" "$@"; } > "../$1.said" 2> "../$1.faults" &
}

cut_session() {
    local stop=$1 run=$2 chip=$3 answer=$6 undone=$7 kept=../$2.journal from to sealed=''
    local before after deep='' words=(-p "$3$1" "${@:8}" --journal journal)
    case $run in one_byte | no_files | traced) deep=yes ;; esac
    read -r -a before <<< "$4"
    read -r -a after <<< "$5"
    from=("${before[@]}") to=("${after[@]}")
    cut_each
    run=$run/restore from=("${after[@]}") to=("${before[@]}") sealed=yes answer=$undone
    words=(-p "$chip" --restore journal)
    cut_each
}

# look NAME CHIP BEFORE END ARGUMENTS..: tests a run that leaves image and status as they are (BEFORE), creates no
# journal, and prints END.
look() {
    [[ -z $only || $only == "$1" ]] || return 0
    await_core "$1"
    { begin_part "$1"; cut_look "$@"; } > "../$1.said" 2> "../$1.faults" &
}

cut_look() {
    local run=$1 chip=$2 answer=$4 kept='' sealed='' deep=yes words=(-p "$2" "${@:5}") before from to
    read -r -a before <<< "$3"
    from=("${before[@]}") to=("${before[@]}")
    cut_each
}

# `tiny` and `large` print the result of a session or restore with these counts, for a chip of 64 KiB and of 8 MiB.
counts() { printf 'Done: touched %s, erases %s, programs %s, transactions %s.' "$@"; }
tiny() { printf 'Found SFDP (fe1010), 65536 bytes.\n%s' "$(counts "$@")"; }
large() { printf 'Found W25Q64FV (ef4017), 8388608 bytes.\n%s' "$(counts "$@")"; }

(cd .. && make_files)
on_tiny=dummy:emulate=TINY64,image=image,status=status
on_large=dummy:emulate=W25Q64FV,image=image,status=status
# The longest jobs start first.
job protect $on_large 'guarded_00 clear' 'guarded_00 guarding' "$(large 0 0 0 7)" "$(large 0 0 0 7)" \
    --wp-range 0x7e0000,0x20000
job unlock $on_large 'guarded_00 guarding' 'guarded_01 guarding' "$(large 1 1 1 49)" "$(large 1 0 1 16)" \
    -w ../guarded_01 -l ../layout -i top --unlock
job one_byte $on_tiny 'byte_00 clear' 'byte_01 clear' "$(tiny 1 1 1 30)" "$(tiny 1 0 1 13)" -w ../byte_01
job two_sectors $on_tiny 'one_of_two clear' 'two_sectors clear' "$(tiny 2 1 2 35)" "$(tiny 2 1 1 18)" -w ../two_sectors
job both_ends $on_tiny 'byte_00 clear' 'both_ends clear' "$(tiny 2 1 2 35)" "$(tiny 2 1 1 18)" -w ../both_ends
job erase $on_tiny 'sector_00 clear' 'erased clear' "$(tiny 1 1 0 27)" "$(tiny 1 0 16 58)" -E
job no_files $on_tiny '- -' 'byte_01 clear' "$(tiny 1 0 1 28)" "$(tiny 1 1 0 12)" -w ../byte_01
stop=,stop=25 job power_lost $on_tiny,busy=2,power=5A 'byte_00 clear' 'sector_5a clear' 'Error 12: stopped.' \
    "$(tiny 1 1 1 19)" -w ../byte_01
traced=$on_tiny,trace=trace
job traced $traced 'byte_00 clear' 'byte_01 clear' "$(tiny 1 1 1 30)" "$(tiny 1 0 1 13)" -w ../byte_01
job status_alone dummy:emulate=W25Q64FV,status=status '- clear' '- guarding' "$(large 0 0 0 7)" "$(large 0 0 0 7)" \
    --wp-range 0x7e0000,0x20000
look read $traced 'byte_00 clear' $'Found SFDP (fe1010), 65536 bytes.\nRead 65536 bytes.' -r out
look rehearse $traced 'byte_00 clear' $'Rehearsal: session stopped.\nRestores: 1.\nChip as before.' \
    -w ../byte_01 --rehearse 25
gather
check folders
check locks
check modes
lose_machines
((passed + failed > 0)) || fail "there is no such run or call"
finish
