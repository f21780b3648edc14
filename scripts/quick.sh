#!/usr/bin/env bash
# scripts/quick.sh [PROGRAM [CRATE..]]: makes checks that need no proof and take a few minutes.
#
# The script checks that the sources are formatted, that the pages agree with them, and that each crate compiles. It
# runs each program as `rt ci` does, with the files `args`, `stdin` and `data/` of its crate. The program must print the
# contents of `stdout`, and end with the status in `status`. If crates are given, only these are tried, so only they and
# the crates that they use are compiled. In place of a library without tests, the first crate of crates.txt that has
# tests or a program and depends on the library is tried. If flashnor or transcripts is built from the current sources,
# it must pass its cases.
#
# Nothing is proved. If a step fails, the end of its output is printed. The last line has the counts, and the exit
# status is 1 if a step failed. Some programs and tests would run for minutes in this way: `rows` and `bench` are only
# compiled, and `storm` and `transcripts` get only one case.
set -euo pipefail

top=$(cd "$(dirname "$0")/.." && pwd)
program=$(realpath -m "${1:-$top/crates/flashnor/out/flashnor}")
tried=("${@:2}")
work=$(mktemp -d)
trap 'rm -rf "$work"' EXIT
passed=0
failed=0
# The crates in `compiled` are only compiled. The programs in `one_case` get only one case.
compiled=" rows bench "
one_case=" storm transcripts "
# A crate must be compiled and run in this number of seconds, even on a busy machine.
most=900

if ! command -v rt > /dev/null; then
    echo "'rt' isn't found: it comes with Rattle's kit, whose folder bin has to be in PATH." >&2
    exit 1
fi
cd "$top"
if ((${#tried[@]} == 0)); then
    # The largest crates start first, so that none of them runs alone at the end.
    mapfile -t tried < <(du -s crates/*/src | sort -rn | sed 's|.*crates/\(.*\)/src|\1|')
fi
for crate in "${tried[@]}"; do
    [[ -d crates/$crate/src ]] || { echo "there is no crate '$crate'" >&2; exit 1; }
done

# count NAME STATUS LOG: prints whether a step passed, counts it, and prints the end of its output if it failed.
count() {
    if [[ $2 == 0 ]]; then
        echo "$1: passed"
        passed=$((passed + 1))
    else
        tail -n 40 "$3"
        echo "$1: FAILED"
        failed=$((failed + 1))
    fi
}

# step NAME COMMAND..: runs the command as a step of this name.
step() {
    local name=$1 status=0
    shift
    "$@" > "$work/said" 2>&1 || status=$?
    count "$name" "$status" "$work/said"
}

# Succeeds if `rt fmt` changes nothing in a copy of the sources.
is_laid_out() {
    local crate
    mkdir "$work/tree"
    git ls-files -z -- crates crates.txt | xargs -0 tar c | tar x -C "$work/tree"
    git -C "$work/tree" init -q
    git -C "$work/tree" add -A
    for crate in "$work"/tree/crates/*; do (cd "$crate" && rt fmt > /dev/null); done
    if ! git -C "$work/tree" diff --quiet; then
        echo "not in rt fmt's layout:"
        git -C "$work/tree" diff --name-only
        return 1
    fi
}

# Plays all cases of crates/transcripts/stdin with the built program of transcripts.
play_transcripts() {
    "$top/crates/transcripts/out/transcripts" < "$top/crates/transcripts/stdin"
}

has_tests() { grep -rqF '#[test]' "$top/crates/$1/src"; }

is_tried() { [[ -f $top/crates/$1/src/main.rt ]] || has_tests "$1"; }

# tried_for CRATE: prints the crate that is tried for CRATE. This is the first crate of crates.txt that has tests or a
# program, and is CRATE or depends on it. If there is none, prints CRATE.
tried_for() {
    local crate
    while IFS= read -r crate; do
        if is_tried "$crate"; then
            echo "$crate"
            return
        fi
    done < <(awk -v lowest="$1" '
        BEGIN { found[lowest] }
        /^[^#]/ { name = $1; sub(/:$/, "", name); for (i = 2; i <= NF; i++) if ($i in found) found[name] }
        name in found { print name; name = "" }' crates.txt)
    echo "$1"
}

# try_crate CRATE DIRECTORY: tries a crate without a proof. Runs its tests, or its program with the files of the crate,
# and writes the output and the status to DIRECTORY.
try_crate() {
    local seconds=200 words=() input=/dev/null file
    cd "$top/crates/$1"
    [[ $compiled != *" $1 "* ]] || seconds=1
    if has_tests "$1"; then
        words=(--test)
    elif [[ -f src/main.rt ]]; then
        while IFS= read -r -d '' file; do words+=(--data "$file=data/$file"); done < \
            <(if [[ -d data ]]; then find data -type f -printf '%P\0' | sort -z; fi)
        words+=(--)
        [[ ! -f args ]] || mapfile -t -O ${#words[@]} words < args
        [[ ! -f stdin ]] || input=stdin
        case $1 in
            storm) words=(-- 1 1) ;;
            transcripts)
                input=$2/first_case
                awk '/^case / { n++ } n <= 1' stdin > "$input"
                ;;
        esac
    else
        echo "$1 has no tests, and no program depends on it" > "$2/$1.log"
        echo 1 > "$2/$1.status"
        return
    fi
    timeout "$most" rt try --seconds "$seconds" "${words[@]}" < "$input" > "$2/$1.printed" 2> "$2/$1.log"
    echo $? > "$2/$1.status"
}
export -f has_tests try_crate
export top most compiled

# Succeeds if a crate that is only compiled did compile, and its run succeeded or was ended after a second. Status 6 of
# `rt try` means that the run did not end in time.
is_compiled() {
    local status
    cat "$work/$1.log"
    status=$(< "$work/$1.status")
    [[ $status != 124 ]] || echo "it wasn't compiled and run in $most seconds"
    [[ $status == 0 || $status == 6 ]]
}

# Succeeds if a program ended with the status in its crate's file `status` (0 if there is no such file), and printed the
# contents of `stdout` (nothing if there is no such file). A program in `one_case` must print `1 passed, 0 failed`
# instead. The status of `rt try` doesn't show this, because 1 to 6 may also mean that the program was refused or did
# not end.
is_as_wanted() {
    local wanted=0 expected=/dev/null status
    cat "$work/$1.log"
    [[ ! -f crates/$1/status ]] || wanted=$(< "crates/$1/status")
    [[ ! -f crates/$1/stdout ]] || expected=crates/$1/stdout
    [[ $one_case != *" $1 "* ]] || expected=$work/one_passed
    [[ $(< "$work/$1.status") != 124 ]] || echo "it wasn't compiled and run in $most seconds"
    status=$(sed -n 's/^run=ended status=\([0-9]*\) .*/\1/p' "$work/$1.log" | tail -n 1)
    [[ $status == "$wanted" ]] || { echo "the program's status is ${status:-unknown}, and not $wanted"; return 1; }
    diff "$expected" "$work/$1.printed"
}

# count_try CRATE: checks and counts the result of a crate's try.
count_try() {
    local what="the program $1"
    [[ -f crates/$1/src/main.rt ]] || what="the tests of $1"
    if [[ $compiled == *" $1 "* ]]; then
        step "$what, only compiled" is_compiled "$1"
    elif [[ -f crates/$1/src/main.rt ]] && ! has_tests "$1"; then
        step "$what" is_as_wanted "$1"
    else
        count "$what" "$(< "$work/$1.status")" "$work/$1.log"
    fi
}

# on_built NAME FILE COMMAND..: runs the command as a step if the program FILE is newer than the sources of all crates.
# If a source was removed, its directory is newer than the program.
on_built() {
    local name=$1 file=$2 newer=
    shift 2
    if [[ ! -x $file ]]; then
        echo "not run: $name isn't built ('rt run' in its crate proves and builds it)"
        return
    fi
    newer=$(find crates.txt crates/*/{src,specs,proofs} -newer "$file" -print -quit 2> /dev/null || true)
    if [[ $newer ]]; then
        echo "not run: $name is older than $newer"
    else
        step "$name" "$@"
    fi
}

mapfile -t tried < <(for crate in "${tried[@]}"; do tried_for "$crate"; done | awk '!seen[$0]++')
step "layout of the sources" is_laid_out
step "the pages agree" bash scripts/agree.sh
echo "1 passed, 0 failed" > "$work/one_passed"
printf '%s\n' "${tried[@]}" | xargs -P "${RT_JOBS:-$(nproc)}" -I{} bash -c "try_crate {} '$work' || true"
while IFS= read -r crate; do count_try "$crate"; done < <(printf '%s\n' "${tried[@]}" | sort)
on_built "the built program" "$program" tests/flashnor/run.py "$program"
on_built "the built transcripts" crates/transcripts/out/transcripts play_transcripts
echo "quick: $passed passed, $failed failed"
[[ $failed == 0 ]]
