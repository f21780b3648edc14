#!/usr/bin/env bash
# scripts/case.sh NAME: plays the case NAME of crates/transcripts/stdin.
#
# If the built program of transcripts is newer than the sources of all crates, this program plays the case. Otherwise
# the program is compiled without a proof, which takes up to a minute. The script prints what the program prints (a
# failure names the line of `stdin`). Its exit status is 0 only if the case was played and passed.
set -euo pipefail

name=${1-}
cd "$(dirname "$0")/../crates/transcripts"
work=$(mktemp -d)
trap 'rm -rf "$work"' EXIT
program=out/transcripts

# The lines of other cases become empty lines, so the lines of this case keep their numbers.
awk -v name="$name" '/^case / { is_it = substr($0, 6) == name } { print is_it ? $0 : "" }' stdin > "$work/case"
if ! grep -q '^case ' "$work/case"; then
    echo "crates/transcripts/stdin has no case '$name'. Give one of these: make case NAME='..'" >&2
    sed -n 's/^case /  /p' stdin >&2
    exit 1
fi

is_current() {
    [[ -x $program ]] &&
        [[ ! $(find ../../crates.txt ../*/{src,specs,proofs} -newer "$program" -print -quit 2> /dev/null) ]]
}

status=0
if is_current; then
    timeout 60 "$program" < "$work/case" > "$work/printed" 2> "$work/said" || status=$?
else
    rt try < "$work/case" > "$work/printed" 2> "$work/said" || status=$?
    # The status of `rt try` may be 0 even if the program did not end.
    grep -q '^run=ended ' "$work/said" || status=1
fi
cat "$work/printed"
if [[ $status == 0 && $(< "$work/printed") == "1 passed, 0 failed" ]]; then
    exit 0
fi
grep -q ' passed, ' "$work/printed" || { cat "$work/said"; echo "the case '$name' gave no answer"; } >&2
exit 1
