#!/usr/bin/env bash
# scripts/proved.sh PROGRAM COMMAND..: runs the command, which proves and builds PROGRAM, and then writes PROVED-WITH in
# the program's directory. PROVED-WITH has the toolchain, the commit (with `-dirty` if sources weren't committed, and
# `unknown` if git doesn't track crates.txt) and the program's checksum.
#
# The script sets the time of the program to the time at which the command began. A source that was edited during the
# build is then newer than the program. If the command fails, the script leaves no PROVED-WITH, and ends with the
# command's status.
set -euo pipefail

program=$1
folder=$(dirname "$program")
shift
cd "$(dirname "$0")/.."
begun=$(mktemp)
trap 'rm -f "$begun"' EXIT

commit=unknown
if git ls-files --error-unmatch crates.txt > /dev/null 2>&1; then
    commit=$(git rev-parse HEAD)
    changed=$(git status --porcelain -- crates crates.txt HANDLES)
    commit+=${changed:+-dirty}
fi
rm -f "$folder/PROVED-WITH"
"$@" || exit
touch --no-create -r "$begun" "$program"
sum=$(cd "$folder" && sha256sum "${program##*/}")
printf '%s\n' "$(rt version)" "commit $commit" "$sum" > "$folder/PROVED-WITH"
