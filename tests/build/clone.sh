#!/usr/bin/env bash
# tests/build/clone.sh COMMAND..: runs a command in a new directory that has what a clone of this repository would
# have: the tracked files as they are here, and nothing that was built.
#
# The name of the directory has a space. The exit status is that of the command. Outside a git repository the script
# only prints a line `skipped:`.
set -euo pipefail

cd "$(dirname "$0")/../.."
if ! git ls-files --error-unmatch crates.txt > /dev/null 2>&1; then
    echo "skipped: $* in a clone, since this is no git repository, which tells the files"
    exit 0
fi
work=$(mktemp -d)
trap 'rm -rf "$work"' EXIT
clone="$work/a clone"
mkdir "$clone"
git ls-files -z | while IFS= read -r -d '' file; do
    [[ ! -e $file ]] || printf '%s\0' "$file"
done | tar c --null -T - | tar x -C "$clone"
cd "$clone"
git init -q
git add -A
status=0
env -u MAKEFLAGS -u MAKELEVEL -u MFLAGS "$@" || status=$?
exit "$status"
