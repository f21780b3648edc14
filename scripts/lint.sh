#!/usr/bin/env bash
# scripts/lint.sh: checks each script, C file and manual page with its linters.
#
# The linter of shell scripts is shellcheck. The C compiler (with warnings) checks C files, and Python and pyflakes check
# Python files. If they are installed, mandoc checks manual pages, and man checks that these fit 80 columns. A file
# outside crates/ must be executable if and only if its first line names an interpreter. The completion must not use
# the features of bash 4 that `is_old_bash` lists.
#
# If shellcheck, the C compiler or pyflakes isn't installed, the script prints a line `skipped: ..`. The last line is `N
# passed, M failed`, in which each file counts once for each check, and the exit status is 1 if a check failed. If git
# doesn't track crates.txt, nothing is checked, because git lists the files.
set -uo pipefail

cd "$(dirname "$0")/.." || exit
passed=0
failed=0

if ! git ls-files --error-unmatch crates.txt > /dev/null 2>&1; then
    echo "skipped: lint, since this is no git repository, which tells the files"
    exit 0
fi
mapfile -d '' files < <(git ls-files -z --cached --others --exclude-standard -- . ':!crates')
shell=() python=() c=() manuals=()
for file in "${files[@]}"; do
    [[ -f $file ]] || continue
    IFS= read -r first < "$file" || true
    case $file in
        *.c) c+=("$file") ;;
        *.py) python+=("$file") ;;
        man/*) manuals+=("$file") ;;
        *.sh | *.bash) shell+=("$file") ;;
        *) [[ $first != '#!'*sh ]] || shell+=("$file") ;;
    esac
done

# each NAME COUNT FILE.. COMMAND..: runs the command on each of the files; COUNT is their number.
each() {
    local name=$1 count=$2 file
    local -a looked=("${@:3:count}")
    shift $((count + 2))
    for file in "${looked[@]}"; do
        if "$@" "$file"; then
            passed=$((passed + 1))
        else
            echo "FAILED: $name: $file"
            failed=$((failed + 1))
        fi
    done
}

# together NAME COUNT FILE.. COMMAND..: works as `each`, for a command that takes several files. The command is run once
# on all files, because it needs most of its time to start. Only if this run fails, each file is checked by itself, to
# find the files at fault.
together() {
    local count=$2
    if "${@:count + 3}" "${@:3:count}" > /dev/null 2>&1; then passed=$((passed + count)); else each "$@"; fi
}

# Succeeds if the file is executable and its first line names an interpreter, or if neither is true.
is_runnable() {
    local first
    IFS= read -r first < "$1" || true
    if [[ $first == '#!'* ]]; then [[ -x $1 ]]; else [[ ! -x $1 ]]; fi
}

is_python() {
    python3 -S -c 'import ast, sys
for name in sys.argv[1:]: ast.parse(open(name, encoding="utf-8").read(), name)' "$@"
}

# Succeeds if the file uses none of these features of bash 4: negative indices, associative arrays, name references,
# reading lines into arrays, case conversion, `|&`, `&>>`, `;&` and `;;&`.
is_old_bash() { ! grep -nE '\[-[0-9]+\]|(declare|local|typeset) -[a-z]*[An]|mapfile|readarray|\$\{[a-z_]+[,^]|\|&|&>>|;;?&' "$1"; }

# Succeeds if each line of the manual page fits a terminal of 80 columns.
is_narrow() {
    local text
    text=$(MANWIDTH=80 LC_ALL=C.UTF-8 man -l "$1" | col -bx) && ! LC_ALL=C.UTF-8 grep -nE '^.{81}' <<< "$text"
}

is_c() { cc -std=c11 -Wall -Wextra -Werror -fsyntax-only "$1"; }

each runnable "${#files[@]}" "${files[@]}" is_runnable
each 'bash 3.2' 1 completion/flashnor.bash is_old_bash
together python "${#python[@]}" "${python[@]}" is_python
if command -v shellcheck > /dev/null; then
    each shellcheck "${#shell[@]}" "${shell[@]}" shellcheck --
else
    echo "skipped: the shell scripts' look by shellcheck, which isn't installed"
fi
if command -v cc > /dev/null; then
    each cc "${#c[@]}" "${c[@]}" is_c
else
    echo "skipped: the C files' look by a compiler, since there is none (cc)"
fi
if command -v mandoc > /dev/null; then
    each mandoc "${#manuals[@]}" "${manuals[@]}" mandoc -T lint
fi
if command -v man > /dev/null && command -v col > /dev/null; then
    each 'width of' "${#manuals[@]}" "${manuals[@]}" is_narrow
fi
if command -v pyflakes3 > /dev/null; then
    together pyflakes "${#python[@]}" "${python[@]}" pyflakes3
elif python3 -c 'import pyflakes' 2> /dev/null; then
    together pyflakes "${#python[@]}" "${python[@]}" python3 -m pyflakes
else
    echo "skipped: the Python files' look by pyflakes, which isn't installed"
fi
echo "$passed passed, $failed failed"
((failed == 0 && passed > 0))
