#!/usr/bin/env bash
# scripts/agree.sh [PROGRAM]: checks that the pages agree with the sources and with what the program prints, that
# crates.txt has the right dependencies, and that no two definitions of specs/ have one name (except those that
# twice.py allows).
#
# Each part prints what it compared, and lines `DIFFERS: ..` for the differences. If there is a difference, the exit
# status is 1. A text that is found nowhere counts as a difference. words.py compares the help and the list of chips
# that PROGRAM prints. Without PROGRAM, and in the other parts, they are read from tests/flashnor/cases, which `make
# runs` compares with the program.
set -uo pipefail
export LC_ALL=C PYTHONUTF8=1 PYTHONPATH=scripts PYTHONDONTWRITEBYTECODE=1
program=${1:+$(realpath "$1")}
cd "$(dirname "$0")/.." || exit
status=0

# part SCRIPT ARGUMENTS..: runs one part. If its exit status isn't 0, this counts as a difference.
part() {
    python3 "$@" || { echo "DIFFERS: $1 ended with status $?"; status=1; }
}

part scripts/agree/words.py ${program:+"$program"} # compares options, keys, chips and versions
part scripts/agree/faults.py                       # compares messages, and the numbers of faults
part scripts/agree/limits.py                       # compares limits and other numbers
part scripts/agree/hardware.py                     # compares options, keys, chips and faults of flashnor-serprog
part scripts/statement.py --check                  # compares STATEMENT.md, and checks its size
part scripts/promises.py                           # checks the names of functions, clauses and tests in tables
part scripts/paths.py                              # checks the names of files
part scripts/crates.py                             # checks the dependencies of each crate
part scripts/twice.py                              # finds definitions with equal names
exit $status
