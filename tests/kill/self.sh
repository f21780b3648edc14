#!/usr/bin/env bash
# tests/kill/self.sh PROGRAM LIBRARY: checks that the crash test detects mutants of PROGRAM, which is right.
#
# LIBRARY is the compiled cut.c, which makes most mutants. The mutants for lost.py never sync a file or directory, sync
# it only once, don't sync it before the session, or sync it before its contents are written. Two other programs restore
# nothing, or refuse to restore. For each of these, lost.py must report a lost chip with the expected line. The mutants
# for run.sh don't truncate the image, ignore a short write, lose bytes when a close fails, don't lock a file, unlock it
# too early, or print before they work.
#
# The script also checks, for some changes, that disk.py computes exactly the contents that a disk may have after a host
# crash. The last line is `N passed, M failed`.
set -uo pipefail
export LC_ALL=C CHOICES=4

top=$(cd "$(dirname "$0")/../.." && pwd)
program=$(realpath "$1")
library=$(realpath "$2")
work=$(mktemp -d)
trap 'rm -rf "$work"' EXIT
passed=0
failed=0

# tells STORY WAY WHAT: runs lost.py on this story. It must report a lost chip, and its first report must match the
# pattern WAY. WHAT describes the program.
tells() {
    local story=$1 way=$2 what=$3 said status last
    said=$(python3 -B "$top/tests/kill/lost.py" "$program" "$library" "lost/$story" 2>&1)
    status=$?
    last=$(tail -n 1 <<< "$said")
    if [[ $status == 1 && $(grep -m 1 '^kill: ' <<< "$said") =~ $way && $last =~ [1-9][0-9]*' lost the chip'$ ]]; then
        passed=$((passed + 1))
        echo "told: $what: $last"
    else
        echo "FAILED: kill/self.sh: $what: status $status, and $said"
        failed=$((failed + 1))
    fi
}

# wrong MUTANT STORY WAY WHAT: tests the mutant MUTANT, of which cut.c records other syncs than the program makes.
wrong() { WRONG=$1 tells "${@:2}"; }

# restoring COMMANDS STORY WAY WHAT: tests a program that runs COMMANDS in place of a restore, unless the restore is
# recorded.
restoring() {
    local right=$program program=$work/stub
    cat > "$program" << EOT
#!/bin/sh
[ "\$RECORD" ] || case "\$*" in *--restore*) $1 ;; esac
exec "$right" "\$@"
EOT
    chmod 755 "$program"
    tells "${@:2}"
}

# Tests a program that prints `Done` before it works, if a call is to be interrupted.
hasty() {
    local said status
    cc -x c -o "$work/hasty" - << EOT
#include <stdlib.h>
#include <string.h>
#include <unistd.h>
int main(int count, char **words) {
    if (count > 1 && getenv("CALL") && strcmp(getenv("CALL"), "0") != 0) write(1, "Done", 4);
    return execv("$program", words);
}
EOT
    said=$(bash "$top/tests/kill/run.sh" "$work/hasty" one_byte 5 after 2>&1)
    status=$?
    if [[ $status == 1 && $said == *'it ended with 137, or left files, as it must not. Done'* ]]; then
        passed=$((passed + 1))
    else
        echo "FAILED: kill/self.sh: a program that prints before it works: status $status, and $said"
        failed=$((failed + 1))
    fi
}

# detected MUTANT REPORT ARGUMENTS..: runs run.sh with these arguments on this mutant (WRONG in cut.c). It must print
# REPORT and end with status 1.
detected() {
    local said status
    said=$(WRONG=$1 bash "$top/tests/kill/run.sh" "$program" "${@:3}" 2>&1)
    status=$?
    if [[ $status == 1 && $said == *"$2"* ]]; then
        passed=$((passed + 1))
        echo "detected: $1"
    else
        echo "FAILED: kill/self.sh: the mutant '$1' is not detected: status $status, and $said"
        failed=$((failed + 1))
    fi
}

# leaves WHAT IS: makes the changes WHAT (Python statements) on a disk. In 1,000 host crashes, the file f must have each
# of the contents in the set IS, and no others. None stands for no file.
leaves() {
    if python3 -B - "$2" "$top/tests/kill" << EOT
import random, sys
sys.path.insert(0, sys.argv[2])
from disk import Disk, picks_of
disk = Disk()
$1
found = {disk.left(picks_of(it, random.Random(it))).get("f") for it in range(1000)}
sys.exit(found != eval(sys.argv[1]))
EOT
    then
        passed=$((passed + 1))
    else
        echo "FAILED: kill/self.sh: a disk may not hold just $2 after: $1"
        failed=$((failed + 1))
    fi
}

a='b"a" * 512' b='b"b" * 512'
two="disk.put('f', $a + $a); disk.file('f').write(0, $b + $b)"
leaves "$two" "{$a + $a, $a + $b, $b + $a, $b + $b}"
leaves "$two; disk.sync('f')" "{$b + $b}"
leaves "$two; disk.sync('.')" "{$a + $a, $a + $b, $b + $a, $b + $b}"
leaves "disk.make('f'); disk.file('f').write(0, $a)" "{None, b'', bytes(512), $a}"
leaves "disk.make('f'); disk.file('f').write(0, $a); disk.sync('f')" "{None, $a}"
leaves "disk.make('f'); disk.file('f').write(0, $a); disk.sync('f'); disk.sync('.')" "{$a}"
leaves "disk.put('f', b'ab'); disk.file('f').set_length(3)" "{b'ab', b'ab\\0'}"
leaves "disk.put('f', b'abc'); disk.file('f').set_length(2)" "{b'ab', b'abc', b'ab\\0'}"
leaves "disk.put('f', b'a'); disk.remove('f')" "{b'a', None}"
leaves "disk.put('f', b'a'); disk.remove('f'); disk.sync('.')" "{None}"
leaves "disk.put('f', b'a'); disk.remove('f'); disk.make('f')" "{b'a', None, b''}"

gone='Done was printed, and ' late=" a whole journal; .*image has another byte" lost=" no whole journal; .*image has"
wrong 'never image' two_sessions "${gone}image has another byte" "the image is never synced"
wrong 'once image' two_sessions "${gone}image has another byte" "the image isn't synced behind the session"
wrong 'early image' two_sessions "${gone}image has another byte" "the image is synced ahead of what is written"
wrong 'late image' copied "$late" "the image isn't synced before the session"
wrong 'never status' protect "${gone}status has 0000" "the status bytes are never synced"
wrong 'never first' two_sessions "$lost" "the journal is never synced"
wrong 'early first' two_sessions "$lost" "the journal is synced ahead of what is written"
wrong 'never .' two_sessions "$lost" "the journal's folder is never synced"
wrong 'early .' two_sessions "$lost" "the journal's folder is synced before the journal is made"
wrong 'never kept' folders "$lost" "the journal's folder, another than the chip's, is never synced"
wrong 'never chip' folders "${gone}chip/image isn't there" "the folder of a new image is never synced"
wrong 'never chip' deleted "$late" "the folder of an image that was deleted is never synced"
restoring 'exit 0' two_sessions "whole journal; --restore told ''" "a program that restores nothing"
restoring "echo 'Error 15: journal fault 1.' >&2; exit 1" two_sessions " a whole journal; .*Error 15" \
    "one that refuses"
hasty
detected 'without ftruncate image' "image isn't truncated after its last write" one_byte 1 before
detected 'lossy out' '(write out), part: it ended with 0, or left files' read '' part
detected 'lossy trace' '(write trace), part: it ended with 0, or left files' read '' part
detected 'cached out' '(close out), EIO: it ended with 0, or left files' read '' EIO
detected 'unlock image' 'session: image is not locked at the call write image' locks
detected 'without flock journal' 'restore: journal is not locked at the call read journal' locks
echo "$passed passed, $failed failed"
((failed == 0))
