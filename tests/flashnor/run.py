#!/usr/bin/env python3
"""tests/flashnor/run.py [PROGRAM [FOLDER]]: runs the program on each case of the directory FOLDER, each case in a
directory of its own. tests/flashnor/run.py PROGRAM README MANUAL..: runs the program on the examples of these pages.

Without FOLDER, the script runs the cases of tests/flashnor/cases, and the examples of README.md, HOW, the FAQ,
flashnor(8) and flashnor-journal(5) (pages.py). It then makes three further checks:

- Wrong programs, wrong cases and an empty directory don't pass (self.py).
- The pages agree with the help and the list of chips that the program prints (scripts/agree.sh).
- The program works for a parent process that closes streams, sets limits or provides terminals (streams.py).

tests/flashnor/cases/README.md describes the form of a case. A case that fails is printed, with the expected and the
actual results. For a case that can't run on this machine, a line that begins with `left out:` is printed. The last line
is `N passed, M failed`, and the exit status is 1 if a case failed or none was run.
"""
import os
import re
import shutil
import subprocess
import sys
import tempfile
from concurrent.futures import ThreadPoolExecutor
from pathlib import Path

import grammar
import pages
from trial import Differs, Trial, shown

TOP = Path(__file__).resolve().parents[2]
# If a case uses `$disk`, it gets a directory here, on another file system than its own directory.
SECOND_DISK = "/dev/shm"


class Tally:
    """The numbers of passed and failed cases."""

    def __init__(self):
        self.passed = 0
        self.failed = 0

    def count(self, has_passed, *lines):
        """Counts one result, and prints the lines."""
        self.passed += has_passed
        self.failed += not has_passed
        for line in lines:
            print(shown(line))

    def add(self, what, words):
        """Runs another program, and adds the counts in its last line. If it prints no counts, or fails without a failed
        case, this counts as a failure."""
        said = subprocess.run(words, stdout=subprocess.PIPE, stderr=subprocess.STDOUT, check=False)
        *lines, last = [""] + os.fsdecode(said.stdout).splitlines()
        found = re.fullmatch(r"(\d+) passed, (\d+) failed", last)
        for line in lines[1:] + [last] * (not found):
            print(shown(line))
        if found:
            self.passed += int(found[1])
            self.failed += int(found[2])
        if not found or (said.returncode != 0 and found[2] == "0"):
            self.count(False, f"FAILED: {what} broke off with status {said.returncode}")


def needs(case, need):
    """Returns whether a command of the case matches the pattern `need`."""
    return any(re.search(need, it.command) for it in case.steps())


class Machine:
    """The program that is tested, and the reasons why some cases can't run on this machine."""

    def __init__(self, work, program):
        self.work = work
        # The program is copied, so that a user other than root can run it, too.
        self.program = work / "flashnor"
        shutil.copy(program, self.program)
        self.program.chmod(0o755)
        self.library = work / "meanwhile.so"
        # Each pattern matches a command that needs something special. Its function returns None if this machine has it,
        # and otherwise the reason why not.
        self.needs = {r"\bnobody ": self.no_nobody, r"\bwrites ": self.no_counts, "/dev/full": self.no_full,
                      r"\b(meanwhile|failing|alike) ": self.no_library, r"\$disk\b": self.no_second_disk}
        self.missing = {}

    @staticmethod
    def no_counts():
        return None if os.access("/proc/self/io", os.R_OK) else "the system doesn't count writes"

    @staticmethod
    def no_full():
        return None if Path("/dev/full").is_char_device() else "there is no /dev/full"

    def no_nobody(self):
        """Returns the reason why the program can't be run here by a user who is not root, or None."""
        if os.geteuid() != 0:
            return None
        if not shutil.which("setpriv"):
            return "root reads all files here, and there is no setpriv"
        words = ["setpriv", "--reuid=65534", "--regid=65534", "--clear-groups", "test", "-x", self.program]
        if subprocess.run(words, capture_output=True, check=False).returncode == 0:
            return None
        return f"another user than root can't be, or has no way to {self.work.parent}: set TMPDIR"

    def no_library(self):
        """Builds the library that acts at a call of the program (meanwhile.c). Returns None, or the reason why it can't
        be built."""
        if not shutil.which("cc"):
            return "there is no C compiler (cc)"
        words = ["cc", "-std=c11", "-O1", "-shared", "-fPIC", "-o", self.library, TOP / "tests/flashnor/meanwhile.c"]
        built = subprocess.run(words, capture_output=True, check=False)
        if built.returncode == 0:
            return None
        return "tests/flashnor/meanwhile.c doesn't compile: " + os.fsdecode(built.stderr).partition("\n")[0]

    def no_second_disk(self):
        """Returns the reason why a case can't have files on two file systems, or None."""
        if not os.access(SECOND_DISK, os.W_OK):
            return f"there is no {SECOND_DISK}"
        if os.stat(SECOND_DISK).st_dev == self.work.stat().st_dev:
            return f"{SECOND_DISK} is on the file system of the tests: set TMPDIR"
        return None

    def do(self, case):
        """Runs a case. Returns whether it passed (None if it was left out), and the lines to print."""
        for need, why in self.missing.items():
            if why and needs(case, need):
                return None, f"left out: {case.file}: {case.sentence} ({why})"
        folder = Path(tempfile.mkdtemp(prefix="run.", dir=self.work))
        folder.chmod(0o777)
        words = {"top": TOP, "program": self.program, "library": self.library}
        if any("$disk" in it.command for it in case.steps()):
            words["disk"] = tempfile.mkdtemp(prefix="flashnor.", dir=SECOND_DISK)
        trial = Trial(case, folder, words)
        try:
            trial.do()
            return True,
        except (Differs, OSError, ValueError) as why:
            how = why.args if isinstance(why, Differs) else [f"it can't be done: {why}"]
            place = [f"at: {trial.command}"] * bool(trial.command)
            return False, f"FAILED: {case.file}: {case.sentence}", *[f"    {it}" for it in (*place, *how)]
        finally:
            for it in (folder, words.get("disk", folder)):
                shutil.rmtree(it, ignore_errors=True)

    def do_all(self, cases, tally):
        """Runs all cases, one per core at a time, and prints the results in the order of the cases."""
        for need, find in self.needs.items():
            if any(needs(case, need) for case in cases):
                self.missing[need] = find()
        with ThreadPoolExecutor(os.cpu_count()) as pool:
            for has_passed, *lines in pool.map(self.do, cases):
                if has_passed is None:
                    print(*map(shown, lines))
                else:
                    tally.count(has_passed, *lines)


def agree(program, tally):
    """Compares the pages with the output of the program (scripts/agree.sh), counts the result, and prints the
    differences."""
    said = subprocess.run(["bash", TOP / "scripts/agree.sh", program], stdout=subprocess.PIPE,
                          stderr=subprocess.STDOUT, check=False)
    if said.returncode == 0:
        tally.count(True)
    else:
        lines = os.fsdecode(said.stdout).splitlines()
        tally.count(False, *lines, "FAILED: the pages don't say what the program prints")


def cases_of(folder):
    """Returns the cases in all `*.case` files of a directory."""
    files = sorted(Path(folder).glob("*.case"))
    return [case for it in files for case in grammar.read_cases(it.name, os.fsdecode(it.read_bytes()))]


def main(words):
    sys.stdout.reconfigure(errors="backslashreplace", line_buffering=True)
    os.environ["LC_ALL"] = "C"
    program = Path(words[0] if words else TOP / "crates/flashnor/out/flashnor").resolve()
    if not os.access(program, os.X_OK) or program.is_dir():
        sys.exit(f"{program} isn't built: 'make' proves and builds it.")
    tally = Tally()
    with tempfile.TemporaryDirectory() as work:
        os.chmod(work, 0o755)
        machine = Machine(Path(work), program)
        if len(words) > 2:
            machine.do_all(pages.cases(*map(Path, words[1:])), tally)
        elif len(words) == 2:
            machine.do_all(cases_of(words[1]), tally)
        else:
            cases = cases_of(TOP / "tests/flashnor/cases")
            machine.do_all(cases + pages.cases(*(TOP / it for it in pages.PAGES)), tally)
            tally.add("streams.py", [sys.executable, TOP / "tests/flashnor/streams.py", machine.program])
            tally.add("self.py", [sys.executable, TOP / "tests/flashnor/self.py", machine.program])
            agree(machine.program, tally)
    print(f"{tally.passed} passed, {tally.failed} failed")
    return int(tally.failed > 0 or tally.passed == 0)


if __name__ == "__main__":
    sys.exit(main(sys.argv[1:]))
