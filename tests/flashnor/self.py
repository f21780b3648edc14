#!/usr/bin/env python3
"""tests/flashnor/self.py PROGRAM: checks that run.py fails when it must, and prints the reason.

run.py must fail for programs that do something else than a case says, for wrong cases, for a directory without cases,
and for pages with a wrong number. It must also fail for PROGRAM with one mistake (wrong.c), on the cases that must
detect the mistake. The last line is `N passed, M failed`.
"""
import os
import re
import shutil
import subprocess
import sys
import tempfile
from pathlib import Path

import pages
from run import SECOND_DISK, Machine

TOP = Path(__file__).resolve().parents[2]
FAULT = "echo 'Usage fault 2.' >&2; "
RIGHT = FAULT + "exit 1"
LOST = "{ echo 'File fault 2: standard output.' >&2; exit 1; }"
BEHIND = "! Usage fault 2.\nstatus 1\n"
CASE = "# No words.\nfile given: hex 3030\n$ flashnor\n" + BEHIND
STEP = "# It has a step.\n$ flashnor\n" + BEHIND
FOLDER = "# There is a folder.\n$ mkdir folder\n$ flashnor\n" + BEHIND
TRACE = "# It has two lines.\n$ printf '05\\n06\\n' > given\n$ flashnor\n" + BEHIND + "after given: 2 lines\n"

CLOSED = "# Streams are closed.\n$ closed flashnor\n" + BEHIND
MOMENT = "# It is read.\nfile given: hex 30300a\n$ meanwhile 'MOMENT' 'echo 11 > given' flashnor\n11\n" + BEHIND
MOMENT += "after given: hex 31310a\n"

# Each trial has a name, the program as lines of shell, the case, and the text that run.py must print (None if the case
# must pass).
TRIALS = [
    ("what is as the case says", RIGHT, CASE, None),
    ("lines of a trace", RIGHT, TRACE + "  1: 05\n  2: 06\n", None),
    ("any lines", "seq 9; exit 0", "# Some.\n$ flashnor\n1\n..\n8\n..\n", None),
    ("a NUL that is wanted", "printf '\\0a\\n' > a", "# It is there.\n$ flashnor\nafter a: hex 00 61 0a\n", None),
    ("a program that does nothing", "exit 0", CASE, "wanted: status 1"),
    ("a fault with status 0", FAULT + "exit 0", CASE, "wanted: status 1"),
    ("a signal", "kill -9 $$", CASE, "got: 137"),
    ("the text of another fault", "echo 'Usage fault 3.' >&2; exit 1", CASE, "        Usage fault 3."),
    ("a fault on standard output", "echo 'Usage fault 2.'; exit 1", CASE, "wanted on standard output"),
    ("a line without its end", "printf 'Usage fault 2.' >&2; exit 1", CASE, "wanted on standard error"),
    ("what stands behind a NUL", "printf 'Usage fault 2.\\n\\0and more\\n' >&2; exit 1", CASE, "\\x00and more"),
    ("a NUL where nothing is printed", "printf '\\0everything'; " + RIGHT, CASE, "\\x00everything"),
    ("too few lines for some", "echo 1; echo 9", "# Some.\n$ flashnor\n1\n..\n8\n", "wanted on standard output"),
    ("a file that no one named", ": > left; " + RIGHT, CASE, "wanted of left: no file"),
    ("a file in a folder", ": > folder/left; " + RIGHT, FOLDER, "wanted of folder/left: no file"),
    ("a file that was changed", "printf 01 > given; " + RIGHT, CASE, "31 at 0x1, not 30"),
    ("a file that was removed", "rm given; " + RIGHT, CASE, "got: no file"),
    ("a file that became a link", "rm given; ln -s none given; " + RIGHT, CASE, "got: a link to none"),
    ("rights that were changed", "chmod 600 given; " + RIGHT, CASE, "wanted of given: rights 644"),
    ("a file that was not made", "exit 0", "# It is made.\n$ flashnor\nafter left: nothing\n", "got: no file"),
    ("a name that has no file any more", "rm given; " + RIGHT, CASE + "after given: no file\n", None),
    ("a file that must be gone", RIGHT, CASE + "after given: no file\n", "wanted of given: no file"),
    ("a link that must be there", RIGHT, CASE + "after given: a link to none\n", "wanted of given: a link to none"),
    ("a FIFO", "mkfifo a", "# It is there.\n$ flashnor\nafter a: a FIFO\n", None),
    ("a directory for a FIFO", "mkdir a", "# It is there.\n$ flashnor\nafter a: a FIFO\n", "got: a directory"),
    ("a FIFO that is given", RIGHT, CASE.replace("hex 3030", "a FIFO"), "'a FIFO' is no content"),
    ("streams that are closed", "echo done 2> /dev/null || " + LOST, "# It prints.\n$ closed flashnor\ndone\n", None),
    ("a lost text without its line", "echo done 2> /dev/null || exit 1", "# It prints.\n$ closed flashnor\ndone\n",
     "        >&-: 1d0"),
    ("a closed stream and status 0", "echo done 2> /dev/null || :", "# It prints.\n$ closed flashnor\ndone\n",
     "        >&-: status 0, not 1"),
    ("a closed stream that nothing needs", "[ -e /dev/fd/0 ]", "# It does nothing.\n$ closed flashnor\n",
     "        <&-: status 1, not 0"),
    ("what goes into a file if streams are closed", "[ -e /dev/fd/2 ] || echo > a; " + RIGHT, CLOSED,
     "        <&- >&- 2>&-: Only in"),
    ("what is lost if another stream is closed", "[ -e /dev/fd/1 ] || exit 1; " + RIGHT, CLOSED, "        >&-: 1d0"),
    ("a moment that never comes", RIGHT, MOMENT.replace("MOMENT", "fsync given"), "there was no moment 'fsync given'"),
    ("a moment", "cat given; " + RIGHT, MOMENT.replace("MOMENT", "open given"), None),
    ("a moment that is too late", "cat given; " + RIGHT, MOMENT.replace("MOMENT", "close given"), "        00"),
    ("a call that must fail", "cat given", "# It fails.\nfile given: hex 300a\n$ failing 'read given' EIO flashnor\n"
     "! cat: given: Input/output error\nstatus 1\n", None),
    ("another length", "echo > a", "# Two.\n$ flashnor\nafter a: 2 bytes\n", "got: 1 bytes"),
    ("another line of a trace", RIGHT, TRACE + "  2: 05\n", "line 2: 05"),
    ("more lines than there are", RIGHT, TRACE.replace("2 lines", "3 lines"), "wanted of given: 3 lines"),
    ("a line behind the last one", RIGHT, TRACE + "  3: 05\n", "isn't one of 2 lines"),
    ("reads behind the last line", RIGHT, TRACE + "  2 to 3: reads from 0x0\n", "isn't one of 2 lines"),
    ("a numbered line of no lines", RIGHT, CASE + "after given: 2 bytes\n  2: this is nowhere\n", "no 'N lines'"),
    ("a numbered line of no file", RIGHT, STEP + "  2: this is nowhere\n", "belongs to no file"),
    ("a text's line of no file", RIGHT, STEP + "| this is nowhere\n", "belongs to no file"),
    ("a text's line of a content", RIGHT, CASE + "after given: hex 3030\n| 00\n", "its file has a content"),
    ("a file behind another command", RIGHT, "# One.\n$ : > a\n$ rm a\nafter a: hex 30\n" + STEP[17:],
     "behind a step that isn't flashnor"),
    ("a file where none is looked at", RIGHT, "# One.\nfiles are free\n" + STEP[17:] + "after a: hex 30\n",
     "where no file is looked at"),
    ("a file that is named twice", RIGHT, CASE + "after given: 3 bytes\nafter given: 2 bytes\n", "named already"),
    ("a status before the first step", RIGHT, "# One.\nstatus 7\n" + STEP[17:], "belongs to no step"),
    ("a fault before a step", RIGHT, STEP + "file a: nothing\n! Usage fault 9.\n" + STEP[17:], "belongs to no step"),
    ("what is printed before a step", RIGHT, "# One.\nUsage fault 9.\n" + STEP[17:], "belongs to no step"),
    ("a status of two digits", RIGHT, STEP.replace("status 1", "status 11"), "wanted: status 11"),
    ("a case without a step", RIGHT, "# It has no step.\nfile given: nothing\n", "it has no step"),
    ("a case without a sentence", RIGHT, STEP[17:], "before the first sentence"),
    ("a content that is none", RIGHT, CASE.replace("hex 3030", "much"), "'much' is no content"),
    ("a file in a folder that isn't there", RIGHT, "# One.\nfile none/a: nothing\n" + STEP[17:], "it can't be done"),
    ("a NUL in a command", RIGHT, STEP.replace("flashnor", "flashnor a\0b"), "it can't be done"),
    ("half a byte", RIGHT, CASE.replace("hex 3030", "hex 303"), "can't be made"),
    ("contents that repeat", RIGHT, CASE.replace("hex 3030", "2 times 1 of each byte") +
     "after given: hex " + bytes(range(256)).hex() * 2 + "\n", None),
    ("a record of a journal", RIGHT, "# One.\nfile a: 4096 of 00 + 4096 of 31\nfile b: records 1 to 1 of a\n" +
     STEP[17:] + "after b: hex 01000000 + 4096 of 31\n", None),
    ("a byte of random ones that was changed", RIGHT, CASE.replace("hex 3030", "5 random a") +
     "after given: 5 random b\n", "wanted of given: 5 bytes"),
    ("a record of a sector that isn't there", RIGHT, CASE.replace("hex 3030", "records 0 to 0 of none"),
     "can't be made"),
    ("a record behind the last sector", RIGHT, "# One.\nfile a: 4096 of 31\nfile b: records 0 to 1 of a\n" +
     STEP[17:], "sectors 0 to 1 aren't within 4096 bytes"),
    ("a byte behind its part", RIGHT, CASE.replace("hex 3030", "2 of 30, 31 at 0x2"), "isn't within its part"),
]

# Each row has a name, a page, a pattern with its replacement on this page, and the texts that run.py must print: the
# step, its output, or what the page shows.
PAGES = [
    ("transactions in README", "README.md", r"(programs 1, transactions )13\.", r"\g<1>14.",
     ["transactions 13.", "transactions 14."]),
    ("a stop in README", "README.md", r"^(\$ .*)stop=25", r"\1stop=22",
     ["at: flashnor", "Error 12: stopped.", "Error 15: journal fault 1."]),
    ("restores in README", "README.md", r"^Restores: 1\.$", "Restores: 2.", ["Restores: 1.", "Restores: 2."]),
    ("transactions in HOW", "docs/HOW.md", r"^(Done: touched 0, .*)8\.$", r"\g<1>9.", ["actions 8.", "actions 9."]),
    ("transactions in the manual page", "man/flashnor.8", r"^(Done: .*)15\.$", r"\g<1>16.",
     ["actions 15.", "actions 16."]),
    ("a range in the manual page", "man/flashnor.8", r"^Range: 0x7e", "Range: 0x7f", ["Range: 0x7e", "Range: 0x7f"]),
    ("a header in flashnor-journal.5", "man/flashnor-journal.5", r"(5255 4e44 4f3)2", r"\g<1>1", ["4f32 fe", "4f31 fe"]),
    ("README without its examples", "README.md", r"^\$ flashnor", "$ echo", ["no example was found"]),
]

# Each row has the name of a mistake (wrong.c), the file of cases that must detect it, and the beginning of the sentence
# of a case that must fail. With None, all cases of the file must pass.
WRONG = [
    ("nothing", "disks.case", None),
    ("nothing", "locks.case", None),
    ("first", "held.case", "A session holds the locks on its image and its status"),
    ("first", "locks.case", "Until a session has written image and status file"),
    ("write", "locks.case", "Until a session has written image and status file"),
    ("write", "locks.case", "Image and status file that a session creates"),
    ("seal", "locks.case", "Until a session has written image and status file"),
    ("shared", "held.case", "A session holds the locks on its image and its status"),
    ("unlocked", "held.case", "A restore refuses a journal that another run has locked"),
    ("unlocked", "locks.case", "While a session writes its journal"),
    ("inode", "disks.case", "Two files on two file systems"),
    ("inode", "disks.case", "Files on two file systems with equal inode numbers"),
    ("inode", "disks.case", "If a file on another file system"),
]


class Tally:
    def __init__(self):
        self.passed = 0
        self.failed = 0

    def run(self, what, wanted, told, *words):
        """Runs run.py with the arguments `words`, and counts the result. The exit status and the last line must be
        `wanted` (None stands for any last line), and the output must contain each text of `told`."""
        ran = subprocess.run([sys.executable, TOP / "tests/flashnor/run.py", *words], stdout=subprocess.PIPE,
                             stderr=subprocess.STDOUT, check=False)
        said = os.fsdecode(ran.stdout)
        status, last = wanted
        if ran.returncode == status and last in (None, said.splitlines()[-1:]) and all(it in said for it in told):
            self.passed += 1
        else:
            self.failed += 1
            print(f"FAILED: self.py: {what}: status {ran.returncode}, and", said, sep="\n")


def try_case(work, tally, number, trial):
    what, program, case, told = trial
    folder = work / str(number)
    folder.mkdir()
    (folder / "one.case").write_text(case, encoding="utf-8")
    stub = work / f"stub{number}"
    stub.write_text(f"#!/bin/sh\n{program}\n", encoding="utf-8")
    stub.chmod(0o755)
    wanted = (0, ["1 passed, 0 failed"]) if told is None else (1, ["0 passed, 1 failed"])
    tally.run(what, wanted, [told or ""], stub, folder)


def try_page(work, tally, program, trial):
    what, page, old, new, told = trial
    text = (TOP / page).read_text(encoding="utf-8")
    changed = re.sub(old, new, text, flags=re.M)
    if changed == text:
        new = f"nothing was changed by {old}"
    (work / "page").write_text(changed, encoding="utf-8")
    names = [work / "page" if it == page else TOP / it for it in pages.PAGES]
    tally.run(f"{what} ({new})", (1, [f"{len(names) - 1} passed, 1 failed"]), told, program, *names)


def try_wrong(work, tally, program):
    """Runs each file of cases that WRONG names on the program with one mistake."""
    library = work / "wrong.so"
    if not shutil.which("cc"):
        print("left out: programs in which one thing is made wrong (there is no C compiler (cc))")
        return
    words = ["cc", "-std=c11", "-O1", "-shared", "-fPIC", "-o", library, TOP / "tests/flashnor/wrong.c", "-ldl"]
    subprocess.run(words, check=True)
    trials = dict.fromkeys((wrong, file) for wrong, file, _ in WRONG)
    if Machine(work, program).no_second_disk():
        print(f"left out: a program that compares inodes only ({SECOND_DISK} is no second file system here)")
        trials = {it: None for it in trials if it[1] != "disks.case"}
    for wrong, file in trials:
        folder = work / f"{wrong}.{file}"
        folder.mkdir()
        shutil.copy(TOP / "tests/flashnor/cases" / file, folder)
        stub = work / f"program.{wrong}"
        stub.write_text(f"#!/usr/bin/env bash\nexport WRONG={wrong} LD_PRELOAD=\"{library}:$LD_PRELOAD\"\n"
                        f"exec '{program}' \"$@\"\n", encoding="utf-8")
        stub.chmod(0o755)
        told = [f"FAILED: {file}: {it[2]}" for it in WRONG if it[:2] == (wrong, file) and it[2]]
        tally.run(f"{file}, where {wrong} is wrong", (int(told != []), None), told, stub, folder)


def main(program):
    tally = Tally()
    with tempfile.TemporaryDirectory() as name:
        work = Path(name)
        # A user other than root must be able to run the programs, too.
        work.chmod(0o755)
        for number, trial in enumerate(TRIALS):
            try_case(work, tally, number, trial)
        for trial in PAGES:
            try_page(work, tally, program, trial)
        try_wrong(work, tally, program)
        (work / "empty").mkdir()
        tally.run("a folder without cases", (1, ["0 passed, 0 failed"]), [], work / "stub0", work / "empty")
        tally.run("no program", (1, [f"{work}/none isn't built: 'make' proves and builds it."]), [], work / "none")
    print(f"{tally.passed} passed, {tally.failed} failed")
    return int(tally.failed > 0)


if __name__ == "__main__":
    sys.exit(main(sys.argv[1]))
