#!/usr/bin/env python3
"""tests/flashnor/streams.py PROGRAM: runs the program from a parent process that does what no shell does for a case.

The parent closes standard input, output and error in each combination before it starts the program, once with the
descriptors 3 to 9 free and once with them in use. It also limits how many files the program may open, gives it
terminals, and hides /proc from it. Each run must print, leave and end with what the tables below say, so no printed
text may end up in a file. The last line is `N passed, M failed`, and the exit status is 1 if a run failed. If the
machine doesn't let the parent hide /proc, the script prints `skipped` with the reason.
"""
import itertools
import os
import re
import resource
import select
import subprocess
import sys
import tempfile
from hashlib import sha256
from pathlib import Path

ERASED = b"\xff" * 65536
OLD = ERASED[:0xa000] + b"\0" + ERASED[0xa001:]
NEW = ERASED[:0xa000] + b"\1" + ERASED[0xa001:]
CLEAR, PROTECTED = b"\0\0", b"\4\0"
FOUND = "Found SFDP (fe1010), 65536 bytes.\n"
TINY = ["-p", "dummy:emulate=TINY64,image=chip.bin,status=s"]


def sealed(text):
    """Returns the journal that begins with these bytes: adds the end mark and the digest."""
    text += b"\xff" * 4
    return text + sha256(text).digest()


def done(touched, erases, programs, transactions):
    return f"Done: touched {touched}, erases {erases}, programs {programs}, transactions {transactions}.\n"


HEADER = b"NORUNDO2\xfe\x10\x10" + bytes(8) + CLEAR + b"\0\0\1\0"
JOURNAL = sealed(HEADER + b"\x0a\0\0\0" + OLD[0xa000:0xb000])
LARGE_JOURNAL = sealed(b"NORUNDO2\xef\x40\x17" + bytes(8) + CLEAR + b"\0\0\x80\0")
SAVED = sealed(HEADER + b"\x0a\0\0\0" + ERASED[:4096])
FILES = {"chip.bin": OLD, "s": CLEAR, "new.bin": NEW, "short": ERASED[:100], "saved": SAVED}

# Each job has its arguments, the files that it changes or creates, its standard output, its standard error, and its
# exit status.
JOBS = {
    "a write": ([*TINY, "-w", "new.bin", "--journal", "j"], {"chip.bin": NEW, "j": JOURNAL},
                FOUND + done(1, 1, 1, 30), "", 0),
    "an erase": ([*TINY, "-E", "--journal", "j"], {"chip.bin": ERASED, "j": JOURNAL}, FOUND + done(1, 1, 0, 27), "", 0),
    "a range": (["-p", "dummy:emulate=W25Q64FV,status=s", "--wp-range", "0x7e0000,0x20000", "--journal", "j"],
                {"s": PROTECTED, "j": LARGE_JOURNAL}, "Found W25Q64FV (ef4017), 8388608 bytes.\n" + done(0, 0, 0, 7), "", 0),
    "a restore": ([*TINY, "--restore", "saved"], {"chip.bin": ERASED}, FOUND + done(1, 1, 0, 12), "", 0),
    "a rehearsal": ([*TINY, "-w", "new.bin", "--rehearse", "25"], {},
                    "Rehearsal: session stopped.\nRestores: 1.\nChip as before.\n", "", 0),
    "a backup": ([*TINY, "-r", "out"], {"out": OLD}, FOUND + "Read 65536 bytes.\n", "", 0),
    "a probe": (TINY, {}, FOUND, "", 0),
    "a stop": (["-p", TINY[1] + ",stop=25", "-w", "new.bin", "--journal", "j"], {"chip.bin": ERASED, "j": JOURNAL},
               "", "Error 12: stopped.\n", 1),
    "a refusal": ([*TINY, "-w", "short", "--journal", "j"], {"j": b""},
                  "", "Error 4: image of 100 bytes, chip of 65536 bytes.\n", 1),
    "a missing image": ([*TINY, "-w", "none", "--journal", "j"], {}, "", "File fault 1: none.\n", 1),
    "an old journal": ([*TINY, "-w", "new.bin", "--journal", "saved"], {}, "", "File fault 4: saved.\n", 1),
    "a missing journal": ([*TINY, "--restore", "none"], {}, "", "File fault 1: none.\n", 1),
}

# Each row has the arguments, the number of files that the program may have open, the closed streams, standard output,
# standard error, and the exit status. Before anything else, the program opens the root directory three times.
SIZE = ["-p", "dummy:emulate=TINY64", "--flash-size"]
NO_ROOT = "File fault 1: /.\n"
NO_OUTPUT = "File fault 2: standard output.\n"
LIMITS = [
    (SIZE, 6, "", "65536\n", "", 0),
    (SIZE, 5, "", "", NO_ROOT, 1),
    (SIZE, 4, "", "", NO_ROOT, 1),
    (SIZE, 3, "0", "", NO_ROOT, 1),
    (SIZE, 3, "1", "", NO_ROOT, 1),
    (SIZE, 3, "01", "", NO_ROOT, 1),
    (SIZE, 3, "2", "", "", 1),
    (SIZE, 3, "012", "", "", 1),
    (["-h"], 5, "", "", NO_ROOT, 1),
    ([], 5, "", "", NO_ROOT, 1),
    (JOBS["a write"][0], 5, "", "", NO_ROOT, 1),
    (JOBS["a write"][0], 3, "0", "", NO_ROOT, 1),
    (JOBS["a write"][0], 3, "2", "", "", 1),
]

# Each row has arguments, in which TTY is replaced by the name of a terminal, and the expected standard error.
TERMINALS = [
    (["-p", "dummy:emulate=TINY64,image=TTY"], "File fault 1: TTY.\n"),
    (["-p", "dummy:emulate=TINY64,status=TTY", "--flash-size"], "File fault 1: TTY.\n"),
    (["-p", "dummy:emulate=TINY64,image=TTY", "-r", "out"], "File fault 1: TTY.\n"),
    (["-p", "dummy:emulate=TINY64,image=TTY", "-v", "new.bin"], "File fault 1: TTY.\n"),
    (["-p", "dummy:emulate=TINY64,status=TTY", "-w", "new.bin", "--rehearse", "25"], "File fault 1: TTY.\n"),
    (["-p", "dummy:emulate=W25Q64FV,status=TTY", "--wp-status"], "File fault 1: TTY.\n"),
    (["-p", "dummy:emulate=TINY64,image=TTY", "-w", "new.bin", "--journal", "j"], "File fault 2: TTY.\n"),
    (["-p", "dummy:emulate=TINY64,status=TTY", "-E", "--journal", "j"], "File fault 2: TTY.\n"),
    (["-p", "dummy:emulate=TINY64,image=TTY", "--restore", "saved"], "File fault 2: TTY.\n"),
    (["-p", "dummy:emulate=TINY64,image=chip.bin", "-w", "new.bin", "--journal", "TTY"], "File fault 4: TTY.\n"),
]


# Each way to hide /proc has a name, the options of unshare, the shell commands that start the program, and a fault. A
# run ends with this fault if it would change or create a file and its standard output is its image. $0 is an empty
# directory outside the chip's directory.
CHROOT = 'mount --rbind / "$0" && umount -l "$0/proc" && exec chroot "$0" sh -c \'cd "$0" && exec "$@"\' "$PWD" "$@"'
ELSEWHERE = """mount --bind /proc "$0" && mount -t tmpfs none /proc && mount -t tmpfs none /dev &&
    ln -s "$0/self/fd" /dev/fd && exec "$@" """
HIDDEN = [
    ("a chroot without /proc", ["--mount"], CHROOT, "File fault 1: /dev/fd/1.\n"),
    ("/proc of another PID namespace", ["--mount"], 'unshare --pid --fork mount -t proc proc /proc && exec "$@"',
     "File fault 1: /dev/fd/1.\n"),
    ("/dev/fd without /proc", ["--mount"], ELSEWHERE, "File fault 5: chip.bin.\n"),
]

# These runs would change or create a file. They are tried with the chip's image as standard output.
TO_IMAGE = [[*TINY, "-w", "new.bin", "--journal", "j"], [*TINY, "-E", "--journal", "j"], [*TINY, "--restore", "saved"],
            [*TINY, "-r", "out"], ["-p", TINY[1] + ",trace=t"]]


class Failed(Exception):
    """A test failed. The arguments are the expected and the actual result."""


def same(what, wanted, got):
    if wanted != got:
        raise Failed(f"{what}: wanted {wanted!r:.300}", f"got {got!r:.300}")


class Runs:
    def __init__(self, program):
        self.program = program
        self.passed = 0
        self.failed = 0

    def try_one(self, what, wanted, words, before=(), **how):
        """Runs the program in a directory of its own, and compares its output, its status and the files that it left.
        `wanted` has the expected results, or is a function that returns them for the actual output. If `before` is
        given, this command starts the program."""
        with tempfile.TemporaryDirectory() as name:
            place = Path(name)
            for file, content in FILES.items():
                (place / file).write_bytes(content)
            try:
                got = run([*before, self.program, *words], place, **how)
                changed, printed, faults, status = wanted(place, *got) if callable(wanted) else wanted
                same("standard output", printed, got[0])
                same("standard error", faults, got[1])
                same("status", status, got[2])
                left = {it.name: it.read_bytes() for it in place.iterdir()}
                for file in sorted({*FILES, *changed, *left}):
                    same(file, changed.get(file, FILES.get(file)), left.get(file))
                self.passed += 1
            except Failed as why:
                self.fail(what, *why.args)
            except subprocess.TimeoutExpired:
                self.fail(what, "it had no end")

    def fail(self, what, *why):
        self.failed += 1
        print(f"FAILED: streams.py: {what}", *(f"    {it}" for it in why), sep="\n")

    def close_streams(self):
        for (what, job), count in itertools.product(JOBS.items(), range(4)):
            words, changed, printed, faults, status = job
            for closed in itertools.combinations((0, 1, 2), count):
                for is_full in (False, True):
                    is_lost = (1 in closed and printed) or (2 in closed and faults)
                    told = NO_OUTPUT * bool(1 in closed and printed) + faults
                    wanted = (changed, "" if 1 in closed else printed, "" if 2 in closed else told,
                              1 if is_lost else status)
                    how = f"{what}, with {closed or 'nothing'} closed" + ", and 3 to 9 in use" * is_full
                    self.try_one(how, wanted, words, closed=closed, is_full=is_full)

    def limit_files(self):
        for words, limit, closed, printed, faults, status in LIMITS:
            self.try_one(f"{words} with {limit} files at most, and '{closed}' closed", ({}, printed, faults, status),
                         words, closed=[int(it) for it in closed], limit=limit)

    def starve_session(self):
        """Checks that a session that may open too few files ends with file fault 1 or 2 and doesn't change the chip,
        and that with enough files it ends as without a limit."""
        words, changed, printed, _, _ = JOBS["a write"]
        ends = set()

        def wanted(place, output, faults, status):
            ends.add(status)
            if status == 0:
                return changed, printed, "", 0
            if not re.fullmatch(r"File fault [12]: (/|chip\.bin|s|new\.bin|j)\.\n", faults):
                raise Failed("wanted a file fault", f"got {faults}")
            return {"j": b""} if (place / "j").exists() else {}, "", faults, 1

        for limit in range(4, 15):
            self.try_one(f"a write with {limit} files at most", wanted, words, limit=limit)
        if ends != {0, 1}:
            self.fail("writes with 4 to 14 files at most", "wanted: some fail, and some don't", f"got {ends}")

    def give_terminals(self):
        master, slave = os.openpty()
        name = os.ttyname(slave)
        for words, faults in TERMINALS:
            words = [it.replace("TTY", name) for it in words]
            self.try_one(f"{words} with a terminal", ({}, "", faults.replace("TTY", name), 1), words)
        # The trace may be the terminal of standard output or standard error, because a terminal isn't a file that a run
        # could overwrite.
        size = "05 > 00|9f > fe1010|5a00000000 > 8 bytes|5a00000800 > 8 bytes|5a00001000 > 36 bytes|65536|"
        for stream in ("stdout", "stderr"):
            words = ["-p", f"dummy:emulate=TINY64,trace=/dev/{stream}", "--flash-size"]
            self.try_one(f"{words} on a terminal", ({}, "", "", 0), words, terminal=slave)
            shown = ""
            while len(shown) < len(size) and select.select([master], [], [], 5)[0]:
                shown += os.read(master, 4096).decode().replace("\r\n", "|")
            if shown == size:
                self.passed += 1
            else:
                self.fail(f"what {words} shows on a terminal", f"wanted {size}", f"got {shown}")
        os.close(master)
        os.close(slave)


    def hide_proc(self):
        """Checks runs that don't see their own /proc. They look for their streams in /dev/fd. If /dev/fd doesn't have
        them either, a run that would change or create a file ends before it does so; a run that only reads succeeds."""
        for what, flags, setup, fault in HIDDEN:
            with tempfile.TemporaryDirectory() as root:
                before = ["unshare", *flags, "sh", "-c", setup, root]
                trial = subprocess.run([*before, "true"], stderr=subprocess.PIPE, check=False)
                if trial.returncode:
                    print(f"skipped: {what}, since unshare fails: {os.fsdecode(trial.stderr).strip()}")
                    continue
                for words in TO_IMAGE:
                    self.try_one(f"{words} to its image, with {what}", ({}, "", fault, 1), words, before=before,
                                 output="chip.bin")
                self.try_one(f"a probe with {what}", ({}, FOUND, "", 0), TINY, before=before)


def run(words, place, closed=(), is_full=False, limit=0, terminal=None, output=None):
    """Runs the command `words` in the directory `place`. Returns its standard output, its standard error and its exit
    status. If `output` names a file, standard output goes to this file. If `terminal` is given, standard error and any
    other standard output go to this terminal. The texts returned for redirected streams are empty."""
    kept = [os.open("/dev/null", os.O_RDONLY)] * is_full
    kept += [os.dup2(kept[0], it) for it in range(3, 10) if is_full and it != kept[0]]

    def prepare():
        for stream in closed:
            os.close(stream)
        if limit:
            resource.setrlimit(resource.RLIMIT_NOFILE, (limit, limit))

    stream = subprocess.PIPE if terminal is None else terminal
    printed = [os.open(place / output, os.O_RDWR)] if output else []
    try:
        ran = subprocess.run(words, cwd=place, stdin=subprocess.DEVNULL, stdout=(printed or [stream])[0], stderr=stream,
                             timeout=10, pass_fds=kept, preexec_fn=prepare, check=False)
    finally:
        for it in {*kept, *printed}:
            os.close(it)
    return os.fsdecode(ran.stdout or b""), os.fsdecode(ran.stderr or b""), ran.returncode


def main(program):
    runs = Runs(Path(program).resolve())
    runs.close_streams()
    runs.limit_files()
    runs.starve_session()
    runs.give_terminals()
    runs.hide_proc()
    print(f"{runs.passed} passed, {runs.failed} failed")
    return int(runs.failed > 0)


if __name__ == "__main__":
    sys.exit(main(sys.argv[1]))
