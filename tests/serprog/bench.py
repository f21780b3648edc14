"""A programmer with a chip, the program under test, and checks of what the program prints and sends."""
import copy
import os
import re
import subprocess
import time
from concurrent.futures import ThreadPoolExecutor
from pathlib import Path
from typing import NamedTuple

import reference
from chip import DEVICE, Chip
from server import ARGUMENTS, O_SPIOP, Server, Traits, trace_line

# Some cases that disturb a job at each transaction try only every STRIDE-th transaction. STRIDE is 1, except in
# self.py.
STRIDE = int(os.environ.get("STRIDE", "1"))

# The longest time of a run in seconds. A run that takes longer is taken to hang, even on a busy machine.
LONGEST = 300

# The progress line that a run prints each minute if its standard error isn't a terminal.
MINUTE = re.compile(r"(?:identify|scan|erase|program|protect|read back|compare): .*, (?:.* left|.* so far|took .*)")

# The line that a run prints at a terminal before it sends anything, except with --progress none. The terminal shows the
# line until the programmer replies, and with plain progress also afterwards.
WAITING = "Waiting for the programmer. No reply in 10 s? Ctrl-C; see flashnor-serprog(8)."


class Differs(Exception):
    """A check that failed. Its arguments are the lines that describe the failure."""


class Result(NamedTuple):
    """The exit status of a run, and the lines that it printed to standard output and standard error."""

    status: int
    out: list
    err: list


def check(what, got, wanted):
    """Raises `Differs` unless `got` equals `wanted`."""
    if got != wanted:
        raise Differs(f"{what}:", f"    got    {abridged(got)}", f"    wanted {abridged(wanted)}")


def abridged(value):
    text = value.hex() if isinstance(value, (bytes, bytearray)) else repr(value)
    return text if len(text) <= 400 else f"{text[:400]}.. ({len(text)} characters)"


def check_data(what, got, wanted):
    """Raises `Differs`, with the lengths or the first address that differs, unless `got` equals `wanted`."""
    check(f"{what}, length", len(got), len(wanted))
    if got != wanted:
        at = next(at for at, (one, other) in enumerate(zip(got, wanted)) if one != other)
        raise Differs(f"{what}: the first other byte is at 0x{at:06x}: got {got[at]:02x}, wanted {wanted[at]:02x}")


def read_all(terminal):
    """Returns the bytes that are printed to a terminal until no process has it open, and closes `terminal`."""
    shown = b""
    with os.fdopen(terminal, "rb", buffering=0) as source:
        try:
            while more := source.read(4096):
                shown += more
        except OSError:
            pass  # Linux reports EIO if no process has the terminal open
    return shown


class Bench:
    """A directory with a programmer at the link `dev`, and the chip of this programmer.

    `plug` connects a new programmer after it closes the current one. The chip stays as it is. If `remembers` is false,
    no copy of the chip is made before a run, so `carried` ignores the image of -w or -v. `environment` contains
    variables that are added to the environment of each run.
    """

    def __init__(self, program, folder, part="TINY64", data=None, status=b"\0\0", unique=DEVICE, scale=0.0, **traits):
        self.program, self.folder, self.part = program, Path(folder), part
        self.chip = Chip(part, data, status, unique, scale)
        self.server, self.command, self.words = None, "", []
        self.before, self.image, self.remembers = None, None, True
        # The bytes of the chip before the last run.
        self.data_before = b""
        self.environment = {}
        # The start time of the last run, and the progress lines that it printed because it took more than a minute.
        self.began, self.minutes = 0, []
        self.plug(**traits)

    def plug(self, **traits):
        if self.server:
            self.server.close()
        self.server = Server(self.folder / "dev", self.chip, Traits(**traits))

    def close(self):
        self.server.close()

    def path(self, name):
        return self.folder / name

    def remove_journal(self):
        """Removes the journal j and its file j.sectors, if they exist."""
        for name in "j", "j.sectors":
            self.path(name).unlink(missing_ok=True)

    def write(self, name, content):
        self.path(name).write_bytes(content)

    def start(self, words, keys="", err=subprocess.PIPE, out=subprocess.PIPE):
        """Starts the program with -p for this programmer and these arguments, and returns the process."""
        words = [str(self.program), "-p", f"serprog:dev={self.folder / 'dev'}{keys}", *words]
        return self.start_words(words, err, out)

    def start_words(self, words, err=subprocess.PIPE, out=subprocess.PIPE):
        self.command, self.words = " ".join(map(str, words[1:])), [str(it) for it in words]
        self.before = copy.deepcopy(self.chip) if self.remembers else None
        self.data_before = bytes(self.chip.data)
        self.began = time.monotonic()
        names = [name for option, name in zip(words, words[1:]) if option in ("-w", "-v") and self.remembers]
        # Sectors that equal the image are read only once, but only if the whole chip is compared with the image at the
        # end.
        names = names if not {"-n", "-N", "--noverify-all"} & set(words) else []
        self.image = self.path(names[0]).read_bytes() if names and self.path(names[0]).exists() else None
        process = subprocess.Popen(words, cwd=self.folder, stdin=subprocess.DEVNULL, stdout=out,
                                   stderr=err, env=dict(os.environ, LC_ALL="C", **self.environment))
        self.server.kill_at(process)
        return process

    def finish(self, process):
        """Waits until a run ends, and returns its result without the progress lines and the note of a restore."""
        try:
            out, err = process.communicate(timeout=LONGEST)
        except subprocess.TimeoutExpired:
            process.kill()
            process.communicate()
            raise Differs(f"the run did not end in {LONGEST} seconds") from None
        out, err = (it.decode(errors="backslashreplace").splitlines() for it in (out, err))
        is_long = time.monotonic() - self.began >= 60
        self.minutes = [it for it in err if is_long and MINUTE.fullmatch(it)]
        return self.without_note(Result(process.returncode, out, [it for it in err if it not in self.minutes]))

    def note(self):
        """Returns the note with which the last run must end if it succeeded, as a list of one line or none.

        The list has a line after a restore without -N from a journal of format 2 that saves some, but not all sectors,
        if the file `JOURNAL.sectors` is missing.
        """
        names = [name for option, name in zip(self.words, self.words[1:]) if option == "--restore"]
        if not names or {"-N", "--noverify-all"} & set(self.words) or self.path(f"{names[0]}.sectors").exists():
            return []
        is_partial = self.path(names[0]).exists() and reference.is_partial(self.path(names[0]).read_bytes())
        return [reference.unknown_sectors(names[0])] if is_partial else []

    def without_note(self, got):
        """Checks that a successful run ends with the lines of `note`, and returns the result without them."""
        note = self.note() if got.status == 0 else []
        check("the last line of a restore", got.err[len(got.err) - len(note) :], note)
        return Result(got.status, got.out, got.err[: len(got.err) - len(note)])

    def run(self, *words, keys="", events=None):
        """Clears the log of the programmer, runs the program with these arguments, and returns the result."""
        self.server.begin(events or {})
        return self.finish(self.start(words, keys))

    def expect(self, *words, out=(), err=(), keys="", events=None):
        """Runs the program, and checks both output streams and the exit status: 1 if `err` has lines, else 0."""
        got = self.run(*words, keys=keys, events=events)
        self.compare(got, out, err)
        return got

    def expect_at_terminal(self, *words, lines):
        """Runs the program with standard error at a terminal, and checks that it succeeds and prints these lines.

        The progress is plain (--progress plain). The line `WAITING` is printed before these lines.
        """
        terminal, slave = os.openpty()
        self.server.begin({})
        process = self.start((*words, "--progress", "plain"), err=slave)
        os.close(slave)
        with ThreadPoolExecutor(1) as pool:
            shown = pool.submit(read_all, terminal)
            process.communicate(timeout=LONGEST)
        check("lines at the terminal", shown.result().decode().splitlines(), [WAITING, *lines, *self.note()])
        check("exit status", process.returncode, 0)

    def expect_to_wait(self, *words):
        """Runs the program with standard error at a terminal. Kills it a second after it printed `WAITING`.

        The program must still be waiting then.
        """
        terminal, slave = os.openpty()
        self.server.begin({})
        process = self.start(words, err=slave)
        os.close(slave)
        with os.fdopen(terminal, "rb") as source:
            shown = b""
            while not shown.endswith(b"\x1b[K"):
                shown += source.read(1)
            check("the line at the terminal", shown.decode(), f"\r{WAITING}\x1b[K")
            try:
                process.wait(1)
                raise Differs("the run ended, and should wait")
            except subprocess.TimeoutExpired:
                process.kill()
        process.communicate()

    def run_unprinted(self, *words):
        """Runs the program with standard output at /dev/full. Returns exit status and lines of standard error."""
        self.server.begin({})
        with open("/dev/full", "wb") as full:
            process = self.start(words, out=full)
            _, err = process.communicate(timeout=LONGEST)
        return process.returncode, err.decode(errors="backslashreplace").splitlines()

    @staticmethod
    def compare(got, out, err):
        check("standard error", got.err, list(err))
        check("standard output", got.out, list(out))
        check("exit status", got.status, int(bool(err)))

    def device(self, text):
        """Returns the text, in which the path of the device replaces DEV."""
        return text.replace("DEV", str(self.folder / "dev"))

    def transactions(self):
        """Returns the transactions of the last run as lines of a trace."""
        return [trace_line(*it) for it in self.server.log]

    def carried(self, plan):
        """Returns the transactions that the programmer must have received, if `plan` is the plan of the last run.

        The plan has the transactions of the engine (see reference.py). The result also contains those before the job,
        the reads ahead, and the reads that confirm a reply.
        """
        server = self.server
        return reference.carried(plan, self.data_before, server.longest_read(), server.longest_part(),
                                 copy.deepcopy(self.before), self.image)

    def first(self):
        """Returns the number of the first transaction of a job on the current chip.

        The transactions before it wake the chip, make the trial reads, and read the ID and status 1.
        """
        server = self.server
        return len(reference.before_job(self.chip.data, server.longest_part(), server.longest_read())) + 1

    def check_frames(self, plan):
        """Checks that the last run sent exactly the frames of `carried(plan)` after the handshake."""
        _, rest = split_handshake(self.server.received)
        wanted = reference.frames(self.carried(plan))
        if rest == wanted:
            return
        at = next((at for at, (one, other) in enumerate(zip(rest, wanted)) if one != other),
                  min(len(rest), len(wanted)))
        raise Differs(f"the frames differ at byte {at} of {len(rest)}, and {len(wanted)} were wanted:",
                      f"    got    {rest[max(0, at - 12) : at + 12].hex(' ')}",
                      f"    wanted {wanted[max(0, at - 12) : at + 12].hex(' ')}")

    def check_carried(self, number):
        """Waits up to two seconds for `number` transactions, and checks that the programmer carried out this many."""
        end = time.monotonic() + 2
        while len(self.server.log) < number and time.monotonic() < end:
            time.sleep(0.01)
        check("transactions that were carried out", len(self.server.log), number)

    def check_chip(self, data, status=b"\0\0"):
        check_data("the chip", bytes(self.chip.data), data)
        check("status bytes", bytes(self.chip.status), status)

    def check_file(self, name, content):
        if not self.path(name).exists():
            raise Differs(f"the file {name} is missing")
        check_data(f"the file {name}", self.path(name).read_bytes(), content)

    def check_absent(self, name):
        if self.path(name).exists():
            raise Differs(f"the file {name} exists, and has {self.path(name).stat().st_size} bytes")

    def check_nothing_sent(self):
        check("bytes sent", bytes(self.server.received), b"")

    def check_unselected(self):
        """Checks that the programmer carried out no transaction."""
        check("transactions", self.transactions(), [])


def split_handshake(received):
    """Returns the commands before the first O_SPIOP, each with its arguments, and the bytes from this O_SPIOP on."""
    commands, at = [], 0
    while at < len(received) and received[at] != O_SPIOP:
        after = at + 1 + ARGUMENTS.get(received[at], 0)
        commands.append((received[at], bytes(received[at + 1 : after])))
        at = after
    return commands, bytes(received[at:])
