"""Plays a job with one fault and the runs of a user afterwards, and checks what they leave in the chip."""
import functools
import tempfile
from pathlib import Path
from typing import NamedTuple

import jobs
from flash import SECTOR
from line import LONGEST, OWN_SUPPLY, PATIENCE, Line, Result
from winbond import BOARD_BITS, SRP0

# If a restore leaves board bits that differ from the journal, it prints a line that begins with KEPT and names these
# bits. It then prints KEPT_BITS at its end, and has exit status 1. But if only QE differs, and QE is set, the restore
# ends with status 0 and without KEPT_BITS.
KEPT = "Not restored: the chip keeps these status bits, which differ from the journal: "
KEPT_BITS = 'All bytes and protection bits are restored, but not the status bits of the line "Not restored" above.'
# A restore that reports nothing may leave QE set, because the software of some boards sets it.
SET_QUAD = "QE (set)"
# While the programmer waits for bytes of a frame, the user identifies the chip again, at most MOST_RUNS times.
MOST_RUNS = 6
# A case with a finding that isn't allowed is played again with LONG_PATIENCE (in tenths of a second), because a busy
# machine may have caused the finding.
LONG_PATIENCE = 50
# A run without a fault has CLEAN_PATIENCE (in tenths of a second), since the programmer replies to every command.
CLEAN_PATIENCE = 100


class Played(NamedTuple):
    """A run of a job without a fault: the bytes that it sends, the files of the directory before it, and the chip's
    bytes before (`old`) and after it (`new`)."""

    sent: bytes
    files: dict
    old: bytes
    new: bytes


class Finding(NamedTuple):
    """A wrong result of a case: its kind, and a text. These are the kinds:

    - once: A one-time bit was set.
    - wrong: The chip isn't as the exit status 0, or the line KEPT_BITS, says. Or KEPT_BITS came without exit status 1
      or the right line KEPT.
    - silent: The exit status is 0, and the run reports nothing, but sectors are wrong, all of them outside the journal.
    - lost: A restore after a power cycle failed, although the journal has all changed sectors. Or the chip was changed,
      although the journal isn't sealed.
    - hangs: The run with the fault did not end in time.
    - moved: The run sent other bytes before the fault than a run without a fault, or it ended before the fault.
    - bits: Board bits or protection bits are wrong. A restore reports them with exit status 1, and a job without a
      journal can't report them.
    - broken: The test itself failed (run.py).
    """

    kind: str
    text: str


class Bench:
    """The chip, programmer, line and directory of a job."""

    def __init__(self, program, job, folder, data, files, patience=PATIENCE, **traits):
        self.job, self.folder = job, Path(folder)
        for name, content in files.items():
            (self.folder / name).write_bytes(content)
        self.programmer = jobs.make_programmer(job, data, **traits)
        self.chip = self.programmer.chip
        self.line = Line(program, folder, self.programmer, patience)
        self.found, self.told = [], []

    def run(self, *words, fault=None) -> Result:
        got = self.line.run(*words, fault=fault)
        self.told.append(f"{' '.join(words) or 'identify'}: {got.status}: {' | '.join(got.out[1:] + got.err)}")
        if self.chip.once:
            self.find("once", f"one-time bits {', '.join(f'{it:02x}h' for it in sorted(self.chip.once))} are set")
        return got

    def find(self, kind, text):
        if all(it.kind != kind for it in self.found):
            self.found.append(Finding(kind, text))

    def save(self):
        return self.programmer.state(), {it.name: it.read_bytes() for it in self.folder.iterdir() if it.name != "dev"}

    def put_back(self, saved):
        state, files = saved
        self.programmer.put_back(state)
        for it in self.folder.iterdir():
            if it.name != "dev" and it.name not in files:
                it.unlink()
        for name, content in files.items():
            (self.folder / name).write_bytes(content)

    def compare(self, got, data, status, what):
        """Checks that a run that reports success has left the bytes `data` and the status bytes `status`.

        Exit status 0 reports success. The line KEPT_BITS does so too, except for board bits. Returns whether the run
        reports success. Two differences are accepted: a QE that is set after a restore, and wrong bytes only in sectors
        that the job doesn't save, if the run printed further lines and the status bytes are right.
        """
        is_restore = what == "the restore" or bool(self.job.before)
        if KEPT_BITS in got.err:
            self.compare_kept(got, data, status, what)
            return True
        if got.status != 0:
            return False
        wrong = self.wrong_sectors(data)
        registers = self.chip.registers()
        said = [it for it in got.out + got.err if not it.startswith(("Found ", "Done: "))]
        if wrong - self.job.sectors and not wrong & self.job.sectors and registers == status:
            if not said:
                self.find("silent", f"{what}: status 0, and {told(wrong)} are wrong")
        elif wrong:
            self.find("wrong", f"{what}: status 0, and {told(wrong)} are wrong")
        elif registers != status and not (is_restore and kept_bits(registers, status) == [SET_QUAD]):
            kind = "wrong" if self.job.has_journal or what == "the run" else "bits"
            self.find(kind, f"{what}: status 0, and the status bytes are {shown(registers)}")
        return True

    def compare_kept(self, got, data, status, what):
        """Checks a run that printed KEPT_BITS. The chip must have the bytes `data` and the status bytes `status`,
        except for the board bits that the line KEPT names, and the exit status must be 1."""
        wrong, registers = self.wrong_sectors(data), self.chip.registers()
        kept = kept_bits(registers, status)
        named = [it for it in got.err if it.startswith(KEPT)]
        is_named = len(named) == 1 and named[0].startswith(f"{KEPT}{' '.join(kept)}.")
        if wrong:
            self.find("wrong", f"{what}: all bytes are said to be restored, and {told(wrong)} are wrong")
        elif kept in ([], [SET_QUAD]) or not is_named or got.status != 1:
            self.find("wrong", f"{what}: status {got.status}, and only board bits are said to differ, but the status "
                      f"bytes are {shown(registers)}")
        else:
            self.find("bits", f"{what}: reported with status 1: {' '.join(kept)}")

    def wrong_sectors(self, data):
        """Returns the numbers of the sectors in which the chip's bytes differ from `data`."""
        if self.chip.data == data:
            return set()
        return {at // SECTOR for at in range(0, len(data), SECTOR)
                if self.chip.data[at : at + SECTOR] != data[at : at + SECTOR]}


def kept_bits(found, wanted):
    """Returns the board bits in which the status bytes `found` differ from `wanted`, in the words of the line KEPT.

    Returns an empty list if other bits differ as well, because a restore must restore these.
    """
    differing = found[1] ^ wanted[1]
    if found[0] != wanted[0] or differing & ~sum(BOARD_BITS):
        return []
    return [f"{name} ({'set' if found[1] & bit else 'clear'})" for bit, name in BOARD_BITS.items() if differing & bit]


def shown(registers):
    return bytes(registers).hex(" ")


def told(sectors):
    shown = ", ".join(f"0x{it * SECTOR:06x}" for it in sorted(sectors)[:3])
    return f"{len(sectors)} sectors ({shown}{', ..' if len(sectors) > 3 else ''})"


@functools.lru_cache(maxsize=2)
def clean(program, name):
    """Runs a job without a fault, for a restore after the change that it undoes. Returns the job, with the status bytes
    before this run, and its `Played`. Raises ValueError if the exit status isn't 0 or the chip is wrong."""
    job = jobs.JOBS[name]
    old, new = jobs.images(job)
    files = {"new": new, "layout": jobs.layout(job.changes)}
    start, target = old, new
    with tempfile.TemporaryDirectory() as folder:
        bench = Bench(program, job, folder, old, files, CLEAN_PATIENCE)
        try:
            if job.before:
                got = bench.run(*job.before)
                start, target = bytes(bench.chip.data), old
                files[jobs.JOURNAL] = (bench.folder / jobs.JOURNAL).read_bytes()
                job = job._replace(status=bench.chip.registers())
            got = bench.run(*job.words)
            bench.compare(got, target, job.then, "the clean run")
            if got.status or bench.found:
                raise ValueError(f"{name} fails without a fault: {bench.told} {bench.found}")
        finally:
            bench.line.close()
    return job, Played(got.sent, files, start, target)


def original(job, played):
    """Returns the bytes and the status bytes that a restore from the job's journal must leave."""
    return (played.new, job.then) if job.before else (played.old, job.status)


def play(program, name, fault, patience=PATIENCE):
    """Plays a job with a fault. Returns the findings, and the lines that describe the runs."""
    job, played = clean(program, name)
    traits = {"selects_early": True} if fault[2:] == ("cut", OWN_SUPPLY) else {}
    with tempfile.TemporaryDirectory() as folder:
        bench = Bench(program, job, folder, played.old, played.files, patience, **traits)
        try:
            got = bench.run(*job.words, fault=fault)
            if fault.way == "to" and got.sent[: fault.at] != played.sent[: fault.at]:
                return [Finding("moved", "the bytes before the fault vary from run to run")], bench.told
            if fault.way == "back" and got.replied <= fault.at:
                return [Finding("moved", "the run ended before the fault")], bench.told
            if got.status == -9 and fault.kind != "cut":
                bench.find("hangs", f"the run did not end in {LONGEST} s")
            bench.compare(got, played.new, job.then, "the run")
            follow(bench, job, played)
            return bench.found, bench.told
        finally:
            bench.line.close()


def follow(bench, job, played):
    """Plays the runs of a user after the fault: first without a loss of power, if the programmer waits for bytes or WEL
    is set, and then from the same state after the programmer was disconnected."""
    saved = bench.save()
    waits = bool(bench.programmer.partial) or bench.chip.latch
    if waits:
        bench.told.append("the programmer keeps its power:")
        for _ in range(MOST_RUNS):
            bench.run()
            if not bench.programmer.partial:
                break
        finish(bench, job, played, False)
        bench.put_back(saved)
    bench.told.append("after a power cycle:")
    bench.line.drop()
    bench.programmer.power_cycle(chip_too=not bench.programmer.selects_early)
    bench.run()
    finish(bench, job, played, True)


def finish(bench, job, played, had_cycle):
    """Restores the chip if the job has a journal and its file exists. If the job has no journal, runs the job again.
    `had_cycle` is true if the programmer was disconnected before."""
    data, status = original(job, played)
    if not job.has_journal:
        got = bench.run(*job.words)
        bench.compare(got, played.new, job.then, "the same job again")
        return
    if not (bench.folder / jobs.JOURNAL).exists():
        return
    words = ["--restore", jobs.JOURNAL] + ["-N"] * ("-N" in job.words)
    got = bench.run(*words)
    is_done = bench.compare(got, data, status, "the restore")
    if any("journal fault" in it for it in got.err):
        if bytes(bench.chip.data) != data or bench.chip.registers() != status:
            bench.find("lost", "the journal isn't sealed, and the chip was changed")
    elif had_cycle and not is_done and bench.chip.hit <= job.sectors and not bench.chip.once:
        is_locked = bool((bench.chip.registers()[0] ^ status[0]) & SRP0)
        is_refused = is_locked and any("Error 17" in it for it in got.err)
        bench.find("bits" if is_refused else "lost", "the restore failed after a power cycle")
