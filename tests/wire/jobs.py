"""Defines the jobs that Wire plays: the chip before a job, the arguments of the program, and the chip that the job must
leave."""
import random
from typing import NamedTuple

from firmware import Programmer
from flash import Flash, SECTOR
from winbond import QE, Winbond

TINY, LARGE = Flash.size, Winbond.size
# JOURNAL is the file of a job's journal. If the job is a restore, the change before it writes this file.
JOURNAL = "j"

# IN_TINY and IN_LARGE have the changes of a write: an address, with the bytes there before and after. If a change sets
# a bit, the program erases the sector. Where the chip's size allows it, the bytes of the addresses are opcodes of the
# chip, except one (10h), which is an opcode of serprog.
IN_TINY = {0x2020: (b"\x00\x01", b"\x20\x06"), 0x60C7: (b"\x01\x00", b"\xc7\x52"), 0xC752: (b"\xff\xff", b"\x01\x04"),
           0xD801: (b"\xff\xff", b"\x60\xd8")}
IN_LARGE = {0x0120C7: (b"\x00\x01", b"\x06\x01"), 0x02D820: (b"\x00\x01", b"\x13\x04"),
            0x206020: (b"\x00\x02", b"\x01\x02"), 0x601060: (b"\x00\x03", b"\x60\xc7"),
            0x52C752: (b"\xff\xff", b"\x52\x06"), 0x060106: (b"\xff\xff", b"\x20\xd8"),
            0x20D8C7: (b"\xff\xff", b"\x13\x01")}
# ERASED has the ranges (start, length) that `-E` erases: `h` with one 52h, and `f` with one D8h.
ERASED = {"h": (0x208000, 0x8000), "f": (0x600000, 0x10000)}


class Job(NamedTuple):
    """A job of the program, on a chip of the class `part`.

    `words` are the arguments after -p. `changes` has the bytes that change, as IN_TINY does, and `erased` the names of
    ranges in ERASED. `status` has the chip's status bytes before the job (for a restore in JOBS, before the change that
    it undoes), and `then` those that the job must leave.

    If the job is a restore, `before` has the arguments of the change that it undoes. `sectors` are the sectors that the
    job's journal saves. If `is_whole` is true, the job erases the whole chip. If `is_long` is true, bytes are lost,
    doubled or inserted only on the way to the programmer, in frames that modify the chip.
    """

    name: str
    words: tuple
    changes: dict
    part: type = Winbond
    status: tuple = (0, QE)
    then: tuple = (0, QE)
    before: tuple = ()
    sectors: frozenset = frozenset()
    erased: tuple = ()
    is_long: bool = False
    is_whole: bool = False

    @property
    def has_journal(self):
        return "--journal" in self.words or "--restore" in self.words


def filler(size):
    """Returns `size` bytes. Each sector has the same random bytes, except that it begins with its address, so no two
    sectors are equal."""
    found = bytearray(random.Random(size).randbytes(SECTOR) * (size // SECTOR))
    for at in range(0, size, SECTOR):
        found[at : at + 4] = at.to_bytes(4, "big")
    return found


def images(job):
    """Returns the chip's bytes before and after a job or, for a restore, before and after the change that it undoes.
    In the first image, each sector in `changes` or `erased` has FFh in all bytes that don't change."""
    old = filler(job.part.size)
    for at in job.changes:
        begin = at // SECTOR * SECTOR
        old[begin : begin + SECTOR] = b"\xff" * SECTOR
    for name in job.erased:
        begin, length = ERASED[name]
        for at in range(begin, begin + length, SECTOR):
            old[at : at + SECTOR] = b"\xff" * (SECTOR - 1) + b"\x00"
    new = bytearray(old)
    for name in job.erased:
        begin, length = ERASED[name]
        new[begin : begin + length] = b"\xff" * length
    if job.is_whole:
        new[:] = b"\xff" * len(new)
    for at, (was, becomes) in job.changes.items():
        old[at : at + len(was)] = was
        new[at : at + len(was)] = becomes
    return bytes(old), bytes(new)


def layout(changes):
    lines = [f"{at // SECTOR * SECTOR:06x}:{at // SECTOR * SECTOR + SECTOR - 1:06x} r{at:x}\n" for at in changes]
    lines += [f"{begin:06x}:{begin + length - 1:06x} {name}\n" for name, (begin, length) in ERASED.items()]
    return "".join(lines).encode()


def sectors(changes, erased=()):
    ranges = [(at // SECTOR, at // SECTOR + 1) for at in changes]
    ranges += [(begin // SECTOR, (begin + length) // SECTOR) for begin, length in (ERASED[it] for it in erased)]
    return frozenset(it for begin, end in ranges for it in range(begin, end))


def regions(changes):
    return "-l", "layout", "-i", ",".join(f"r{at:x}" for at in changes)


def all_jobs():
    """Returns the jobs by their names."""
    few = dict(list(IN_LARGE.items())[2:5])
    write_tiny = ("-w", "new", "--journal", JOURNAL)
    write = ("-w", "new", *regions(IN_LARGE), "-N", "--journal", JOURNAL)
    unlock = ("-w", "new", *regions(few), "-N", "--unlock", "--journal", JOURNAL)
    erase = ("-E", "-l", "layout", "-i", "h,f", "-N", "--journal", JOURNAL)
    span = ("--wp-range", "0x600000,0x200000", "--journal", JOURNAL)
    back, quick = ("--restore", JOURNAL), ("--restore", JOURNAL, "--quick")
    tiny = {"part": Flash, "status": (0, 0), "then": (0, 0), "sectors": sectors(IN_TINY)}
    locked = {"status": (0x1C, QE), "then": (0x1C, QE), "sectors": sectors(few)}
    large, halves = sectors(IN_LARGE), sectors({}, ERASED)
    jobs = [
        Job("tiny-write", write_tiny, IN_TINY, **tiny),
        Job("tiny-restore", back, IN_TINY, before=write_tiny, **tiny),
        Job("tiny-quick", quick, IN_TINY, before=write_tiny, **tiny),
        Job("tiny-erase", ("-E", "--journal", JOURNAL), {0x2020: (b"\x00\x01", b"\xff\xff")}, Flash, (0, 0), (0, 0),
            sectors=frozenset(range(TINY // SECTOR)), is_whole=True),
        Job("whole", ("-w", "new", "--journal", JOURNAL), few, sectors=sectors(few), is_long=True),
        Job("whole-restore", back, few, before=("-w", "new", "--journal", JOURNAL), sectors=sectors(few), is_long=True),
        Job("write", write, IN_LARGE, sectors=large),
        Job("restore", (*back, "-N"), IN_LARGE, before=write, sectors=large),
        Job("quick", (*quick, "-N"), IN_LARGE, before=write, sectors=large),
        Job("erase", erase, {}, sectors=halves, erased=tuple(ERASED)),
        Job("unlock", unlock, few, **locked),
        Job("unlock-restore", (*back, "-N"), few, before=unlock, **locked),
        Job("wp-range", span, {}, then=(0x14, QE)),
        Job("wp-range-restore", (*back, "-N"), {}, before=span, then=(0, QE)),
        Job("wp-enable", ("--wp-enable",), {}, status=(0x14, QE), then=(0x94, QE)),
        Job("wp-disable", ("--wp-disable",), {}, status=(0x94, QE), then=(0x14, QE)),
    ]
    return {it.name: it for it in jobs}


JOBS = all_jobs()


def make_programmer(job, old, **traits):
    """Returns a programmer whose chip has the bytes `old` and the status bytes `job.status`. `traits` are arguments of
    `Programmer`."""
    more = {} if job.part is Flash else {"status": job.status}
    return Programmer(job.part(old, **more), **traits)
