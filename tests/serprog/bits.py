"""Tries single wrong bits of replies, and single transactions that the chip misses, in sessions and restores.

A run with a fault may end with exit status 0 only if the chip and the journal are right, and must not set a one-time
bit (LB1 to LB3). If a run fails after it has changed the chip, a restore must succeed. In a reply to 03h, `SAMPLE` bits
spread over the reply are tried, and up to 16 bits that differ between the chip before and after the job. In other
replies each bit is tried. For the first poll after each operation the faults are tried a second time on a chip that is
busy for the typical durations of the datasheet.
"""
import tempfile
from functools import partial
from typing import NamedTuple

import reference
from bench import STRIDE, Bench, Differs, check
from chip import ONCE, PARTS, READ_DATA, SECTOR

SAMPLE = 64
UNIQUE = bytes(range(8))
NUMBER = 48
LAYOUT = b"030000:030fff one\n"
REGION = ("-N", "-l", "layout", "-i", "one", "--journal", "j")
# A restore of a W25Q64FV uses -N, because the comparison of the other sectors would read 8 MiB twice.
RESTORE = ("--restore", "j", "-N")
RESTORE_TINY = ("--restore", "j")


class Work(NamedTuple):
    """A job: its chip and arguments, the bytes and status before and after it, its plan, and its journal.

    The plan lists the transactions of the engine (see reference.py). A session writes the journal, and a restore reads
    it.
    """

    part: str
    words: tuple
    before: bytes
    after: bytes
    status: bytes
    new_status: bytes
    plan: list
    journal: bytes


class Sweep(NamedTuple):
    """A transaction of a job in which faults are tried. `replies` is the length of its reply.

    `at` is the number of the transaction, or a pair: the numbers of an operation and of a poll after it.
    """

    work: str
    at: object
    opcode: int
    replies: int


def chip_with(part, sector):
    """Returns the bytes of a chip that is blank except for one sector, which begins with the bytes `sector`."""
    at = NUMBER * SECTOR if part != "TINY64" else SECTOR
    return b"\xff" * at + sector + b"\xff" * (PARTS[part].size - at - len(sector))


OLD, NEW = b"\x5a\x00\xff\xa5" * 4, bytes(range(16)) + b"\xff" * 500 + b"\x77"


def protect():
    """Returns the job --wp-range on a chip with QE and CMP set."""
    blank, status = chip_with("W25Q64FV", b""), b"\x24\x42"
    plan = reference.identify("W25Q64FV") + reference.write_status(b"\x1c\x02")
    words = ("--wp-range", "0,0x800000", "--journal", "j")
    return Work("W25Q64FV", words, blank, blank, status, b"\x1c\x02", plan,
                reference.journal("W25Q64FV", blank, [], status, UNIQUE))


def restore_range():
    """Returns the job --restore that undoes the job of `protect`."""
    work = protect()
    plan = reference.identify("W25Q64FV") + reference.write_status(work.status)
    return work._replace(words=RESTORE, plan=plan, status=work.new_status, new_status=work.status)


def unlock():
    """Returns the job -w --unlock of a region of one sector, on a chip that is protected as a whole."""
    old, new, status = chip_with("W25Q64FV", OLD), chip_with("W25Q64FV", NEW), b"\x1c\x02"
    steps, read = reference.change(old, new, [NUMBER], False), [reference.read_sector(NUMBER)]
    plan = reference.identify("W25Q64FV") + read + reference.write_status(b"\0\x02") + steps \
        + reference.write_status(status) + read
    plan = reference.whole_run("W25Q64FV", plan)
    return Work("W25Q64FV", ("-w", "new", "--unlock", *REGION), old, new, status, status, plan,
                reference.journal("W25Q64FV", old, [NUMBER], status, UNIQUE))


def blank():
    """Returns the job -w of a blank region on a sector in which only one bit is clear."""
    old, new, status = chip_with("W25Q64FV", b"\xff\xfb"), chip_with("W25Q64FV", b""), b"\0\x02"
    plan = reference.session("W25Q64FV", old, new, [NUMBER])
    plan = reference.whole_run("W25Q64FV", plan)
    return Work("W25Q64FV", ("-w", "new", *REGION), old, new, status, status, plan,
                reference.journal("W25Q64FV", old, [NUMBER], status, UNIQUE))


def restore():
    """Returns the job --restore of a journal with one sector, on a chip whose protected range was changed, too."""
    work = unlock()
    first, status = b"\x1c\x02", b"\x24\x42"
    steps = reference.rewriting(work.before, [NUMBER])
    plan = reference.identify("W25Q64FV") + reference.write_status(b"\0\x02") + steps[:-1] \
        + reference.write_status(status) + steps[-1:]
    return work._replace(words=RESTORE, before=work.after, after=work.before, status=first, new_status=status, plan=plan,
                         journal=reference.journal("W25Q64FV", work.before, [NUMBER], status, UNIQUE))


def restore_tiny():
    """Returns the job --restore of one sector of TINY64. It also reads the other sectors."""
    old, new = chip_with("TINY64", OLD), chip_with("TINY64", NEW)
    plan = reference.whole_restore("TINY64", reference.restore("TINY64", old, [1]), [1])
    return Work("TINY64", RESTORE_TINY, new, old, b"\0\0", b"\0\0", plan,
                reference.journal("TINY64", old, [1], b"\0\0", UNIQUE))


WORKS = {f"bits_{it.__name__}": it for it in (protect, restore_range, unlock, blank, restore, restore_tiny)}


def wire(work):
    """Returns the transactions of a job that the programmer receives."""
    return reference.carried(work.plan, work.before)


def sweeps(name):
    """Returns the sweeps of a job. The name `bits_JOB_05` stands for the sweeps of the opcode 05h only."""
    job = next(it for it in sorted(WORKS, key=len, reverse=True) if name.startswith(it))
    only = name[len(job) + 1 :]
    work = WORKS[job]()
    found = [Sweep(job, at, out[0], replies) for at, (out, replies) in enumerate(wire(work), 1)]
    operations = sum(out == b"\x06" for out, _ in work.plan)
    found += [Sweep(job, (at, 1), 0x05, 2) for at in range(1, operations + 1)]
    return [it for it in found if not only or it.opcode == int(only, 16)]


def tries(program, names):
    """Returns functions that run the jobs of these names without a fault, and functions that try their sweeps."""
    found = [partial(try_right, program, it) for it in names]
    return found + [partial(try_sweep, program, it) for name in names for it in sweeps(name)]


def faults(work, sweep):
    """Returns the faults of a sweep: each is the name of a field of `Traits`, and the fault.

    With a STRIDE of 9, only every third fault is returned, since a reply has few bits. Which ones depends on the
    transaction.
    """
    bits = range(8 * sweep.replies)
    if sweep.opcode == READ_DATA and len(bits) > SAMPLE:
        differing = {8 * at + bit for at in range(SECTOR) for bit in range(8)
                     if (sector_of(work, work.before)[at] ^ sector_of(work, work.after)[at]) >> bit & 1}
        step = len(bits) // SAMPLE
        bits = sorted({step * i + 37 * i % step for i in range(SAMPLE)} | set(sorted(differing)[:16]))
    found = [("wrong_bits", divmod(it, 8)) for it in bits] + [("misses", it) for it in (0xFF, 0x00)]
    number = sweep.at if isinstance(sweep.at, int) else sweep.at[0]
    stride = max(1, STRIDE // 3)
    return found[number % stride :: stride]


def sector_of(work, data):
    return reference.sector_of(data, NUMBER if work.part != "TINY64" else 1)


def bench_of(program, folder, work, scale=0.0):
    bench = Bench(program, folder, work.part, data=work.before, status=work.status, unique=UNIQUE, scale=scale)
    bench.write("layout", LAYOUT)
    bench.write("new", work.after)
    return bench


def try_right(program, name):
    """Runs a job without a fault, and checks frames, chip and journal. Returns nothing, or the lines of a failure."""
    job = next(it for it in sorted(WORKS, key=len, reverse=True) if name.startswith(it))
    work = WORKS[job]()
    with tempfile.TemporaryDirectory() as folder:
        bench = bench_of(program, folder, work)
        try:
            got = begin(bench, work, {})
            check("the run", (got.err, got.status), ([], 0))
            bench.check_chip(work.after, work.new_status)
            bench.check_frames(work.plan)
            bench.check_file("j", work.journal)
            return None
        except Differs as why:
            return f"FAILED: {name}: {WORKS[job].__doc__}", *(f"    {it}" for it in why.args)
        finally:
            bench.close()


def try_sweep(program, sweep):
    """Tries the faults of a sweep. Returns nothing, or lines that say which faults did harm."""
    work = WORKS[sweep.work]()
    lines = []
    with tempfile.TemporaryDirectory() as folder:
        bench = bench_of(program, folder, work, 0.0 if isinstance(sweep.at, int) else 1.0)
        bench.remembers = False
        try:
            for kind, fault in faults(work, sweep):
                try:
                    try_fault(bench, work, {kind: {sweep.at: fault}})
                except Differs as why:
                    lines += [f"{kind} {fault}: {it}" for it in why.args]
        finally:
            bench.close()
    if not lines:
        return None
    return f"FAILED: {sweep.work}: transaction {sweep.at}, {sweep.opcode:02x}h:", *(f"    {it}" for it in lines[:20])


def begin(bench, work, traits):
    """Sets the chip and the journal to their state before the job, and runs the job with these faults."""
    bench.chip.wait()
    bench.chip.data[:], bench.chip.status[:], bench.chip.wel = work.before, work.status, False
    bench.remove_journal()
    if work.words[:2] == RESTORE[:2]:
        bench.write("j", work.journal)
    return run(bench, work.words, traits)


def run(bench, words, traits):
    """Runs the program with these faults of the wire, and waits until the chip is ready."""
    bench.server.traits.wrong_bits = dict(traits.get("wrong_bits", {}))
    bench.server.traits.misses = dict(traits.get("misses", {}))
    got = bench.run(*words)
    bench.chip.wait()
    return got


def try_fault(bench, work, traits):
    """Runs a job with a fault, and checks its result, the chip and the journal.

    If the run failed and the chip was changed, a restore must succeed and leave the expected bytes.
    """
    got = begin(bench, work, traits)
    chip = bench.chip
    check("one-time bits", chip.status[1] & ONCE, work.status[1] & ONCE)
    check("the exit status is 0 or 1", got.status in (0, 1), True)
    if got.status == 0:
        check("the chip is as asked", chip.data == work.after, True)
        check("status bytes", bytes(chip.status), work.new_status)
        bench.check_file("j", work.journal)
        return
    if chip.data == work.before and chip.status == work.status:
        return
    back = work.after, work.new_status
    if work.words[:2] != RESTORE[:2]:
        back = work.before, work.status
        bench.check_file("j", work.journal)
    again = run(bench, RESTORE, {})
    check("the restore", (again.err, again.status), ([], 0))
    check("the chip after the restore", chip.data == back[0], True)
    check("status bytes after the restore", bytes(chip.status), back[1])
