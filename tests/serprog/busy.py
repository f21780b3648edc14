"""Cases of runs that are killed, or lose a reply, while the chip is busy for half a second or longer.

The chip continues its operation while no program runs. The restore that follows must wait until the chip is ready, then
restore each byte and status bit. After its first poll of two bytes it must send nothing that a busy chip ignores.
"""
import contextlib
import itertools
import random
import tempfile
from pathlib import Path
from typing import NamedTuple

import reference
from bench import Bench, Differs, check
from chip import PARTS, SECTOR
from losses import FEW, MANY, STOPPED, chip_images

# The durations in seconds of the operation in which a run is stopped. If the chip is ready before the run is stopped or
# the restore begins (on a slow machine), the loss is tried again with the next duration.
DURATIONS = (0.5, 4, 30)
POLL = b"\x05"
ALL = range(16)
# The sectors that `unlocking` changes: a block of 64 KiB and one more sector of a W25Q64FV.
BLOCK = (*range(16, 32), 48)
LAYOUT = b"010000:01ffff block\n030000:030fff sector\n"


class TooFast(Exception):
    """The chip was ready before the run was stopped, or before its restore began, so the loss must be tried again."""


class Session(NamedTuple):
    """A session: its chip and arguments, the sectors that it saves, and the chip's bytes and status before and after.

    The session carries out `count` operations (erases, programs and status writes), and its restore carries out `back`.
    """

    part: str
    words: tuple
    saved: tuple
    old: bytes
    new: bytes
    status: bytes
    new_status: bytes
    count: int
    back: int


class Loss(NamedTuple):
    """An event (`kill` or `lose`) in a session, or in its restore, at an operation and a poll after this operation.

    Poll 0 is the command of the operation. Operation 0 is the start of the run. If `first` isn't 0, the session was
    killed at the first poll after this operation, and the event occurs in its restore.
    """

    event: str
    session: str
    operation: int
    poll: int = 0
    is_restore: bool = False
    first: int = 0


def operations(plan):
    """Returns the number of operations in a plan. Each of them begins with 06h."""
    return sum(out == b"\x06" for out, _ in plan)


def small(changed):
    """Returns a session on TINY64 that changes these sectors."""
    old, new = chip_images(changed)
    return Session("TINY64", ("-w", "new"), changed, old, new, b"\0\0", b"\0\0",
                   operations(reference.session("TINY64", old, new)),
                   operations(reference.restore("TINY64", old, changed)))


def erasing():
    """Returns a session that erases TINY64 by one chip erase."""
    old, _ = chip_images(tuple(ALL[1:]))
    old = b"\0" + old[1:]
    new = b"\xff" * len(old)
    return Session("TINY64", ("-E",), tuple(ALL), old, new, b"\0\0", b"\0\0", 1,
                   operations(reference.restore("TINY64", old, ALL)))


def unlocking():
    """Returns a session on a protected W25Q64FV that erases a block, and erases and programs one more sector.

    The first and the last operation of the session are status writes, and so are those of its restore.
    """
    old = bytearray(b"\xff" * PARTS["W25Q64FV"].size)
    chance = random.Random("unlocking")
    for number in BLOCK:
        old[number * SECTOR + 250 : number * SECTOR + 260] = chance.randbytes(10)
    new = bytearray(old)
    for number in BLOCK:
        new[number * SECTOR : (number + 1) * SECTOR] = b"\xff" * SECTOR
    new[BLOCK[-1] * SECTOR + 1020 : BLOCK[-1] * SECTOR + 1030] = chance.randbytes(10)
    words = ("-w", "new", "--unlock", "-l", "layout", "-i", "block,sector")
    old, new = bytes(old), bytes(new)
    return Session("W25Q64FV", words, BLOCK, old, new, b"\x1c\x02", b"\x1c\x02",
                   operations(reference.session("W25Q64FV", old, new, BLOCK)) + 2,
                   operations(reference.restore("W25Q64FV", old, BLOCK)) + 2)


def protecting():
    """Returns a session that changes the protected range of a W25Q64FV by one status write."""
    old = b"\xff" * PARTS["W25Q64FV"].size
    return Session("W25Q64FV", ("--wp-range", "0,0x800000"), (), old, old, b"\x24\x42", b"\x1c\x02", 1, 1)


SESSIONS = {"few": lambda: small(FEW), "block": lambda: small(MANY), "chip": erasing,
            "unlock": unlocking, "protect": protecting}


def losses():
    """Returns the losses that run.py tries."""
    few, unlock = small(FEW), unlocking()
    found = []
    for event in "kill", "lose":
        found += [Loss(event, "few", at) for at in range(1, few.count + 1)]
        found += [Loss(event, "few", at, 3) for at in (1, few.count)]
        found += [Loss(event, "block", 2), Loss(event, "chip", 1), Loss(event, "chip", 1, 20), Loss(event, "protect", 1)]
        found += [Loss(event, "unlock", at) for at in (1, 2, 3, unlock.count)]
        found += [Loss(event, "few", at, 0, True) for at in (1, few.back)]
        found += [Loss(event, "unlock", at, 0, True) for at in (1, unlock.back)]
        # The restore is stopped while it waits for an operation of the killed session.
        found += [Loss(event, "few", 0, 5, True, 2), Loss(event, "unlock", 0, 5, True, 1)]
    return found


def try_loss(program, loss):
    """Tries one loss. Returns nothing, or the lines that describe a failure."""
    benches = []
    with tempfile.TemporaryDirectory() as folder, contextlib.ExitStack() as ends:

        def start(part, **chosen):
            benches.append(Bench(program, Path(tempfile.mkdtemp(dir=folder)), part, **chosen))
            ends.callback(benches[-1].close)
            return benches[-1]

        try:
            one_loss(start, loss)
            return None
        except Differs as why:
            return f"FAILED: {loss}", f"    at: {benches[-1].command}", *(f"    {it}" for it in why.args)


def one_loss(start, loss):
    """Tries one loss, and tries it again with a longer operation if the chip was ready too early."""
    session = SESSIONS[loss.session]()
    for seconds in DURATIONS:
        bench = start(session.part, data=session.old, status=session.status, unique=bytes(range(8)), scale=1.0)
        bench.write("new", session.new)
        bench.write("layout", LAYOUT)
        try:
            lose(bench, session, loss, seconds)
            return
        except TooFast as why:
            text = str(why)
    raise Differs(text)


def lose(bench, session, loss, seconds):
    """Runs the session and the restores of a loss, and checks the chip.

    The operation in which a run is stopped lasts for `seconds`.
    """
    change, restore = (*session.words, "--journal", "j"), ("--restore", "j")
    if not loss.is_restore:
        stop(bench, change, loss.event, (loss.operation, loss.poll), seconds)
    elif loss.first:
        stop(bench, change, "kill", (loss.first, 1), seconds)
        stop(bench, restore, loss.event, (loss.operation, loss.poll), seconds)
    else:
        check("the session", bench.run(*change).status, 0)
        bench.check_chip(session.new, session.new_status)
        stop(bench, restore, loss.event, (loss.operation, loss.poll), seconds)
    journal = reference.journal(session.part, session.old, session.saved, session.status, bytes(range(8)))
    bench.check_file("j", journal)
    got = bench.run(*restore)
    # A session that saves no sector writes no file j.sectors, and the restore prints a line about that.
    unknown = [] if session.saved else [reference.unknown_sectors("j", reference.UNWRITTEN)]
    check("the restore", (got.err, got.out[:1], got.status), (unknown, [reference.found(session.part)], 0))
    check("transactions that the busy chip ignored", bench.chip.ignored, 0)
    check("the chip is busy after the restore", bench.chip.is_busy(), False)
    check_waiting(bench)
    bench.check_chip(session.old, session.status)
    bench.check_file("j", journal)


def stop(bench, words, event, at, seconds):
    """Runs the program, and stops it by the event at an operation that lasts for `seconds`.

    If the event isn't `kill`, the programmer is gone, so this function connects a new one.
    """
    bench.chip.slow = {at[0]: seconds}
    got = bench.run(*words, events={at: event})
    check("transactions that the busy chip ignored", bench.chip.ignored, 0)
    if bench.server.traits.events:
        raise TooFast(f"the run ended before operation {at[0]} and its poll {at[1]}: {got}")
    bench.chip.slow = {}
    if event == "kill":
        check("exit status of a killed run", got.status, -9)
        return
    check("the error", (got.err[:1], got.out, got.status), ([STOPPED], [], 1))
    bench.plug()


def check_waiting(bench):
    """Raises `TooFast` unless the job began with two polls or more that showed BUSY.

    One of these polls may be left from the run before, so a single one isn't enough.
    """
    waits = 0
    # Skips what precedes the job: ABh, the trial reads, and a read of the ID and of status 1. A busy chip replies FFh
    # to reads of data, so the last two trial reads read status 1.
    before = itertools.dropwhile(lambda it: it[0] != POLL or len(it[1]) != reference.STATUS_TWICE[1], bench.server.log)
    for out, reply in before:
        if out != POLL or not reply[0] & 1:
            break
        waits += 1
    if waits < 2:
        raise TooFast("the chip was ready before the restore began")


def restores_a_busy_chip(start):
    """A restore waits for the operation of a session or restore that was killed, or of a session that lost a reply."""
    for loss in Loss("kill", "few", 2), Loss("lose", "few", 7), Loss("kill", "few", 1, 0, True):
        one_loss(start, loss)


CASES = [restores_a_busy_chip]
