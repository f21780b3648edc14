"""Kills and lost replies in a session and in its first restore, and cut frames and losses of power in a session.

The chip has 64 KiB. After each of these events a restore must succeed, and the chip must hold each byte of the
original. If the session's journal was never sealed, the chip must be unchanged instead.
"""
import tempfile
from typing import NamedTuple

import reference
from bench import Bench, Differs, check
from chip import SECTOR, Chip
from options import images

# The sectors that a session changes, in two variants. Sector 1 needs no erase, since its bits only change from 1 to 0.
# The others are erased, the sectors 8 to 15 of `MANY` by one erase.
FEW = (1, 2, 12, 13, 14, 15)
MANY = (1, 2, *range(8, 16))
STOPPED = "Error 12: stopped."


class Loss(NamedTuple):
    """An event at the transaction `session` of a session, and at the transaction `restore` of its first restore.

    If one of the numbers is 0, that run has no event. The session changes the sectors `changed`.
    """

    event: str
    session: int
    restore: int = 0
    changed: tuple = FEW


def chip_images(changed):
    """Returns the original and the target. Their changed sectors are mostly blank, so that runs are short."""
    old, _ = map(bytearray, images("losses"))
    for number in changed:
        old[number * SECTOR : (number + 1) * SECTOR] = b"\xff" * SECTOR
        at = number * SECTOR + 256 * (number - 1)
        old[at + 250 : at + 260] = bytes(range(number, number + 10))
    new = bytearray(old)
    for number in changed[1:]:
        new[number * SECTOR : (number + 1) * SECTOR] = b"\xff" * SECTOR
    new[SECTOR + 700 : SECTOR + 703] = b"\x00\x10\x00"
    new[2 * SECTOR + 250 : 2 * SECTOR + 262] = bytes(range(12))
    return bytes(old), bytes(new)


def session_wire(old, new):
    """Returns the transactions that the programmer receives in a run with a session."""
    plan = reference.whole_run("TINY64", reference.session("TINY64", old, new), True)
    return reference.carried(plan, old, chip=Chip("TINY64", old), image=new)


def losses():
    """Returns losses at each transaction of a session, and of a restore after a session without a loss, and in both.

    Only kills are tried at the transactions before the job. The losses of `rare_losses` are returned, too.
    """
    old, new = chip_images(FEW)
    wire = session_wire(old, new)
    back = reference.carried(reference.whole_restore("TINY64", reference.restore("TINY64", old, FEW), FEW), new)
    begins = ("kill", 1), ("lose", len(reference.before_job(old)) + 1)
    found = [Loss(event, at) for event, begin in begins for at in range(begin, len(wire) + 1)]
    found += [Loss(event, 0, at) for event, begin in begins for at in range(begin, len(back) + 1)]
    # The session is stopped after its journal was sealed, and its first restore is stopped, too.
    middle = range(sealed_after(wire) + 10, len(wire) + 1)
    found += [Loss(event, at, at // 2) for event in ("kill", "lose") for at in middle]
    return found + rare_losses()


def rare_losses():
    """Returns losses of power at each erase and program, and cuts of its frame after 1, 7, 8 or 10 bytes."""
    wire = session_wire(*chip_images(MANY))
    changing = [at for at, (out, _) in enumerate(wire, 1) if out[0] in (0x02, 0x20, 0x52, 0xD8, 0xC7)]
    found = [Loss("power", at, 0, MANY) for at in changing]
    return found + [Loss(f"cut {length}", at, 0, MANY) for at in changing for length in (1, 7, 8, 10)]


def sealed_after(wire):
    """Returns the number of transactions before the journal is sealed.

    After the seal the unique ID is read again, and then the first modifying command follows.
    """
    return next(at for at, (out, _) in enumerate(wire) if out == b"\x06") - len(reference.compared(*reference.UNIQUE, 0))


def try_loss(program, loss):
    """Tries one loss. Returns nothing, or the lines that describe a failure."""
    with tempfile.TemporaryDirectory() as folder:
        old, new = chip_images(loss.changed)
        bench = Bench(program, folder, "TINY64", old)
        try:
            bench.write("new", new)
            one_loss(bench, loss, old, new)
            return None
        except Differs as why:
            return f"FAILED: {loss}", f"    at: {bench.command}", *(f"    {it}" for it in why.args)
        finally:
            bench.close()


def one_loss(bench, loss, old, new):
    if loss.session:
        stop(bench, ["-w", "new", "--journal", "j"], loss.event, loss.session)
    else:
        check("the session", bench.run("-w", "new", "--journal", "j").status, 0)
        bench.check_chip(new)
    wire = session_wire(old, new)
    journal = reference.journal("TINY64", old, loss.changed)
    if 0 < loss.session <= sealed_after(wire):
        bench.check_chip(old)
        if loss.session <= len(reference.carried(reference.probe("TINY64"), old)):
            bench.check_absent("j")
            return
        if loss.event == "lose":
            # The run ended with error 12, and removed the unsealed journal that it had created.
            bench.check_absent("j")
            return
        begun = bench.path("j").read_bytes()
        check("the journal is a prefix", begun == journal[: len(begun)] and len(begun) < len(journal), True)
        bench.expect("--restore", "j", err=reference.UNSEALED)
        bench.check_nothing_sent()
        return
    bench.check_file("j", journal)
    if loss.restore:
        stop(bench, ["--restore", "j"], loss.event, loss.restore)
    got = bench.run("--restore", "j")
    check("the restore", (got.err, got.out[:1], got.status), ([], [reference.found("TINY64")], 0))
    bench.check_chip(old)
    bench.check_file("j", journal)


def stop(bench, words, event, at):
    """Runs the program with an event at the transaction `at`, and checks that it occurred.

    If the event isn't `kill`, the programmer is gone, so this function connects a new one.
    """
    got = bench.run(*words, events={at: event})
    if event == "kill":
        if not bench.server.killed:
            raise Differs(f"the run ended before transaction {at}: {got}")
        check("exit status of a killed run", got.status, -9)
        return
    check("the error", (got.err[:1], got.out, got.status), ([STOPPED], [], 1))
    bench.plug()


