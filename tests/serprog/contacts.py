"""Cases of a clip that slips off the chip while the program waits for the chip.

Each received byte is then FFh, which looks like BUSY. After 256 polls that return only FFh, the program reads the ID,
and the run ends if the ID is FFFFFFh. A busy chip shows other status bits, except if its status 1 is FCh (the last
case). Then the program doesn't read the ID, and continues to wait.
"""
import time

import reference
from bench import check
from bits import LAYOUT, NUMBER, OLD, NEW, chip_with
from faults import RESTORE
from losses import FEW, chip_images
from wire import STOPPED

END = 1 << 24
# The longest time in seconds of a run that loses its chip.
LONGEST = 10
CAUSE = "Cause: the chip has no contact or no supply any more: its status and its ID are FFh in all bits. Check " \
    f"contacts and supply. {RESTORE}"
POLL, ID = b"\x05", b"\x9f"


def polls_of(bench):
    """Returns the numbers of the first polls after the first erase, the first program and the last program."""
    log = [out for out, _ in bench.server.log]
    erase = next(at for at, out in enumerate(log) if out[0] in (0x20, 0x52, 0xD8))
    programs = [at for at, out in enumerate(log) if out[0] == 0x02]
    return [log.index(POLL, at) + 1 for at in (erase, programs[0], programs[-1])]


def slip(bench, words, at, old):
    """Runs a job that loses its chip at the transaction `at`, and checks that it ends with error 12.

    The job must send 256 polls and one read of the ID to the lost chip. A restore from the journal must then succeed.
    """
    bench.server.traits.lost = (at, END, 0xFF)
    began = time.monotonic()
    bench.expect(*words, err=[STOPPED, CAUSE])
    check("the run ends soon", time.monotonic() - began < LONGEST, True)
    sent = [out for out, _ in bench.server.log[at - 1 :]]
    check("the polls, and the last transaction", sent, [POLL] * 256 + [ID])
    bench.server.traits.lost = ()
    check("exit status of the restore", bench.run("--restore", "j").status, 0)
    bench.check_chip(old)


def slips_during_a_session(start):
    """If the clip slips after an erase or a program, the session ends with error 12, and a restore succeeds."""
    old, new = chip_images(FEW)
    bench = start(data=old)
    bench.write("new", new)
    words = ("-w", "new", "--journal", "j")
    check("the run without a loss", bench.run(*words).status, 0)
    for at in polls_of(bench):
        bench.chip.data[:] = old
        bench.remove_journal()
        slip(bench, words, at, old)


def slips_during_a_restore(start):
    """If the clip slips after an erase or a program, the restore ends with error 12, and a second restore succeeds."""
    old, new = chip_images(FEW)
    bench = start(data=new)
    bench.write("j", reference.journal("TINY64", old, FEW))
    check("the run without a loss", bench.run("--restore", "j").status, 0)
    for at in polls_of(bench):
        bench.chip.data[:] = new
        slip(bench, ("--restore", "j"), at, old)


def slips_in_a_split_program(start):
    """If the clip slips between two parts of a page program, the session ends with error 12, and a restore succeeds.

    This programmer sends at most 6 bytes in a transaction, so a part of a program has at most two data bytes.
    """
    old, new = chip_images(FEW)
    bench = start(data=old, longest_write=6)
    bench.write("new", new)
    words = ("-w", "new", "--journal", "j")
    check("the run without a loss", bench.run(*words).status, 0)
    first, second = [out for out, _ in bench.server.log if out[0] == 0x02][:2]
    check("the second part", second[1:4], (int.from_bytes(first[1:4], "big") + 2).to_bytes(3, "big"))
    bench.chip.data[:] = old
    polls = polls_of(bench)
    bench.remove_journal()
    slip(bench, words, polls[1], old)


def waits_for_a_busy_chip(start):
    """A session waits for a chip that is busy for four seconds, which is longer than 256 polls, and succeeds."""
    old, new = chip_images(FEW)
    bench = start(data=old)
    bench.chip.slow = {1: 4.0}
    bench.write("new", new)
    check("exit status", bench.run("-w", "new", "--journal", "j").status, 0)
    bench.check_chip(new)


def waits_if_all_bits_are_set(start):
    """A session waits for a busy chip whose status 1 is FCh, although it replies only FFh to polls and to 9Fh."""
    old, new = chip_with("W25Q64FV", OLD), chip_with("W25Q64FV", NEW)
    # With BP 111 and CMP set, nothing is protected.
    bench = start("W25Q64FV", data=old, status=b"\xfc\x40")
    bench.remembers = False
    bench.chip.slow = {1: 4.0}
    bench.write("layout", LAYOUT)
    bench.write("new", new)
    got = bench.run("-w", "new", "-N", "-l", "layout", "-i", "one", "--journal", "j")
    check(f"exit status, {got.err}", got.status, 0)
    check("the changed sector", NUMBER, 0x30)
    bench.check_chip(new, b"\xfc\x40")


CASES = [slips_during_a_session, slips_during_a_restore, slips_in_a_split_program, waits_for_a_busy_chip,
         waits_if_all_bits_are_set]
