"""These cases test faults between the programmer and the chip, and chips that need care.

The expected bytes and addresses are those of the chip's model (chip.py). `begins` compares only the
beginnings of lines, and so no advice at their ends.
"""
import random

import reference
from bench import check
from chip import READ_ID, SECTOR, Chip
from faults import DIFFER, LOST
from losses import session_wire
from options import ALL, images
from refusals import FOUND, LARGE, LAST, LAYOUT, large_images

STOPPED = "Error 12: stopped."
UNPROTECTED = "The chip is unprotected."
PROTECT = ("--wp-range", "0,0x800000", "--journal", "j")
UNLOCK = ("-w", "new", "--unlock", "-l", "layout", "-i", "last", "--journal", "j")
# `PROTECT` changes the status bytes from BEFORE to AFTER: QE stays set, and CMP becomes 0.
BEFORE, AFTER = b"\x24\x42", b"\x1c\x02"


def begins(what, got, wanted):
    """Checks that the lines of standard error begin with these texts, and that the run failed without a line "Done"."""
    check(what, [line[: len(text)] for line, text in zip(got.err, wanted)], list(wanted))
    check(f"{what}, exit status", got.status, 1)
    check(f"{what}, lines of a success", [it for it in got.out if it.startswith("Done")], [])


def numbers_of(bench, opcode):
    """Returns the numbers of the last run's transactions that have this opcode."""
    return [at for at, (out, _) in enumerate(bench.server.log, 1) if out[0] == opcode]


def check_unchanged(bench, data, status):
    """Checks that no modifying command was sent, and that the chip has these bytes and this status."""
    check("modifying commands", [out.hex() for out, _ in bench.server.log if out[0] in reference.CHANGING], [])
    bench.check_chip(data, status)


def compares_replies(start):
    """Checks that one wrong bit in a reply to 05h (except BUSY), 35h, 9Fh, 4Bh or 5Ah stops a run before a change.

    If the bit is in a reply to 9Fh, the run reports a lost chip, because each later reply to 9Fh must equal the first.
    """
    blank = b"\xff" * LARGE
    bench = start("W25Q64FV", data=blank, status=BEFORE, unique=bytes(range(8)))
    check("the run", bench.run(*PROTECT).status, 0)
    log = list(bench.server.log)
    seal = next(at for at, (out, _) in enumerate(log) if out[0] in reference.CHANGING)
    for number in range(bench.first(), seal + 1):
        out, reply = log[number - 1]
        for bit in (1, 3, 4, 5, 6) if out[0] in (0x05, 0x35) else (0,):
            bench.chip.status[:] = BEFORE
            bench.remove_journal()
            bench.server.traits.wrong_bits = {number: (len(reply) - 1, bit)}
            cause = LOST if out[0] == READ_ID else DIFFER
            begins(f"{out.hex()}, bit {bit}", bench.run(*PROTECT), [STOPPED, cause])
            check_unchanged(bench, blank, BEFORE)
    old, new = images("compares_replies")
    bench = start(data=old)
    bench.write("new", new)
    # The job begins with two polls, each followed by a read of the ID, and two more reads of the ID. Then each of the
    # three parts of SFDP is read twice, each time followed by a read of the ID. Before the third part, the ID is read
    # twice more.
    for number in (bench.first() + it for it in (6, 8, 10, 12, 16, 18)):
        bench.server.traits.wrong_bits = {number: (7, 5)}
        begins(f"SFDP, transaction {number}", bench.run("-w", "new", "--journal", "j"), [STOPPED, DIFFER])
        check("the opcode", bench.server.log[number - 1][0][:1], b"\x5a")
        check_unchanged(bench, old, b"\0\0")
        bench.check_absent("j")


def believes_busy(start):
    """Checks that a wrong bit that shows BUSY causes only one more poll.

    A poll receives two bytes. If a wrong bit hides BUSY in one of them, the other still shows BUSY.
    """
    for byte in 0, 1:
        bench = start("W25Q64FV", data=b"\xff" * LARGE, status=BEFORE)
        bench.server.traits.wrong_bits = {bench.first(): (byte, 0)}
        bench.expect(*PROTECT, out=[FOUND, "Done: touched 0, erases 0, programs 0, transactions 8.",
                                    "Range: 0x000000,0x800000"])
        bench.check_chip(b"\xff" * LARGE, AFTER)
        bench = start("W25Q64FV", data=b"\xff" * LARGE, status=BEFORE, scale=20.0)
        bench.server.traits.wrong_bits = {(1, 1): (byte, 0)}
        check("the run", bench.run(*PROTECT).status, 0)
        check("the chip is busy after the run", bench.chip.is_busy(), False)
        check("transactions that the busy chip ignored", bench.chip.ignored, 0)
        bench.check_chip(b"\xff" * LARGE, AFTER)


def not_stored(sent, found):
    """Returns the beginning of the line of chip fault 3 for a status write that the chip didn't store."""
    return reference.not_stored_status(sent, found)


def reads_status_writes_back(start):
    """Checks that a status write of --wp-range, or of its restore, that the chip misses is chip fault 3."""
    blank = b"\xff" * LARGE
    bench = start("W25Q64FV", data=blank, status=BEFORE)
    check("the run", bench.run(*PROTECT).status, 0)
    number = numbers_of(bench, 0x01)[0]
    bench.server.traits.misses = {number: 0xFF}
    # With -N the restore sends as many transactions before its status write as the session, so the status write has
    # the same number.
    begins("--restore", bench.run("--restore", "j", "-N"), [STOPPED, not_stored(BEFORE, AFTER)])
    bench.check_chip(blank, AFTER)
    check("the restore", bench.run("--restore", "j").status, 0)
    bench.remove_journal()
    bench.server.traits.misses = {number: 0xFF}
    begins("--wp-range", bench.run(*PROTECT), [STOPPED, not_stored(AFTER, BEFORE)])
    bench.check_chip(blank, BEFORE)


def reports_an_unprotected_chip(start):
    """Checks that each of the two status writes of --unlock is chip fault 3 if the chip misses it.

    If the chip misses the second one, a line says that the chip is unprotected.
    """
    old, new = large_images()
    bench = start("W25Q64FV", data=old, status=b"\x04\x02")
    bench.write("new", new)
    bench.write("layout", LAYOUT)
    check("the run", bench.run(*UNLOCK).status, 0)
    lifts, locks = numbers_of(bench, 0x01)
    for number, sent, found, data in ((lifts, b"\0\x02", b"\x04\x02", old), (locks, b"\x04\x02", b"\0\x02", new)):
        bench.chip.data[:], bench.chip.status[:] = old, b"\x04\x02"
        bench.remove_journal()
        bench.server.traits.misses = {number: 0xFF}
        got = bench.run(*UNLOCK)
        begins("--unlock", got, [STOPPED, not_stored(sent, found)])
        check("a line that says it", any(UNPROTECTED in it for it in got.err), number == locks)
        bench.check_chip(data, found)
        check("the restore", bench.run("--restore", "j").status, 0)
        bench.check_chip(old, b"\x04\x02")


def says_that_the_chip_may_be_unprotected(start):
    """Checks that the line after error 12 says that the chip may be unprotected if the session lifted its protection.

    Otherwise the line doesn't say so.
    """
    old, new = large_images()
    for status, ends in (b"\x04\x02", "--restore j. Until then it may be unprotected."), (b"\0\x02", "--restore j."):
        bench = start("W25Q64FV", data=old, status=status)
        bench.write("new", new)
        bench.write("layout", LAYOUT)
        check("the run", bench.run(*UNLOCK).status, 0)
        number = numbers_of(bench, 0x02)[0]
        bench.chip.data[:] = old
        bench.remove_journal()
        got = bench.run(*UNLOCK, events={number: "nak"})
        begins("the session", got, [STOPPED])
        check("the end of the advice", got.err[-1][-len(ends) :], ends)
        check("status 1", bench.chip.status[0], 0)
        bench.plug()
        check("the restore", bench.run("--restore", "j").status, 0)
        bench.check_chip(old, status)


def finds_torn_status_writes(start):
    """Checks that a loss of the chip's power in a status write is chip fault 3 if a changed bit wasn't stored."""
    blank, differing = b"\xff" * LARGE, int.from_bytes(BEFORE, "big") ^ int.from_bytes(AFTER, "big")
    torn, bench = differing, start("W25Q64FV", data=blank, status=BEFORE)
    while torn:
        torn = torn - 1 & differing
        bench.chip.status[:] = BEFORE
        bench.remove_journal()
        bench.server.traits.loss = {"torn": torn}
        found = (int.from_bytes(BEFORE, "big") & ~torn | int.from_bytes(AFTER, "big") & torn).to_bytes(2, "big")
        got = bench.run(*PROTECT, events={(1, 0): "dip"})
        begins(f"bits {torn:04x}", got, [STOPPED, not_stored(AFTER, found)])
        check("the restore", bench.run("--restore", "j").status, 0)
        bench.check_chip(blank, BEFORE)


def restores_marginal_bytes(start):
    """Checks that one restore leaves no marginal byte after a loss of power in an erase or a program.

    A marginal byte reads as its old value or as its new value.
    """
    old, new = images("restores_marginal_bytes")
    operations = sum(out == b"\x06" for out, _ in reference.session("TINY64", old, new))
    for operation in 2, 3, operations:
        for count in 1, 8:
            bench = start(data=old, loss={"marginal": count})
            bench.chip.chance = random.Random(f"{operation} {count}")
            bench.write("new", new)
            got = bench.run("-w", "new", "--journal", "j", events={(operation, 0): "power"})
            begins("the session", got, [STOPPED])
            check("marginal bytes", len(bench.chip.marginal), count)
            bench.plug()
            plan = reference.restore("TINY64", old, (1, 2, 7, 15))
            bench.expect("--restore", "j", out=[reference.found("TINY64"), reference.report(plan, 4)])
            # The marginal bytes are in saved sectors, which the restore must not read before it rewrites them.
            first = numbers_of(bench, 0x06)[0]
            reads = [int.from_bytes(out[1:], "big") // SECTOR for out, _ in bench.server.log[:first] if out[0] == 0x03]
            check("saved sectors that are read first", [it for it in reads if it in (1, 2, 7, 15)], [])
            check("marginal bytes", bench.chip.marginal, {})
            bench.check_chip(old)


def first_difference(one, other, numbers=ALL):
    """Returns the first address in these sectors at which two chips differ."""
    return next(at for n in numbers for at in range(n * SECTOR, (n + 1) * SECTOR) if one[at] != other[at])


def finds_a_wrong_erase(start):
    """Checks that a wrong address bit in an erase is error 14.

    A restore then restores only the saved sectors. Later, -v finds the sector that was erased by mistake.
    """
    old, new = images("finds_a_wrong_erase")
    wire = session_wire(old, new)
    number = next(at for at, (out, _) in enumerate(wire, 1) if out[0] == 0x20)
    bench = start(data=old, wrong_address=(number, number, 14))
    # This model shows what the chip holds after the session: the erase of sector 2 erased sector 6 instead.
    chip = Chip("TINY64", old)
    for at, (out, replies) in enumerate(wire, 1):
        chip.transfer(bytes.fromhex("20006000") if at == number else out, replies)
    check("the erase", wire[number - 1][0].hex(), "20002000")
    bench.write("new", new)
    begins("the session", bench.run("-w", "new", "--journal", "j"),
           reference.not_stored(first_difference(chip.data, new, (1, 2, 7, 15))))
    bench.server.traits.wrong_address = ()
    # Without j.sectors, the restore can't detect that sector 6 was erased.
    bench.path("j.sectors").unlink(missing_ok=True)
    check("the restore", bench.run("--restore", "j").status, 0)
    bench.check_chip(old[: 6 * SECTOR] + b"\xff" * SECTOR + old[7 * SECTOR :])
    bench.write("old", old)
    bench.expect("-v", "old", err=["Error 14: bytes differ at 0x006000."])


def compares_the_rest(start):
    """Checks that a run with a session ends with chip fault 4 if an address bit is wrong in the whole change.

    The session succeeds, because it verifies the changed sectors with the wrong bit, too. The comparison of the whole
    chip then finds the difference.
    """
    old, new = images("compares_the_rest", (2, 7, 15))
    wire = session_wire(old, new)
    first = next(at for at, (out, _) in enumerate(wire, 1) if out[0] in reference.CHANGING)
    last = reference.compares_from(wire, first) - 1
    bench = start(data=old, wrong_address=(first, last, 14))
    bench.write("new", new)
    address = first_difference(old, new)
    begins("the run", bench.run("-w", "new", "--journal", "j"),
           [f"Chip fault 4: the chip differs from its target at 0x{address:06x}."])
    bench.check_file("j", reference.journal("TINY64", old, (2, 7, 15)))
    bench.server.traits.wrong_address = ()
    bench.path("j.sectors").unlink(missing_ok=True)
    check("the restore", bench.run("--restore", "j").status, 0)
    for number in 2, 7, 15:
        check("a saved sector", reference.sector_of(bench.chip.data, number), reference.sector_of(old, number))
    bench.write("old", old)
    bench.expect("-v", "old", err=[f"Error 14: bytes differ at 0x{first_difference(bench.chip.data, old):06x}."])


def leaves_the_rest_out(start):
    """Checks that with -N a session doesn't detect an address bit that is wrong in the whole change.

    Later, -v finds the difference. The journal has the right sectors.
    """
    old, new = images("leaves_the_rest_out", (2, 7, 15))
    plan = reference.session("TINY64", old, new)
    wire = reference.carried(reference.whole_run("TINY64", plan), old)
    first = next(at for at, (out, _) in enumerate(wire, 1) if out[0] in reference.CHANGING)
    bench = start(data=old, wrong_address=(first, len(wire), 14))
    bench.write("new", new)
    bench.expect("-w", "new", "-N", "--journal", "j", out=[reference.found("TINY64"), reference.done(plan, old, new)])
    bench.check_file("j", reference.journal("TINY64", old, (2, 7, 15)))
    bench.server.traits.wrong_address = ()
    bench.expect("-v", "new", err=[f"Error 14: bytes differ at 0x{first_difference(bench.chip.data, new):06x}."])


def change_outside(seed):
    """Returns the bytes of a chip, an image, and the chip after a change of sector 6 that changed sector 2 instead.

    The image also differs from the chip in sector 0, which is outside the region and must not change.
    """
    old, new = images(seed, (6,))
    wrong = old[: 2 * SECTOR] + new[6 * SECTOR : 7 * SECTOR] + old[3 * SECTOR :]
    return old, bytes(byte ^ 0xFF for byte in new[:SECTOR]) + new[SECTOR:], wrong


def compares_excluded_sectors(start):
    """Checks that a session with regions ends with chip fault 4 if a wrong address changes a sector outside them.

    With -N the session doesn't detect this. Bytes outside the regions are compared with their values before the
    session, and not with the image.
    """
    old, image, wrong = change_outside("compares_excluded_sectors")
    words = ("-w", "image", "-l", "layout", "-i", "six", "--journal", "j")
    plan = reference.session("TINY64", old, old[: 6 * SECTOR] + image[6 * SECTOR :], [6])
    for option, is_compared in ((), True), (("-N",), False):
        whole = reference.whole_run("TINY64", plan, is_compared, True)
        wire = reference.carried(whole, old, chip=Chip("TINY64", old), image=image if is_compared else None)
        first = next(at for at, (out, _) in enumerate(wire, 1) if out[0] in reference.CHANGING)
        last = reference.compares_from(wire, first) - 1 if is_compared else len(wire)
        bench = start(data=old, wrong_address=(first, last, 14))
        bench.write("image", image)
        bench.write("layout", b"6000:6fff six\n0:ffff all\n")
        got = bench.run(*words, *option)
        if is_compared:
            begins("the run", got, [
                f"Chip fault 4: the chip differs from its target at 0x{first_difference(old, wrong):06x}."])
        else:
            bench.compare(got, [reference.found("TINY64"), reference.report(plan, 1)], [])
        bench.check_chip(wrong)
        bench.check_file("j", reference.journal("TINY64", old, [6]))
        bench.server.traits.wrong_address = ()
        bench.remove_journal()
        bench.chip.data[:] = old
        bench.expect(*words, *option, out=[reference.found("TINY64"), reference.report(plan, 1)])
        bench.check_frames(whole)
        bench.check_chip(old[: 6 * SECTOR] + image[6 * SECTOR :])


def refuses_unknown_protection(start):
    """Checks that GUARD64, which is found by its SFDP, isn't changed if one of bits 2 to 6 of its status 1 is set.

    A session ends with chip fault 1, and a restore with error 17. A read works, and so does a session if all are clear.
    """
    old, new = images("refuses_unknown_protection")
    journal = reference.journal("GUARD64", old, (1, 2, 7, 15))
    for bit in range(2, 7):
        status = bytes([1 << bit, 0])
        bench = start("GUARD64", data=old, status=status)
        bench.write("new", new)
        bench.write("k", journal)
        for words in ("-w", "new"), ("-E",), ("-w", "new", "-n"), ("-w", "new", "--unlock"):
            got = bench.run(*words, "--journal", "j")
            begins(" ".join(words), got, [f"Chip fault 1: status 1 of this chip is {1 << bit:02X}h."])
            check_unchanged(bench, old, status)
            bench.check_absent("j")
        name = ("BP0", "BP1", "BP2", "TB", "SEC")[bit - 2]
        bench.expect("--restore", "k", err=[
            "Error 17: status differs from the journal's.",
            f"Status in the journal: 00 00. Status of the chip: {1 << bit:02x} 00 {name}."
            + reference.WRITE_IMAGE * (bit == 6)])
        bench.expect("-r", "out", out=[reference.found("GUARD64"), "Read 65536 bytes."])
        check_unchanged(bench, old, status)
    bench = start("GUARD64", data=old)
    bench.write("new", new)
    plan = reference.session("GUARD64", old, new)
    bench.expect("-w", "new", "--journal", "j", out=[reference.found("GUARD64"), reference.done(plan, old, new)])
    bench.check_chip(new)


def finds_lost_programs(start):
    """Checks that a page program that was lost with the chip's power is error 14. With -n the loss isn't detected.

    The journal restores the chip in both cases.
    """
    old, new = images("finds_lost_programs")
    page = 15 * SECTOR + 15 * 256
    address = next(at for at in range(page, page + 256) if new[at] != 0x5A)
    for words, is_found in ((), True), (("-n",), False):
        bench = start(data=old, loss={"fill": 0x5A})
        bench.write("new", new)
        # The session's last operation is the program of the last page of sector 15.
        last = sum(out == b"\x06" for out, _ in reference.session("TINY64", old, new))
        got = bench.run("-w", "new", *words, "--journal", "j", events={(last, 0): "dip"})
        check("the exit status", got.status, int(is_found))
        check("the error", got.err[:1], [f"Error 14: bytes differ at 0x{address:06x}."] * is_found)
        check("the chip is as asked", bench.chip.data == new, False)
        check("the restore", bench.run("--restore", "j").status, 0)
        bench.check_chip(old)


def wakes_the_chip(start):
    """Checks that a chip in deep power-down is woken before it is identified."""
    for part in "TINY64", "W25Q64FV":
        bench = start(part)
        bench.chip.is_asleep = True
        bench.expect(out=[reference.found(part)])
        bench.check_frames(reference.probe(part))
        check("deep power-down", bench.chip.is_asleep, False)


def loses_the_power_lock(start):
    """Checks that a restore ends with error 17 and changes nothing if SRP1 was lost with the chip's power.

    SRP1 without SRP0 lasts only until the next power-up.
    """
    old, new = images("loses_the_power_lock")
    blank = b"\xff" * LARGE
    data = blank[:-SECTOR] + old[:SECTOR]
    bench = start("W25Q64FV", data=data, status=b"\0\x01")
    bench.write("new", blank)
    bench.write("layout", LAYOUT)
    got = bench.run("-w", "new", "-l", "layout", "-i", "last", "--journal", "j", events={(1, 0): "power"})
    begins("the session", got, [STOPPED])
    check("status 2", bench.chip.status[1], 0)
    bench.check_file("j", reference.journal("W25Q64FV", data, [LAST], b"\0\x01"))
    now = bytes(bench.chip.data)
    bench.plug()
    bench.expect("--restore", "j", err=[
        "Error 17: status differs from the journal's.",
        "Status in the journal: 00 01 SRP1. Status of the chip: 00 00." + reference.WRITE_IMAGE])
    check_unchanged(bench, now, b"\0\0")


def says_that_an_erase_failed(start):
    """Checks that -E ends with error 14 if the chip ignores its erases.

    The line names no image, because -E has none.
    """
    bench = start(data=bytes(65536))
    carry = bench.chip.transfer
    bench.chip.transfer = lambda out, length: b"" if out[0] in (0x20, 0x52, 0xD8, 0xC7) else carry(out, length)
    bench.expect("-E", "-N", "--journal", "j", err=reference.not_stored(0, "-E"))
    bench.check_chip(bytes(65536))


CASES = [compares_replies, believes_busy, reads_status_writes_back, reports_an_unprotected_chip,
         says_that_the_chip_may_be_unprotected, finds_torn_status_writes, restores_marginal_bytes, finds_a_wrong_erase,
         compares_the_rest, leaves_the_rest_out, compares_excluded_sectors, refuses_unknown_protection,
         finds_lost_programs, wakes_the_chip, loses_the_power_lock, says_that_an_erase_failed]
