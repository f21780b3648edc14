"""Cases of restores on a chip whose board changed QE, the reserved bit or LB1 to LB3 after the journal was made.

The restore writes the saved sectors and the protection bits back, leaves these bits as they are on the chip, and prints
the names of those that differ from the journal. In `refuses_other_bits`, `refuses_another_board` and
`believes_no_wrong_status`, the restore ends with an error instead, and the chip is unchanged.
"""
import hashlib

import reference
from bench import check
from faults import DIFFER
from locks import READ
from wire import check_unchanged

# The chip of these cases and its size. The program knows its block protection.
PART, LARGE = "W25Q32FV", 1 << 22
SECTOR = 4096
UNIQUE = bytes.fromhex("d1d2d3d4d5d6d7d8")
# Each entry has the status bytes in the journal, those of the chip before and after the restore, and the exit status.
# The exit status is 0 only if QE, the reserved bit and LB1 to LB3 are as in the journal, except a QE that is set only
# on the chip.
CHANGED = ((b"\0\0", b"\0\x02", b"\0\x02", 0), (b"\0\x02", b"\0\0", b"\0\0", 1),
           (b"\0\0", b"\0\x04", b"\0\x04", 1), (b"\0\0", b"\0\x08", b"\0\x08", 1),
           (b"\0\x08", b"\0\x0a", b"\0\x0a", 0), (b"\0\x08", b"\0\x3a", b"\0\x3a", 1),
           (b"\x18\x40", b"\0\x02", b"\x18\x42", 0), (b"\0\0", b"\x2c\x48", b"\0\x08", 1),
           (b"\x80\x02", b"\x80\0", b"\x80\0", 1), (b"\0\x03", b"\0\x01", b"\0\x01", 1))
SAVED = [0, 5]


def images():
    """Returns the original bytes, of which the journal saves two sectors, and the chip's bytes before the restore."""
    old = bytes(range(256)) * 16 + b"\xff" * (LARGE - SECTOR)
    return old, b"\xff" * LARGE


def bench_with(start, saved, found, unique=UNIQUE):
    old, now = images()
    bench = start(PART, data=now, status=found, unique=UNIQUE)
    bench.remembers = False
    bench.write("j", reference.journal(PART, old, SAVED, saved, unique))
    return bench, old, now


def of_format_1(journal):
    """Returns the journal in format 1, which has no unique ID."""
    found = b"NORUNDO1" + journal[8:11] + journal[19:-32]
    return found + hashlib.sha256(found).digest()


def restores_a_changed_board(start):
    """A restore writes the bytes and the protection bits back, keeps the board's bits, and names those that differ.

    The exit status is 1, and a last line says why, unless the only one of these bits that differs is a QE that is set
    on the chip.
    """
    for saved, found, after, status in CHANGED:
        for words in ("-N",), ("-N", "--quick"):
            bench, old, now = bench_with(start, saved, found)
            got = bench.run("--restore", "j", *words, "-o", "log")
            line = reference.kept_bits(saved[1], found[1])
            lines = [line] + [reference.LOST_BITS] * status
            check(f"{saved.hex()} {found.hex()} {words}", [got.status, got.err], [status, lines])
            check("the line of a success", [it[:5] for it in got.out[1:]], ["Done:"])
            bench.check_chip(old, after)
            for it in lines:
                check("the log", bench.path("log").read_text().splitlines().count(it), 1)


def compares_the_rest_of_a_changed_board(start):
    """Without -N, a restore reads the sectors that the journal doesn't save, before and after it writes the others."""
    bench, old, now = bench_with(start, b"\0\0", b"\0\x02")
    got = bench.run("--restore", "j")
    check("the restore", [got.status, got.err], [0, [reference.kept_bits(0, 2)]])
    bench.check_chip(old, b"\0\x02")
    first, rest = reference.identify(PART), reference.read_rest(PART, SAVED)
    bench.check_frames(reference.probe(PART) + rest + first + READ + first + reference.rewriting(old, SAVED) + rest)


def fails_after_the_comparison(start):
    """Checks that a restore without -N after QE was cleared prints a note on other sectors and ends with status 1."""
    bench, old, now = bench_with(start, b"\0\x02", b"\0\0")
    got = bench.run("--restore", "j")
    check("the restore", [got.status, got.err], [
        1, [reference.kept_bits(2, 0), reference.unknown_sectors("j"), reference.LOST_BITS]])
    check("the line of a success", [it[:5] for it in got.out[1:]], ["Done:"])
    bench.check_chip(old, b"\0\0")


def sends_a_second_identification(start):
    """The restore identifies the chip, reads the status, identifies the chip again, and then writes the sectors."""
    bench, old, now = bench_with(start, b"\0\0", b"\0\x02")
    check("exit status", bench.run("--restore", "j", "-N").status, 0)
    first = reference.identify(PART)
    bench.check_frames(first + READ + first + reference.rewriting(old, SAVED))


def refuses_other_bits(start):
    """If SRP0 or SRP1 differs, or one of LB1 to LB3 is set only in the journal, a restore ends with error 17.

    A journal of format 1 has no unique ID and may be another board's, so there a QE that differs is error 17, too.
    """
    for saved, found, advice in (
            (b"\0\0", b"\x80\x02", reference.CLEAR_SRP0), (b"\x80\0", b"\0\x02", reference.SET_SRP0),
            (b"\0\0", b"\0\x03", reference.CLEAR_SRP1), (b"\0\x01", b"\0\x02", reference.WRITE_IMAGE),
            (b"\0\x08", b"\0\x02", reference.WRITE_IMAGE), (b"\0\x38", b"\0\x28", reference.WRITE_IMAGE)):
        bench, old, now = bench_with(start, saved, found)
        got = bench.run("--restore", "j", "-N")
        check("the error", [got.status, got.err[0]], [1, "Error 17: status differs from the journal's."])
        check("the advice", got.err[1][-len(advice) :], advice)
        check("lines", len(got.err), 2)
        check_unchanged(bench, now, found)
    bench, old, now = bench_with(start, b"\0\0", b"\0\x02")
    bench.write("j", of_format_1(bench.path("j").read_bytes()))
    got = bench.run("--restore", "j", "-N")
    check("format 1", [got.status, got.err[0]], [1, "Error 17: status differs from the journal's."])
    check_unchanged(bench, now, b"\0\x02")


def refuses_another_board(start):
    """A restore on a chip with another unique ID ends with error 20, even if QE differs, too."""
    bench, old, now = bench_with(start, b"\0\0", b"\0\x02", unique=bytes(8))
    got = bench.run("--restore", "j", "-N")
    check("the error", [got.status, got.err[0]], [1, "Error 20: another unit than the journal's."])
    check_unchanged(bench, now, b"\0\x02")


def believes_no_wrong_status(start):
    """If one of the reads 2 to 6 of status 2 has a wrong bit, a restore ends with error 12, and modifies nothing."""
    for first in range(2, 7):
        bench, old, now = bench_with(start, b"\0\0", b"\0\x02")
        carry, reads = bench.chip.transfer, []

        def misread(out, length):
            reply = carry(out, length)
            if out[0] != 0x35:
                return reply
            reads.append(reply)
            return bytes(it ^ 0x04 for it in reply) if len(reads) == first else reply

        bench.chip.transfer = misread
        got = bench.run("--restore", "j", "-N")
        bench.chip.transfer = carry
        check("reads of status 2", len(reads) >= first, True)
        check("the error", [got.status, got.err[-2:-1]], [1, ["Error 12: stopped."]])
        check("the cause", got.err[-1].startswith(DIFFER), True)
        check_unchanged(bench, now, b"\0\x02")


def restores_a_replaced_changed_chip(start):
    """A restore with --replaced-chip writes a backup to another chip, which keeps its own QE and LB1."""
    old, now = images()
    bench = start(PART, data=now, status=b"\0\x08", unique=bytes(8))
    bench.remembers = False
    bench.write("j", reference.journal(PART, old, range(LARGE // SECTOR), b"\x04\x02", UNIQUE))
    got = bench.run("--restore", "j", "--quick", "-N", "--replaced-chip")
    check("the restore", [got.status, got.err[1:]], [1, [reference.kept_bits(2, 8), reference.LOST_BITS]])
    bench.check_chip(old, b"\x04\x08")


def restores_after_interruptions(start):
    """A restore that loses its programmer at one of its transactions (each fifth is tried) can be repeated."""
    bench, old, now = bench_with(start, b"\x04\0", b"\0\x02")
    check("the restore", bench.run("--restore", "j", "-N").status, 0)
    count = len(bench.server.log)
    for at in range(1, count + 1, 5):
        bench, old, now = bench_with(start, b"\x04\0", b"\0\x02")
        bench.run("--restore", "j", "-N", events={at: "unplug"})
        bench.plug()
        got = bench.run("--restore", "j", "-N")
        check(f"the restore after {at}", got.status, 0)
        bench.check_chip(old, b"\x04\x02")


CASES = [restores_a_changed_board, compares_the_rest_of_a_changed_board, fails_after_the_comparison,
         sends_a_second_identification, refuses_other_bits, refuses_another_board, believes_no_wrong_status,
         restores_a_replaced_changed_chip, restores_after_interruptions]
