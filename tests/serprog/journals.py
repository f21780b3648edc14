"""Cases of --check-journal, which describes a journal without a programmer, as the manual page says."""
import hashlib

import reference
from bench import check
from chip import SECTOR
from options import images

SIZE = 65536
UNIQUE = bytes.fromhex("d16288504b2f1a07")
RESTORE = "To restore: flashnor-serprog -p serprog:dev=PATH --restore j"
NEVER = reference.UNSEALED[2]
CHANGED = "Bytes of it have changed since it was sealed. Look for another copy."
NONE = ["error: the file is no journal, or is damaged", "Is this the right file? If it is, look for another copy."]


def describe(bench, *words):
    """Runs --check-journal without -p, checks that nothing is sent, and returns the result."""
    bench.server.begin({})
    got = bench.finish(bench.start_words([str(bench.program), "--check-journal", *words]))
    bench.check_nothing_sent()
    return got


def describes_a_journal(start):
    """For a sealed journal, --check-journal prints the chip, its unique ID, the saved sectors and the status bits.

    The last line is the command that restores the chip, with the name of the journal quoted for a shell if needed.
    """
    old, new = images("describes_a_journal")
    bench = start(data=old, unique=bytes(8))
    bench.write("new", new)
    bench.run("-w", "new", "--journal", "j")
    before = bench.path("j").read_bytes()
    bench.compare(describe(bench, "j"), [
        "Journal of SFDP (fe1010), 65536 bytes.",
        "Unique ID: none (16 zeros). This journal fits any chip with this ID and size that has no unique ID.",
        "Saves 4 of 16 sectors, from 0x001000 to 0x00ffff.", "Status: 00 00.", "Sealed and undamaged.", RESTORE], [])
    bench.check_file("j", before)
    for name, quoted in ("old board", "'old board'"), ("b$x", "'b$x'"), ("a+b_1,2=c-d.j", "a+b_1,2=c-d.j"), ("./-j", "./-j"):
        bench.write(name, before)
        check("the command", describe(bench, name).out[-1], RESTORE[:-1] + quoted)


def describes_status_and_unit(start):
    """--check-journal prints the unique ID, the names of the status bits that are set, and the name of the chip."""
    large = bytes(1 << 23)
    bench = start("W25Q64FV")
    for status, bits in ((b"\x1c\x02", "1c 02 BP0 BP1 BP2 QE"), (b"\xe0\x79", "e0 79 TB SEC SRP0 SRP1 LB1 LB2 LB3 CMP"),
                         (b"\0\0", "00 00")):
        bench.write("j", reference.journal("W25Q64FV", large, (3, 9), status, UNIQUE))
        bench.compare(describe(bench, "j"), [
            "Journal of W25Q64FV (ef4017), 8388608 bytes.", "Unique ID: d16288504b2f1a07.",
            "Saves 2 of 2048 sectors, from 0x003000 to 0x009fff.", f"Status: {bits}.", "Sealed and undamaged.",
            RESTORE], [])


def describes_old_and_empty_journals(start):
    """--check-journal describes a journal of format 1 (without a unique ID) that saves no sector."""
    bench = start()
    header = b"NORUNDO1\xfe\x10\x10" + b"\0\0" + SIZE.to_bytes(4, "little") + b"\xff" * 4
    bench.write("j", header + hashlib.sha256(header).digest())
    bench.compare(describe(bench, "j"), [
        "Journal of SFDP (fe1010), 65536 bytes.",
        "Unique ID: not recorded (format 1). This journal fits any chip with this ID and size.", "Saves 0 of 16 sectors.",
        "Status: 00 00.", "Sealed and undamaged.", RESTORE], [])


def warns_of_blank_sectors(start):
    """If more than half of the saved sectors hold only FFh, --check-journal prints a warning with their number."""
    bench = start()
    data = bytearray(SIZE)
    data[3 * SECTOR :] = b"\xff" * (SIZE - 3 * SECTOR)
    data[4 * SECTOR - 1] = 0xFE
    for saved, blank in ((1, 2, 4, 5), None), ((1, 2, 4, 5, 6), 3), ((3, 4), None), ((3, 4, 5), 2), ((9,), 1):
        bench.write("j", reference.journal("TINY64", bytes(data), saved))
        lines = describe(bench, "j").out[5:-1]
        check("the warning", lines, blank and [
            f"Warning: {blank} of these sectors hold only ff. So does an erased chip, but also one that was",
            "lost while it was saved: compare with another journal or image of the board."] or [])


def explains_invalid_journals(start):
    """If the journal is unsealed or damaged, --check-journal ends with error 15 and advice, and doesn't change it."""
    bench = start()
    whole = reference.journal("TINY64", bytes(SIZE), (1, 2))
    cut = "error: the journal was never sealed, or was cut off later"
    for content, why, fault in (
            (whole[:-1], [cut, NEVER], 1), (whole[:25], [cut, NEVER], 1), (b"", [cut, NEVER], 1),
            (whole + b"\0", ["error: the journal is damaged", CHANGED], 6),
            (whole[:40] + b"\1" + whole[41:], ["error: the journal is damaged", CHANGED], 7),
            (whole[:21] + b"\1" + whole[22:], ["error: the journal is damaged", CHANGED], 3),
            (b"NORUNDO3" + whole[8:], NONE, 2)):
        bench.write("j", content)
        bench.compare(describe(bench, "j"), [], [why[0], f"Error 15: journal fault {fault}.", why[1]])
        bench.check_file("j", content)
    # For a file that is shorter than any journal, the run prints the advice for an unsealed journal only if the file
    # begins as a journal.
    for content, why in (b"NORUNDO", [cut, NEVER]), (b"hello", NONE), (b"norundo", NONE), (b"\0" * 7, NONE):
        bench.write("j", content)
        bench.compare(describe(bench, "j"), [], [why[0], "Error 15: journal fault 1.", why[1]])
        bench.expect("--restore", "j", err=[why[0], "Error 15: journal fault 1.", why[1]])
        bench.check_nothing_sent()
    bench.compare(describe(bench, "none"), [], reference.file_fault(1, "none", "missing"))
    bench.check_absent("none")


def needs_no_programmer(start):
    """--check-journal ignores -p. A run with a second operation, --journal or --quick ends with a usage fault."""
    bench = start()
    bench.write("j", reference.journal("TINY64", bytes(SIZE), (1,)))
    lines = describe(bench, "j").out
    check("lines", len(lines), 6)
    bench.compare(describe(bench, "j", "-p", "serprog:dev=none"), lines, [])
    bench.compare(describe(bench, "j", "-r", "out"), [], [
        "error: -r and --check-journal cannot be used together", "Usage fault 4."])
    bench.compare(describe(bench, "j", "--journal", "k"), [], [
        "error: --journal needs -w, -E or --wp-range", "Usage fault 6."])
    bench.compare(describe(bench, "j", "--quick"), [], ["error: --quick needs --restore", "Usage fault 8."])
    for name in "out", "k":
        bench.check_absent(name)


CASES = [describes_a_journal, describes_status_and_unit, describes_old_and_empty_journals, warns_of_blank_sectors,
         explains_invalid_journals, needs_no_programmer]
