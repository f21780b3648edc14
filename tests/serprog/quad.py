"""These cases test chips that are found by their SFDP and have special properties.

- QE is bit 6 of status 1 if the quad enable requirements (JESD216B, double word 15, bits 22 to 20) are 010b.
- A chip has 4 KiB erases everywhere only if bits 1 and 0 of double word 1 are 01b (JESD216).
- Bits 7 to 4 of double word 11 are the binary logarithm of the page size (JESD216A).
- A chip that ignores 4Bh leaves the data line floating, so its unique ID is read as FFh or 00h in all bytes.
"""
import reference
from bench import check
from chip import PARTS
from losses import FEW, chip_images
from makers import connect, table

QE = 0x40
FULL, NONE = b"\xff" * 8, bytes(8)
# The program prints these lines for a chip that doesn't have 4 KiB erases everywhere.
UNEVEN = ["Error 2: unknown chip, SFDP fault 8.",
          "Its ID is fe1010. Its SFDP doesn't say that it erases sectors of 4 KiB everywhere, so a restore could fail: "
          "change this chip with another tool."]
# The program prints these lines for a chip whose pages have fewer than 256 bytes.
SMALL = [UNEVEN[0], "Its ID is fe1010. Its SFDP says that its pages have fewer than 256 bytes, so a restore could fail"
         ": change this chip with another tool."]
MAYBE_QUAD = "Chip fault 1: status 1 of this chip is 40h. Its bit 6 may protect sectors, as on Winbond's chips."
WRITES = (b"\x01", b"\x02", b"\x06", b"\x20", b"\x52", b"\xd8", b"\xc7")


def modifies(bench):
    """Returns whether the last run sent a modifying command."""
    return any(out[:1] in WRITES for out, _ in bench.server.log)


def keeps_quad(start):
    """Checks that a chip with QE in bit 6 of status 1 is backed up, written, erased and restored.

    QE stays set, and the last restore sends no status write.
    """
    bench, old, new = connect(start, 0b010, status=bytes([QE, 0]))
    found = reference.found("TINY64")
    for words in (("--backup", "b"), ("-w", "new", "--journal", "j")):
        check(f"exit status of {words}", bench.run(*words).status, 0)
    bench.check_chip(new, bytes([QE, 0]))
    bench.check_file("j", reference.journal("TINY64", old, FEW))
    bench.expect("--restore", "j", out=[found, reference.report(reference.restore("TINY64", old, FEW), len(FEW))])
    bench.check_chip(old, bytes([QE, 0]))
    check("the erase", bench.run("-E", "--journal", "k").status, 0)
    check("the restore of the backup", bench.run("--restore", "b").status, 0)
    bench.check_chip(old, bytes([QE, 0]))
    check("status writes", [out for out, _ in bench.server.log if out[:1] == b"\x01"], [])


def restores_saved_quad(start):
    """Checks that a journal with QE (bit 6 of status 1) set, as older versions wrote, restores a chip with QE set."""
    old, new = chip_images(FEW)
    bench, _, _ = connect(start, 0b010, status=bytes([QE, 0]))
    bench.write("j", reference.journal("TINY64", old, FEW, bytes([QE, 0])))
    bench.chip.data[:] = new
    check("exit status", bench.run("--restore", "j").status, 0)
    bench.check_chip(old, bytes([QE, 0]))


def refuses_other_bits(start):
    """Checks that -w ends with chip fault 1 if a bit of status 1 may protect sectors, and creates no journal.

    Bit 6 may do so unless the quad enable requirements are 010b. Bits 2 to 5 may do so even then.
    """
    for requirements, status in ((None, QE), (0b000, QE), (0b001, QE), (0b011, QE), (0b100, QE), (0b101, QE),
                                 (0b110, QE), (0b111, QE), (0b010, QE | 0x04), (0b010, 0x20)):
        bench, old, _ = connect(start, requirements, enters_qpi=False, status=bytes([status, 0]))
        got = bench.run("-w", "new", "--journal", "j")
        check(f"exit status with {requirements} and {status:02x}", got.status, 1)
        shown = status & ~QE if requirements == 0b010 else status
        check("the line", got.err[0].startswith(f"Chip fault 1: status 1 of this chip is {shown:02X}h."), True)
        check("the advice", got.err[0].startswith(MAYBE_QUAD), shown == QE)
        bench.check_absent("j")
        check("modifying commands", modifies(bench), False)
        bench.check_chip(old, bytes([status, 0]))


def needs_even_sectors(start):
    """Checks that -r and -v work on a chip without 4 KiB erases everywhere.

    -w, -E and --backup end with error 2, create no journal and send no modifying command.
    """
    for bits in 0b11, 0b00, 0b10:
        bench, old, _ = connect(start, None)
        changed = bytearray(table(bench.chip.size, None))
        changed[16] = changed[16] & ~3 | bits
        bench.chip.table = bytes(changed)
        for words in (("-w", "new", "--journal", "j"), ("-E", "--journal", "j"), ("--backup", "j")):
            bench.expect(*words, err=UNEVEN)
            bench.check_absent("j")
            check(f"modifying commands in {words}", modifies(bench), False)
        bench.expect("-r", "out", out=[reference.found("TINY64"), "Read 65536 bytes."])
        bench.check_file("out", old)
        check("the comparison", bench.run("-v", "out").status, 0)
        bench.check_chip(old)


def with_pages(bench, exponent, words=16):
    """Gives the chip an SFDP table of `words` double words. Its double word 11 says that a page has 2^`exponent` bytes.

    If `words` is less than 11, double word 11 follows the table, and doesn't belong to it.
    """
    changed = bytearray(table(bench.chip.size, 0b000))
    changed[11], changed[16 + 40] = words, exponent << 4 | 2
    bench.chip.table = bytes(changed)


def needs_whole_pages(start):
    """Checks that -r and -v work on a chip with pages of fewer than 256 bytes.

    -w, -E and --backup end with error 2, create no journal and send no modifying command.
    """
    for exponent, words in *((it, 16) for it in range(8)), (7, 11):
        bench, old, _ = connect(start, 0b000)
        with_pages(bench, exponent, words)
        for job in (("-w", "new", "--journal", "j"), ("-E", "--journal", "j"), ("--backup", "j")):
            bench.expect(*job, err=SMALL)
            bench.check_absent("j")
            check(f"modifying commands in {job}", modifies(bench), False)
        bench.expect("-r", "out", out=[reference.found("TINY64"), "Read 65536 bytes."])
        bench.check_file("out", old)
        check("the comparison", bench.run("-v", "out").status, 0)
        bench.check_chip(old)


def takes_whole_pages(start):
    """Checks that a chip is written and restored if its pages have 256 bytes or more, or no double word 11 exists."""
    for exponent, words in (8, 16), (9, 16), (15, 16), (8, 11), (7, 10), (0, 9):
        bench, old, new = connect(start, 0b000)
        with_pages(bench, exponent, words)
        got = bench.run("-w", "new", "--journal", "j")
        check(f"exit status with 2^{exponent} and {words} double words, {got.err}", got.status, 0)
        bench.check_chip(new)
        bench.check_file("j", reference.journal("TINY64", old, FEW))
        check("the restore", bench.run("--restore", "j").status, 0)
        bench.check_chip(old)


def restores_a_chip_with_small_pages(start):
    """Checks that --restore accepts a chip with pages of 128 bytes: an older version may have written the journal."""
    old, new = chip_images(FEW)
    bench, _, _ = connect(start, 0b000)
    with_pages(bench, 7)
    bench.chip.data[:] = new
    bench.write("j", reference.journal("TINY64", old, FEW))
    check("exit status", bench.run("--restore", "j").status, 0)
    bench.check_chip(old)


def takes_no_floating_id(start):
    """Checks that a unique ID of FFh or 00h in all bytes counts as no unique ID.

    The journal has zeros instead, and restores the chip whichever of the two values is read later.
    """
    old, new = chip_images(FEW)
    for before in FULL, NONE:
        for after in FULL, NONE:
            bench = start(data=old, unique=before)
            bench.write("new", new)
            check("the session", bench.run("-w", "new", "--journal", "j").status, 0)
            bench.check_file("j", reference.journal("TINY64", old, FEW, unique=NONE))
            bench.chip.unique = after
            check("the restore", bench.run("--restore", "j").status, 0)
            bench.check_chip(old)


def restores_a_floating_id(start):
    """Checks that a journal with a unique ID of only FFh, as older versions wrote, restores a chip without a unique ID.

    A chip with a unique ID isn't restored.
    """
    old, new = chip_images(FEW)
    for unique, status in ((FULL, 0), (NONE, 0), (b"\xff" * 7 + b"\xfe", 1), (b"\0" * 7 + b"\1", 1)):
        bench = start(data=new, unique=unique)
        bench.write("j", reference.journal("TINY64", old, FEW, b"\0\0", FULL))
        got = bench.run("--restore", "j")
        check(f"exit status with {unique.hex()}, {got.err}", got.status, status)
        bench.check_chip(new if status else old)
    check("the part", PARTS["TINY64"].has_row, False)


CASES = [keeps_quad, restores_saved_quad, refuses_other_bits, needs_even_sectors, needs_whole_pages, takes_whole_pages,
         restores_a_chip_with_small_pages, takes_no_floating_id, restores_a_floating_id]
