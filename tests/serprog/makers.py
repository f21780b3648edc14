"""Cases of chips for which 35h may mean something else than read status 2.

35h enters QPI mode on Macronix MX25L12835F, ISSI IS25LP128 and Micron MT25QL128 (from memory of their datasheets). Each
of them then ignores all commands of the program until its power is off. The program may therefore send 35h only in
these cases:

- The program's table of chips contains the chip's ID.
- The chip's SFDP says that 35h reads status 2 (JESD216B, double word 15, quad enable requirements 101b and 110b).
- A restore uses a journal with the chip's ID and a status 2 other than 00h, so its session sent 35h to such a chip.
"""
import reference
from bench import check
from chip import PARTS, SECTOR, Chip, sfdp
from losses import FEW, chip_images

SECOND = b"\x35"
# Quad enable requirements (bits 22 to 20 of double word 15) that don't say that 35h reads status 2. With 010b QE is bit
# 6 of status 1, and with 000b there is no QE. `None` stands for a table without this double word.
OTHERS = (None, 0b010, 0b000, 0b001, 0b100, 0b111)
NAMING = (0b101, 0b110)


def table(size, requirements):
    """Returns SFDP bytes. If `requirements` are given, the basic table has 16 double words (JESD216B), else nine.

    The bytes after a table of nine double words look like the requirements 101b, but don't belong to this table.
    """
    found = bytearray(sfdp(size).ljust(16 + 64, b"\0"))
    found[16 + 58] = 0b101 << 4
    if requirements is not None:
        found[4], found[11], found[16 + 40] = 6, 16, 8 << 4
        found[16 + 58] = requirements << 4 | 0x0F
    return bytes(found)


class MakersChip(Chip):
    """TINY64 with another SFDP table. If `enters_qpi`, the chip ignores all commands after 35h.

    If `leaves_by_ff`, FFh makes the chip receive commands again.
    """

    def __init__(self, requirements, enters_qpi=True, leaves_by_ff=False, **chosen):
        super().__init__("TINY64", **chosen)
        self.table, self.enters_qpi, self.in_qpi = table(self.size, requirements), enters_qpi, False
        self.leaves_by_ff = leaves_by_ff

    def transfer(self, out, replies):
        if self.enters_qpi and out[:1] == SECOND:
            self.in_qpi = True
        if self.leaves_by_ff and out[:1] == b"\xff":
            self.in_qpi = False
            return b"\xff" * replies
        return b"\xff" * replies if self.in_qpi else super().transfer(out, replies)

    def read(self, opcode, out, replies):
        if opcode == 0x5A and len(out) == 5:
            return self.table[int.from_bytes(out[1:4], "big") :][:replies].ljust(replies, b"\xff")
        return super().read(opcode, out, replies)


def connect(start, requirements, **chosen):
    """Returns a bench with a `MakersChip` and the file `new`, and the two images of `chip_images`."""
    old, new = chip_images(FEW)
    bench = start()
    bench.chip = MakersChip(requirements, data=old, **chosen)
    bench.plug()
    bench.write("new", new)
    return bench, old, new


def asked(bench):
    """Returns how often 35h was sent in the last run."""
    return sum(out[:1] == SECOND for out, _ in bench.server.log)


def never_enters_qpi(start):
    """The jobs of this case send no 35h to a chip whose SFDP doesn't say that 35h reads status 2.

    They work, except --wp-status, --wp-list, --wp-enable and --wp-disable, which end with exit status 1.
    """
    for requirements in OTHERS:
        bench, old, new = connect(start, requirements)
        found = reference.found("TINY64")
        for words, status in (((), 0), (("--flash-size",), 0), (("--wp-status",), 1), (("--wp-list",), 1),
                              (("--wp-enable",), 1), (("--wp-disable",), 1), (("--backup", "b"), 0),
                              (("-r", "image"), 0), (("-w", "new", "--journal", "j"), 0)):
            got = bench.run(*words)
            check(f"exit status of {words}, {got.err}", got.status, status)
            check(f"35h in {words}", asked(bench), 0)
        bench.check_file("image", old)
        bench.check_chip(new)
        bench.check_file("j", reference.journal("TINY64", old, FEW))
        bench.expect("--restore", "j", out=[found, reference.report(reference.restore("TINY64", old, FEW), len(FEW))])
        check("35h in the restore", asked(bench), 0)
        bench.check_chip(old)
        check("the chip is in QPI mode", bench.chip.in_qpi, False)


def comes_back_from_qpi(start):
    """A chip that is in QPI mode before each run, and leaves it by FFh, can be backed up, written and restored."""
    bench, old, new = connect(start, None, leaves_by_ff=True)

    def run(words, status, events=None):
        bench.chip.in_qpi = True
        got = bench.run(*words, events=events)
        check(f"exit status of {words}, {got.err}", got.status, status)
        return [out for out, _ in bench.server.log]

    run(("--backup", "b"), 0)
    bench.check_file("b", reference.journal("TINY64", old, range(len(old) // SECTOR)))
    sent = run(("-w", "new", "--journal", "j"), 0)
    bench.check_chip(new)
    run(("--restore", "j"), 0)
    bench.check_chip(old)
    program = next(at for at, out in enumerate(sent, 1) if out[:1] == b"\x02")
    run(("-w", "new", "--journal", "k"), -9, {program: "kill"})
    bench.plug()
    run(("--restore", "k", "-N"), 0)
    bench.check_chip(old)


def takes_no_level_for_a_unique_id(start):
    """If a chip ignores 4Bh, and its line keeps the last level, a session records no unique ID (00h).

    A restore from this journal succeeds.
    """
    old, new = chip_images(FEW)
    bench = start(data=old, unique=bytes(range(8)))
    bench.write("new", new)
    transfer, levels = bench.chip.transfer, []

    def keep(out, replies):
        if out[:1] == b"\x4b":
            return bytes(levels[-1:] * replies)
        reply = transfer(out, replies)
        levels.extend([0xFF * (reply[-1] & 1)] if reply else [])
        return reply

    bench.chip.transfer = keep
    got = bench.run("-w", "new", "--journal", "j")
    check(f"exit status, {got.err}", got.status, 0)
    check("levels before 4Bh", 0xFF in levels and 0 in levels, True)
    bench.check_file("j", reference.journal("TINY64", old, FEW, unique=bytes(8)))
    got = bench.run("--restore", "j")
    check(f"exit status of the restore, {got.err}", got.status, 0)
    bench.check_chip(old)


def changes_no_lock(start):
    """On a chip outside the program's table, --wp-enable, --wp-disable and --wp-range end with error 6.

    They send neither 06h nor 01h.
    """
    bench, old, _ = connect(start, 0b010)
    for words in ("--wp-enable",), ("--wp-disable",), ("--wp-range", "0,0x1000", "--journal", "k"):
        bench.expect(*words, err=reference.NO_PROTECTION)
        check("status writes", [out for out, _ in bench.server.log if out[:1] in (b"\x01", b"\x06")], [])
    bench.check_chip(old)


def reads_named_status_2(start):
    """If a chip's SFDP says that 35h reads status 2, a session sends 35h, and its journal contains status 2.

    A restore from this journal succeeds.
    """
    for requirements in NAMING:
        bench, old, new = connect(start, requirements, enters_qpi=False, status=b"\0\2")
        check("the session", bench.run("-w", "new", "--journal", "j").status, 0)
        check("35h was sent", asked(bench) > 0, True)
        bench.check_file("j", reference.journal("TINY64", old, FEW, b"\0\2"))
        check("the restore", bench.run("--restore", "j").status, 0)
        bench.check_chip(old, b"\0\2")


def restores_older_journals(start):
    """A restore from a journal with a status 2 other than 00h works, although the chip's SFDP doesn't mention 35h.

    If the journal is another chip's, the restore sends no 35h.
    """
    old, new = chip_images(FEW)
    for requirements in None, 0b010:
        bench, _, _ = connect(start, requirements, enters_qpi=False, status=b"\0\2")
        bench.write("j", reference.journal("TINY64", old, FEW, b"\0\2"))
        bench.chip.data[:] = new
        plan = reference.restore("TINY64", old, FEW)
        bench.expect("--restore", "j", out=[reference.found("TINY64"), reference.report(plan, len(FEW))])
        bench.check_chip(old, b"\0\2")
    bench, _, _ = connect(start, None)
    bench.write("j", reference.journal("GUARD64", old, FEW, b"\0\2"))
    check("the restore with the journal of another chip", bench.run("--restore", "j").status, 1)
    check("35h was sent", asked(bench), 0)


def asks_each_row(start):
    """--wp-status sends 35h to each chip whose ID is in the program's table, and prints status 2."""
    for part in (name for name, it in PARTS.items() if it.has_row):
        bench = start(part, status=b"\0\x40")
        got = bench.run("--wp-status")
        check(f"exit status, and status bytes of {part}", (got.status, got.out[-1]), (0, "Status: 0x00 0x40"))
        check(f"35h was sent to {part}", asked(bench), 2)


CASES = [asks_each_row, never_enters_qpi, comes_back_from_qpi, takes_no_level_for_a_unique_id, changes_no_lock,
         reads_named_status_2, restores_older_journals]
