"""These cases exchange the board during a job. The last two test the lines about another size and about a cleared QE.

Both boards have a chip of one type with equal bytes. Only their unique IDs differ. The program reads the unique ID when
it identifies the chip, and again before the first modifying command. If the board is exchanged in between, the job must
end with error 12, and neither chip may be changed.
"""
import reference
from bench import check
from chip import READ_UNIQUE, Chip
from faults import DIFFER, RESTORE, UNCHANGED
from losses import FEW, chip_images
from refusals import LAYOUT, large_images
from wire import STOPPED, UNLOCK

FIRST, OTHER = bytes.fromhex("d1d2d3d4d5d6d7d8"), bytes.fromhex("0123456789abcdef")
EXCHANGED = f"Cause: the chip is another one than before: its unique ID was {FIRST.hex()}, and is {OTHER.hex()} now. " \
    "Connect the right chip."
KEPT = "With another tool, set these bits as they were, because this program never changes them, not even in a restore " \
    "(see Chip fault 3 in the manual page): QE."


def exchange(bench, words, journal, left):
    """Runs a job once for each transaction before which the board is exchanged, and checks that no chip is changed.

    The exchange is tried between the first read of the unique ID and its last read before a modifying command.
    """
    before, status = bytes(bench.chip.data), bytes(bench.chip.status)
    if journal:
        bench.write("j", journal)
    check("the job on one board", bench.run(*words).status, 0)
    log = [out[0] for out, _ in bench.server.log]
    first, again = [at for at, opcode in enumerate(log, 1) if opcode == READ_UNIQUE][:2]
    seal = next(at for at, opcode in enumerate(log, 1) if opcode in reference.CHANGING)
    used = [] if journal else [reference.used_name()]
    # The last four transactions before the first modifying command are two reads of the unique ID, each followed by a
    # read of the ID. If the board is exchanged after the second read of the unique ID, the program can't detect this.
    for number in range(first + 1, seal - 1):
        bench.chip.data[:], bench.chip.status[:] = before, status
        other = Chip(bench.part, before, status, OTHER)
        if not journal:
            bench.remove_journal()
        bench.server.traits.other = number, other
        # If the board is exchanged between two compared reads of the unique ID, their replies differ. Otherwise the
        # unique ID differs from the one that was read first.
        cause = EXCHANGED if again < number <= seal - 4 else DIFFER
        # The journal is sealed and kept if the exchange is detected by the last two reads of the unique ID before the
        # first modifying command.
        bench.expect(*words, err=[STOPPED, f"{cause} {left}", *(used if number > again else [])])
        for chip in bench.chip, other:
            check("the chip is unchanged", (chip.data == before, bytes(chip.status)), (True, status))
        bench.server.chip = bench.chip
    check("reads of the unique ID", log.count(READ_UNIQUE), 4)


def changes_no_other_chip(start):
    """Checks that a session changes no chip if the board is exchanged during the session."""
    old, new = chip_images(FEW)
    bench = start(data=old, unique=FIRST)
    bench.write("new", new)
    exchange(bench, ("-w", "new", "--journal", "j", "-N"), None, UNCHANGED)


def restores_no_other_chip(start):
    """Checks that a restore, with or without --quick, changes no chip if the board is exchanged during the restore."""
    old, new = chip_images(FEW)
    journal = reference.journal("TINY64", old, FEW, unique=FIRST)
    for words in ("-N",), ("-N", "--quick"):
        bench = start(data=new, unique=FIRST)
        exchange(bench, ("--restore", "j", *words), journal, RESTORE)


def protects_no_other_chip(start):
    """Checks that --wp-range changes no chip if the board is exchanged during the run."""
    bench = start("W25Q64FV", unique=FIRST)
    exchange(bench, ("--wp-range", "0x000000,0x800000", "--journal", "j"), None, UNCHANGED)


def prints_both_sizes(start):
    """Checks that the line after error 16 has both sizes if the chip has the journal's ID, but another size."""
    old, new = chip_images(FEW)
    bench = start(data=new)
    bench.write("j", reference.journal("TINY64", old + old, FEW))
    for words in (), ("-N",), ("--quick",):
        bench.expect("--restore", "j", *words, err=[
            "Error 16: another chip than the journal's.",
            "The journal is of SFDP (fe1010) with 131072 bytes. The chip is SFDP (fe1010) with 65536 bytes."])
    bench.check_chip(new)


def advises_on_kept_bits(start):
    """Checks the lines about QE if a status write clears it: those of chip fault 3 and of the restore.

    When QE is set again, the restore ends without an error.
    """
    old, new = large_images()
    bench = start("W25Q64FV", data=old, status=b"\x04\x02")
    bench.remembers = False
    bench.write("new", new)
    bench.write("layout", LAYOUT)
    write = bench.chip.write_status

    def clear_quad(sent):
        accepted = write(sent)
        bench.chip.status[1] &= ~0x02
        return accepted

    bench.chip.write_status = clear_quad
    bench.expect(*UNLOCK, err=[
        STOPPED, f"{reference.not_stored_status(bytes([0, 2]), bytes(2))} {KEPT} {RESTORE} Until then it may be unprotected."])
    bench.chip.write_status = write
    got = bench.run("--restore", "j", "-N")
    check("the restore", [got.status, got.err], [1, [reference.kept_bits(2, 0), reference.LOST_BITS]])
    bench.check_chip(old, b"\x04\0")
    bench.chip.status[1] |= 0x02
    got = bench.run("--restore", "j", "-N")
    check("the restore with QE", [got.status, got.err], [0, []])
    bench.check_chip(old, b"\x04\x02")


CASES = [changes_no_other_chip, restores_no_other_chip, protects_no_other_chip, prints_both_sizes, advises_on_kept_bits]
