"""These cases set some of bits 2 to 6 of status 1 on chips of chips/.

A chip is refused if one of these bits may protect sectors (or, on SST26, shows another state). A bit that certainly
protects nothing is kept. The printed line says what the bits mean on the chips of this maker, if the program knows the
maker (from memory of the datasheets, section Status Register). W25Q16JV, whose ID isn't in the table of chips, is found
by its SFDP.
"""
from functools import partial

import reference
from all_makers import CHANGES, LOCKED, OWN_LOCKS, Play, Refused, case_of, is_refused, is_written
from bench import check
from chips import ALL


def protected(shown, meaning):
    """Returns the refusal of a chip whose status 1 is shown as `shown`."""
    return Refused((f"Chip fault 1: status 1 of this chip is {shown:02X}h. {meaning}",), CHANGES)


# An entry has a chip, a value of status 1, and the refusal, or `None` if the chip is written. QE (bit 6 on chips of
# Macronix and ISSI) and SEC of SST26 (bit 5) protect nothing. The SFDP of IS25LP128 says that bit 6 is QE, so the line
# doesn't show this bit.
BP0_TO_BP3 = "its bits 2 to 5 (BP0 to BP3) protect sectors"
STATUS = (
    ("MX25L12835F", 0x40, None), ("MX25U6435F", 0x40, None), ("IS25LP064", 0x40, None), ("SST26VF064B", 0x20, None),
    ("MX25L12835F", 0x44, protected(0x44, f"On Macronix's chips {BP0_TO_BP3}. Nothing was changed. Write this chip")),
    ("MX25L6436F", 0x04, protected(0x04, f"On Macronix's chips {BP0_TO_BP3}.")),
    ("IS25LP128", 0x44, protected(0x04, f"On ISSI's chips {BP0_TO_BP3}.")),
    ("GD25Q128E", 0x1C, protected(0x1C, "On GigaDevice's chips its bits 2 to 6 (BP0 to BP4) protect sectors. Nothing "
                                  "was changed. Clear these bits with another tool (flashrom --wp-disable, then ")),
    ("GD25Q64C", 0x40, protected(0x40, "On GigaDevice's chips its bits 2 to 6 (BP0 to BP4) protect sectors.")),
    ("W25Q16JV", 0x40, protected(0x40, "On Winbond's chips its bits 2 to 6 (BP0 to BP2, TB, SEC) protect sectors.")),
    *((name, bit, protected(bit, "On the chips of Micron and XMC its bits 2 to 6 (BP, TB, SEC) protect sectors."))
      for name, bit in (("N25Q064A", 0x40), ("XM25QH64C", 0x20))),
    ("EN25QH64", 0x40, protected(0x40, f"On Eon's chips {BP0_TO_BP3}, and on some perhaps bit 6.")),
    ("S25FL128L", 0x20, protected(0x20, "On Spansion's chips its bits 2 to 6 (BP0 to BP2, TB, SEC) protect sectors.")),
    ("AT25SF128A", 0x40, protected(0x40, "On Adesto's chips its bits 2 to 6 protect sectors, or ")),
    *(("SST26VF064B", bit, protected(bit, "On SST26 chips its bits 2 and 3 say that an erase or a program is suspended"
                                     ", and bit 4 that the locks of the blocks can't be changed. Nothing was changed. "
                                     "Disconnect the chip from power, and try again."))
      for bit in (0x04, 0x10, 0x40)),
    ("P25Q64H", 0x40, protected(0x40, "Its bit 6 may protect sectors, as on Winbond's chips. Or it is QE, ")),
    ("BY25Q64AS", 0x04, protected(0x04, "On nearly every chip its bits 2 to 6 protect sectors, and this program ")),
)


def has_status(start, it, status, refused):
    """refused if a bit set in this status 1 may protect sectors or shows another state, and otherwise written"""
    play = Play(start, it, status)
    if it.name in LOCKED:
        play.registers = bytes((*play.registers[:2], play.registers[2] & ~OWN_LOCKS))
        play.chip.status[2] &= ~OWN_LOCKS
    if refused:
        is_refused(play, refused)
    else:
        is_written(play)


def has_no_ranges(start, it):
    """found by its SFDP, so --wp-range and --wp-list refuse it"""
    play = Play(start, it)
    for words in ("--wp-range", "0,0x10000", "--journal", "j"), ("--wp-list",):
        got = play.run(*words)
        check(f"the refusal of {words}", (got.err, got.out, got.status), (reference.NO_PROTECTION, [], 1))
        play.only_reads(words)
    play.bench.check_absent("j")
    play.check_chip(play.old)


def cases():
    yield case_of(has_no_ranges, ALL["W25Q16JV"])
    for name, status, refused in STATUS:
        yield case_of(partial(has_status, status=status, refused=refused), ALL[name], f"has_status_{status:02x}")


CASES = list(cases())
