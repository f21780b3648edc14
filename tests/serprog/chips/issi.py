"""This module describes ISSI's IS25LP chips.

From bit 7 to bit 0, the status has SRWD QE BP3 BP2 BP1 BP0 WEL WIP. The model leaves out the function
register (with TBS), which 48h reads and 42h writes. 35h enters QPI mode.
"""
from chips.common import BASE, ERASES, M8, M16, RESET, SFDP, UNIQUE, WRITE_1, sleeps
from models import Description, by_blocks
from sfdp import BY_35, BY_F5, BY_RESET, K4, K32, K64, QE_IN_STATUS_1, Modes, basic, build

OPCODES = {**BASE, **ERASES, 0xD7: ("erase", 4096), **SFDP, **UNIQUE, **RESET, **WRITE_1, 0x35: ("qpi",)}
SECTIONS = ("Status Register", "Function Register", "Device Operation: QPIEN 35h, QPIDI F5h", "Read Unique ID (4Bh)",
            "SFDP signature and parameter definitions")


def one(name, number, size, wake):
    modes = Modes(True, BY_35, BY_F5 | BY_RESET)
    table = basic(size, (K4, K32, K64), modes, minor=6, quad=QE_IN_STATUS_1)
    return Description(name, "ISSI", bytes.fromhex(number), size, build(6, table), {**OPCODES, **sleeps(wake)},
                       SECTIONS, unique=bytes(range(0x91, 0xA1)), protected=by_blocks((2, 3, 4, 5)))


CHIPS = one("IS25LP064", "9d6017", M8, 0x16), one("IS25LP128", "9d6018", M16, 0x17)
