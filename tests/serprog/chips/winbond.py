"""This module describes Winbond's W25Q chips.

From bit 7 to bit 0, status 1 has SRP0 SEC TB BP2 BP1 BP0 WEL BUSY (except that the model leaves out BP3 of W25Q256JV),
and status 2 has SUS CMP LB3 LB2 LB1 - QE SRP1. Bit 2 of status 3 (JV) is WPS.
"""
from chips.common import ERASES, BASE, M2, M8, M16, M32, RESET, SFDP, STATUS_2, STATUS_3, UNIQUE, WRITE_2, WRITE_2_CLEARS, \
    sleeps
from models import Description, with_own_locks
from sfdp import BY_38, BY_FF, BY_RESET, K4, K32, K64, QE_KEPT, Modes, basic, build

TYPES = (K4, K32, K64)
OPCODES = {**BASE, **ERASES, **SFDP, **STATUS_2, **UNIQUE, **RESET}
# On W25Q64FV and W25Q128FV, 38h enters QPI mode if QE is set. The model leaves this out, because no case does it.
FV = {**OPCODES, **WRITE_2_CLEARS, **sleeps(0x16)}
JV = {**OPCODES, **WRITE_2, **STATUS_3, 0x31: ("write", (1,)), 0x11: ("write", (2,))}
WRITABLE, ONCE = (0xFC, 0x7B, 0x64), (0, 0x38, 0)
SECTIONS = ("Status Registers", "Instruction Set Table", "Write Status Register (01h)", "Read Unique ID Number (4Bh)",
            "Read SFDP Register (5Ah)")


def one(name, number, size, opcodes, sfdp, **chosen):
    return Description(name, "Winbond", bytes.fromhex(number), size, sfdp, opcodes, (*SECTIONS, f"{name}"),
                       writable=WRITABLE, once=ONCE, unique=bytes.fromhex("d164186b3b1a4c2f"), has_srp1=True,
                       idle=(0x05, 0x35, 0x15), **chosen)


# The SFDP follows JESD216A, revision 1.5: it has one table with 16 double words at 80h.
def later(size, **modes):
    return build(5, basic(size, TYPES, Modes(**modes), minor=5, at=0x80, quad=QE_KEPT))


CHIPS = (
    one("W25Q64FV", "ef4017", M8, FV, build(0, basic(M8, TYPES, Modes(True), at=0x80))),
    # The ID of this chip isn't in the program's table of chips, whose chips can protect a 64th of their size. On this
    # chip the smallest range without SEC is a 32nd.
    one("W25Q16JV", "ef4015", M2, {**JV, **sleeps(0x14)}, later(M2), registers=(0, 0x02, 0x60),
        protected=with_own_locks),
    one("W25Q64JV", "ef4017", M8, {**JV, **sleeps(0x16)}, later(M8), registers=(0, 0x02, 0x60),
        protected=with_own_locks),
    one("W25Q128JV", "ef4018", M16, {**JV, **sleeps(0x17)}, later(M16), registers=(0, 0x02, 0x60),
        protected=with_own_locks),
    one("W25Q64JV-M", "ef7017", M8, {**JV, **sleeps(0x16)},
        later(M8, has_qpi=True, enters=BY_38, leaves=BY_FF | BY_RESET), registers=(0, 0, 0x60),
        protected=with_own_locks, leaves_qpi=(0xFF,)),
    # This chip has 32 MiB, and addresses of three or four bytes.
    one("W25Q256JV", "ef4019", M32, {**JV, **sleeps(0x18), 0xB7: ("four", True), 0xE9: ("four", False)},
        later(M32, addresses=1), registers=(0, 0x02, 0x60)),
)
