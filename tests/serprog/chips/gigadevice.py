"""This module describes GigaDevice's GD25Q chips.

From bit 7 to bit 0, status 1 has SRP0 BP4 BP3 BP2 BP1 BP0 WEL WIP, and status 2 has SUS1 CMP LB3 LB2 LB1 SUS2 QE SRP1.
BP4 and BP3 correspond to Winbond's SEC and TB. 01h writes only status 1, 31h writes status 2, and 11h writes status 3.
4Bh returns a unique ID of 16 bytes.
"""
from chips.common import BASE, ERASES, M8, M16, RESET, SFDP, STATUS_2, STATUS_3, UNIQUE, WRITE_1, sleeps
from models import Description
from sfdp import K4, K32, K64, QE_BY_31, Modes, Table, basic, build

TYPES = (K4, K32, K64)
OPCODES = {**BASE, **ERASES, **SFDP, **STATUS_2, **STATUS_3, **UNIQUE, **RESET, **WRITE_1, 0x31: ("write", (1,)),
           0x11: ("write", (2,))}
OWN = Table(0x00C8, (1, 0), 0x60, (0x27003600, 0xF99E, 0xFFFFF764))
SECTIONS = ("Status Register", "Commands Description", "Read Unique ID (4BH)", "SFDP")


def one(name, number, size, wake, sfdp, **chosen):
    return Description(name, "GigaDevice", bytes.fromhex(number), size, sfdp, {**OPCODES, **sleeps(wake)}, SECTIONS,
                       writable=(0xFC, 0x7B, 0x60), once=(0, 0x38, 0), unique=bytes(range(0x41, 0x51)), has_srp1=True,
                       **chosen)


CHIPS = (
    one("GD25Q64C", "c84017", M8, 0x16, build(0, basic(M8, TYPES), OWN), idle=(0x05, 0x35, 0x15)),
    one("GD25Q128E", "c84018", M16, 0x17,
        build(6, basic(M16, TYPES, Modes(), minor=6, quad=QE_BY_31), OWN._replace(at=0x90)), registers=(0, 2, 0x60),
        idle=(0x05, 0x35, 0x15)),
)
