"""This module describes Micron's N25Q and MT25Q chips.

From bit 7 to bit 0, the status has SRWD BP3 TB BP2 BP1 BP0 WEL WIP. There is no QE, because other registers select the
quad modes. 4Bh reads the one-time area (OTP), whose bytes are FFh if they were never programmed. 9Fh returns 17 bytes
after the ID: the number of the other 16, two bytes about the device, and a unique ID of 14 bytes.
"""
from chips.common import BASE, ERASES, M8, M16, RESET, SFDP, WRITE_1, sleeps
from models import Description, by_blocks
from sfdp import BY_35, BY_F5, K4, K32, K64, NO_QE, Modes, basic, build

OPCODES = {**BASE, **ERASES, **SFDP, **RESET, **WRITE_1, 0x4B: ("unique", 5, True)}
AFTER_ID = bytes.fromhex("104000") + bytes(range(0x51, 0x5F))
OTP = b"\xff" * 65
SECTIONS = ("Status Register", "Command Set", "Device ID Data", "READ OTP ARRAY",
            "Serial Flash Discovery Parameter Data")


def one(name, number, size, opcodes, sfdp):
    return Description(name, "Micron", bytes.fromhex(number), size, sfdp,
                       {at: it for at, it in {**OPCODES, **opcodes}.items() if it}, SECTIONS, after_id=AFTER_ID,
                       unique=OTP, protected=by_blocks((2, 3, 4, 6), 5), idle=(0x05, 0x70))


CHIPS = (
    # This chip, which needs 3 V, has no 32 KiB erase, no 60h and no deep power-down, so it ignores ABh. No command
    # enters QPI mode.
    one("N25Q064A", "20ba17", M8, {0x52: None, 0x60: None}, build(0, basic(M8, (K4, K64)))),
    one("MT25QL128", "20ba18", M16, {0x35: ("qpi",), **sleeps(0x17)},
        build(6, basic(M16, (K4, K32, K64), Modes(True, BY_35, BY_F5), minor=6, quad=NO_QE))),
)
