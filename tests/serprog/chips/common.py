"""This module says what the opcodes of most SPI NOR chips do."""
M2, M8, M16, M32 = 1 << 21, 1 << 23, 1 << 24, 1 << 25
# Nearly all chips here have these reads, write enable, write disable, and the page program.
BASE = {0x03: ("data",), 0x0B: ("data", 5), 0x05: ("status", 0), 0x06: ("latch", True), 0x04: ("latch", False),
        0x9F: ("id",), 0x02: ("program",)}
SFDP = {0x5A: ("sfdp",)}
ERASE_4, ERASE_32, ERASE_64 = {0x20: ("erase", 4096)}, {0x52: ("erase", 32768)}, {0xD8: ("erase", 65536)}
ERASES = {**ERASE_4, **ERASE_32, **ERASE_64, 0x60: ("chip_erase",), 0xC7: ("chip_erase",)}
RESET = {0x66: ("arm",), 0x99: ("reset",)}
# 01h writes one status byte (WRITE_1), or up to two. If only the first of two is sent, status 2 keeps its value
# (WRITE_2), or becomes 0 (WRITE_2_CLEARS).
WRITE_1, WRITE_2 = {0x01: ("write", (0,))}, {0x01: ("write", (0, 1))}
WRITE_2_CLEARS = {0x01: ("write", (0, 1), True)}
STATUS_2, STATUS_3 = {0x35: ("status", 1)}, {0x15: ("status", 2)}
UNIQUE = {0x4B: ("unique",)}


def sleeps(number):
    """Returns the opcodes of deep power-down: B9h enters it, and ABh leaves it and returns the byte `number`."""
    return {0xB9: ("sleep",), 0xAB: ("wake", number)}
