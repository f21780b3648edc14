"""This module describes chips of Eon, Puya, XMC, Adesto (Dialog, Renesas), Boya and Microchip."""
from chips.common import BASE, ERASE_4, ERASES, M8, M16, RESET, SFDP, STATUS_2, STATUS_3, UNIQUE, WRITE_1, \
    WRITE_2, WRITE_2_CLEARS, sleeps
from models import Description, by_blocks, with_own_locks
from sfdp import K4, K32, K64, QE_BY_01, QE_BY_31, SECTOR_MAP, Modes, Table, basic, build, regions

TYPES = (K4, K32, K64)
OPCODES = {**BASE, **ERASES, **SFDP, **RESET}
# Chips with these opcodes have the registers of Winbond, and 35h.
ALIKE = {**OPCODES, **STATUS_2, **UNIQUE, **WRITE_2}
ALIKE_CHIP = dict(writable=(0xFC, 0x7B, 0x60), once=(0, 0x38, 0), has_srp1=True, idle=(0x05, 0x35, 0x15))
# SST26VF064B has regions with erase blocks of 8, 32, 64, 32 and 8 KiB. SST_BLOCKS has the end of each region and the
# length of its blocks, and SST_MAP has the length of each region and the mask of its erase types.
SST_BLOCKS = ((0x8000, 8192), (0x10000, 32768), (M8 - 0x10000, 65536), (M8 - 0x8000, 32768), (M8, 8192))
SST_MAP = ((0x8000, 0b0011), (0x8000, 0b0101), (M8 - 0x20000, 0b1001), (0x8000, 0b0101), (0x8000, 0b0011))


def later(size, quad):
    return build(6, basic(size, TYPES, Modes(), minor=6, quad=quad))


CHIPS = (
    # From bit 7 to bit 0, the status of EN25QH64 has SRP WHDIS BP3 BP2 BP1 BP0 WEL WIP. 38h enters QPI mode. The unique
    # ID is in the SFDP, at 80h, and the chip ignores 4Bh.
    Description("EN25QH64", "Eon", bytes.fromhex("1c7017"), M8,
                build(0, basic(M8, TYPES, Modes(True))).ljust(0x80, b"\xff") + bytes(range(0x11, 0x1D)),
                {**OPCODES, **WRITE_1, 0x38: ("qpi",), **sleeps(0x16)},
                ("Status Register", "Instruction Set", "Read SFDP Mode and Unique ID Number (5Ah)", "Enable Quad "
                 "Peripheral Interface mode (38h)"), protected=by_blocks((2, 3, 4, 5)), leaves_qpi=(0xFF,)),
    # On P25Q64H, 81h erases a page. No other chip here has this command.
    Description("P25Q64H", "Puya", bytes.fromhex("856017"), M8, build(0, basic(M8, TYPES)),
                {**ALIKE, **STATUS_3, **sleeps(0x16), 0x81: ("erase", 256)},
                ("Status Register", "Command Set", "Read Unique ID (4BH)", "Page Erase (81H)"),
                unique=bytes(range(0x21, 0x31)), **ALIKE_CHIP),
    Description("XM25QH64C", "XMC", bytes.fromhex("204017"), M8, later(M8, QE_BY_01),
                {**ALIKE, **STATUS_3, **sleeps(0x16)},
                ("Status Register", "Instructions", "Read Unique ID Number (4Bh)"), unique=bytes(range(0x31, 0x41)),
                **ALIKE_CHIP),
    # The third byte of the ID of AT25SF128A isn't related to its size.
    Description("AT25SF128A", "Adesto", bytes.fromhex("1f8901"), M16, later(M16, QE_BY_31),
                {**ALIKE, **STATUS_3, **sleeps(0x17), 0x31: ("write", (1,))},
                ("Status Registers", "Command Listing", "SFDP"), unique=bytes(range(0xB1, 0xC1)), **ALIKE_CHIP),
    # This is a DataFlash chip. D7h reads its status, and it has neither 05h nor SFDP. It doesn't reply to ABh.
    Description("AT45DB081E", "Adesto", bytes.fromhex("1f2500"), M8 // 8, b"",
                {0x03: ("data",), 0x0B: ("data", 5), 0x9F: ("id",), 0xD7: ("status", 1)},
                ("Status Register Read", "Manufacturer and Device ID Read", "Command Tables"), registers=(0, 0xA4, 0)),
    # From bit 7 to bit 0, the status of SST26VF064B has BUSY RES SEC WPLD WSP WSE WEL BUSY. 35h reads the configuration
    # register. 4 KiB erases reach the whole chip, but the block that D8h erases has 8, 32 or 64 KiB, depending on the
    # address. So the SFDP has three erase types with D8h, and a sector map. After power-up all blocks are locked until
    # 98h is sent; in the model, bit 2 of the third register shows the locks. 38h enters QPI mode, and the chip ignores
    # ABh.
    Description("SST26VF064B", "Microchip", bytes.fromhex("bf2643"), M8,
                build(6, basic(M8, (K4, (13, 0xD8), (15, 0xD8), K64), Modes(True), minor=6, quad=QE_BY_01),
                      Table(SECTOR_MAP, (1, 0), 0x100, regions(0, SST_MAP, is_end=True))),
                {**BASE, **SFDP, **RESET, **STATUS_2, **ERASE_4, 0xC7: ("chip_erase",), 0x98: ("unlock",),
                 0xD8: ("erase_in", SST_BLOCKS), 0x38: ("qpi",), 0x01: ("write", (0, 1))},
                ("Memory organization", "Status Register", "Configuration Register", "Block-Erase (D8h)",
                 "Global Block-Protection Unlock (98h)", "SFDP: sector map parameter table"),
                registers=(0, 0, 4), writable=(0, 0x8A, 0), power_up=(0, 0, 4), busy=0x81, protected=with_own_locks,
                leaves_qpi=(0xFF,)),
    # If 01h sends only one status byte, status 2 becomes 0.
    Description("BY25Q64AS", "Boya", bytes.fromhex("684017"), M8, build(0, basic(M8, TYPES)),
                {**ALIKE, **WRITE_2_CLEARS, **sleeps(0x16)}, ("Status Register", "Command Set", "Read Unique ID (4BH)"),
                unique=bytes(range(0xD1, 0xD9)), **ALIKE_CHIP),
)
