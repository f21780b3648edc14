"""This module describes S25FL chips of Spansion and Cypress.

From bit 7 to bit 0, status 1 of S25FL128L has SRP0 SEC TBPROT BP2 BP1 BP0 WEL WIP. 35h reads its register CR1, which is
like status 2 of Winbond, but has LB0 in bit 2. Its 4 KiB erases reach the whole chip.

Status 1 of S25FL128S has SRWD P_ERR E_ERR BP2 BP1 BP0 WEL WIP. 35h reads its CR1: LC1 LC0 TBPROT - BPNV TBPARM QUAD
FREEZE. Its 4 KiB erase (20h, missing on S25FL128S-256) works only in 32 small sectors. These are at the start of the
chip or, if TBPARM is set, at the end. Elsewhere the chip ignores 20h. It has no 32 KiB erase. A refused program sets
P_ERR, and a refused erase sets E_ERR. WIP then stays set until 30h is sent.
"""
from chips.common import BASE, ERASES, M16, RESET, SFDP, STATUS_2, UNIQUE, WRITE_2, WRITE_2_CLEARS, sleeps
from models import Description, by_sixty_fourths
from sfdp import BY_38, BY_F5, K4, K32, K64, QE_BY_01, SECTOR_MAP, Modes, Table, basic, build, detect, regions

SMALL = 32 * 4096
L = {**BASE, **ERASES, **SFDP, **STATUS_2, **UNIQUE, **RESET, **WRITE_2, **sleeps(0x17)}
# 4Bh reads the one-time area, whose first 16 bytes are a random number from the factory. ABh reads the electronic
# signature.
S = {**BASE, **SFDP, **STATUS_2, **WRITE_2_CLEARS, 0x4B: ("unique", 5, True), 0xAB: ("wake", 0x17), 0x30: ("clear",),
     0xD8: ("erase", 65536), 0x60: ("chip_erase",), 0xC7: ("chip_erase",)}
OTP = bytes(range(0x71, 0x81)) + b"\xff" * 1008
L_SECTIONS = ("Status Registers", "Configuration Register 1", "Read Unique ID (RUID 4Bh)", "Erase commands", "SFDP")
S_SECTIONS = ("Flash memory array: physical sectors", "Status Register 1", "Configuration Register 1",
              "Parameter 4-KB Sector Erase (P4E 20h)", "OTP Read (OTPR 4Bh)", "SFDP address space: sector map")
S_CHIP = dict(maker="Spansion", id=bytes.fromhex("012018"), size=M16, sources=S_SECTIONS, writable=(0x9C, 0x2B, 0),
              once=(0, 0x28, 0), unique=OTP, protected=by_sixty_fourths, errors=(0x40, 0x20), idle=(0x05, 0x35, 0x30))


def s_table(types, opcode):
    return basic(M16, types, Modes(is_uniform=False, opcode=opcode, addresses=1), minor=6, at=0x80, quad=QE_BY_01)


def sector_map():
    """Returns the sector map of S25FL128S. Bit 2 of the reply to 35h (TBPARM) selects one of two configurations.

    Erase type 1 is 4 KiB, and erase type 2 is 64 KiB.
    """
    small, rest = (SMALL, 0b0011), (M16 - SMALL, 0b0010)
    words = (*detect(0x35, 0x04, is_end=True), *regions(0, (small, rest)), *regions(1, (rest, small), is_end=True))
    return Table(SECTOR_MAP, (1, 0), 0xD0, words)


CHIPS = (
    Description("S25FL128L", "Spansion", bytes.fromhex("016018"), M16,
                build(6, basic(M16, (K4, K32, K64), Modes(True, BY_38, BY_F5), minor=6, at=0x100, quad=QE_BY_01)), L,
                L_SECTIONS, writable=(0xFC, 0x7F, 0), once=(0, 0x3C, 0), unique=bytes(range(0x61, 0x69)),
                has_srp1=True, idle=(0x05, 0x35)),
    Description("S25FL128S", sfdp=build(6, s_table((K4, K64), 0x20), sector_map()),
                opcodes={**S, 0x20: ("erase", 4096, 0, SMALL)}, after_id=bytes.fromhex("4d0180"), **S_CHIP),
    # On this chip the small sectors are at the end.
    Description("S25FL128S-top", sfdp=build(6, s_table((K4, K64), 0x20), sector_map()),
                opcodes={**S, 0x20: ("erase", 4096, M16 - SMALL)}, after_id=bytes.fromhex("4d0180"),
                registers=(0, 0x04, 0), **S_CHIP),
    # The SFDP of this chip is older than JESD216B: it has nine double words and no sector map. Double word 1 says that
    # 4 KiB erases don't reach the whole chip.
    Description("S25FL128S-old", sfdp=build(0, basic(M16, (K4, K64), Modes(is_uniform=False, addresses=1))),
                opcodes={**S, 0x20: ("erase", 4096, 0, SMALL)}, after_id=bytes.fromhex("4d0180"), **S_CHIP),
    # This chip has erase blocks of 256 KiB, and no 4 KiB erase.
    Description("S25FL128S-256", sfdp=build(6, s_table(((18, 0xD8),), 0xFF)),
                opcodes={**S, 0xD8: ("erase", 262144)}, after_id=bytes.fromhex("4d0080"), **S_CHIP),
)

