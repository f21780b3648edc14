"""This module describes Macronix's MX25L and MX25U chips, and an SPI NAND chip.

From bit 7 to bit 0, the status has SRWD QE BP3 BP2 BP1 BP0 WEL WIP. Bit 3 of the configuration register, which 15h
reads (except on MX25L6405D), is TB. 4Bh reads no unique ID. On chips with QPI mode, 35h enters this mode, and F5h
leaves it (but not in the model).
"""
from chips.common import BASE, ERASES, M8, M16, RESET, SFDP, WRITE_2, sleeps
from models import Description, by_blocks
from sfdp import BY_35, BY_F5, K4, K32, K64, QE_IN_STATUS_1, Modes, Table, basic, build

TYPES = (K4, K32, K64)
OPCODES = {**BASE, **ERASES, **SFDP, **WRITE_2, **RESET, 0x15: ("status", 1)}
QPI = {0x35: ("qpi",)}
# This is the maker's own parameter table: four double words at 60h, with voltages and features.
OWN = Table(0x00C2, (1, 0), 0x60, (0x27003600, 0xF99C, 0xC8D967FF, 0xFFFFFFFF))
SECTIONS = ("Command Set", "Status Register", "Configuration Register", "Read SFDP Mode", "Quad Peripheral Interface")


def one(name, number, size, wake, opcodes, sfdp, **chosen):
    known = {at: it for at, it in {**OPCODES, **opcodes, **sleeps(wake)}.items() if it}
    return Description(name, "Macronix", bytes.fromhex(number), size, sfdp, known,
                       SECTIONS, **{"writable": (0xFC, 0x08, 0), "once": (0, 0x08, 0),
                                    "protected": by_blocks((2, 3, 4, 5), 3, 1), **chosen})


def first(size, **modes):
    """Returns the SFDP of a chip with JESD216: the basic table has nine double words at 30h."""
    return build(0, basic(size, TYPES, Modes(**modes)), OWN)


def later(size, **modes):
    """Returns the SFDP of a chip with JESD216B.

    The basic table has 16 double words, and says that QE is bit 6 of status 1.
    """
    return build(6, basic(size, TYPES, Modes(**modes), minor=6, at=0x30, quad=QE_IN_STATUS_1), OWN._replace(at=0x80))


CHIPS = (
    # This chip has no QPI mode, so 35h isn't one of its commands.
    one("MX25L6436F", "c22017", M8, 0x16, {}, first(M8)),
    one("MX25L12835F", "c22018", M16, 0x17, QPI, first(M16, has_qpi=True)),
    # On this chip QE is always 1.
    one("MX25L12873G", "c22018", M16, 0x17, QPI, later(M16, has_qpi=True, enters=BY_35, leaves=BY_F5),
        registers=(0x40, 0, 0), writable=(0xBC, 0x08, 0)),
    # This chip needs a supply of 1.8 V.
    one("MX25U6435F", "c22537", M8, 0x37, QPI, first(M8, has_qpi=True)),
    # This chip is older than JESD216, so it has no SFDP.
    one("MX25L6405D", "c22017", M8, 0x16, {0x5A: None, 0x15: None, 0x66: None, 0x99: None, 0x01: ("write", (0,)),
                                          0x52: None, 0x20: ("erase", 4096)}, b""),
    # This is an SPI NAND chip. It returns its ID after a dummy byte, and 0Fh reads its status. It has neither 05h nor
    # SFDP. The model has only 1 MiB of its data, which no case reads.
    Description("MX35LF1GE4AB", "Macronix", bytes.fromhex("c212"), M8 // 8, b"", {0x9F: ("id", 2)},
                ("Command Set", "Read ID", "Get Feature")),
)
