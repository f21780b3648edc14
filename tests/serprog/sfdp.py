"""This module builds SFDP bytes from their fields, with the names of JESD216 (2011), JESD216A and JESD216B.

A table is a list of double words. Bits and double words have the numbers of the standard. All values were written from
memory.
"""
from typing import NamedTuple

BASIC, SECTOR_MAP = 0xFF00, 0xFF81
# The basic table has nine double words in JESD216, and sixteen in JESD216A and JESD216B.
FIRST, LATER = 9, 16
# These values are the quad enable requirements (double word 15, bits 22 to 20). The chip has no QE (000b), or QE is bit
# 6 of status 1 (010b). Otherwise QE is bit 1 of status 2: a status write of one byte clears status 2 (001b) or keeps it
# (100b), or 35h reads status 2, and it is written by 01h with two bytes (101b) or by 31h (110b).
NO_QE, QE_CLEARED, QE_IN_STATUS_1, QE_KEPT, QE_BY_01, QE_BY_31 = 0b000, 0b001, 0b010, 0b100, 0b101, 0b110
# These values say how 4-4-4 mode (QPI) is entered (double word 15, bits 8 to 4), and how it is left (bits 3 to 0).
BY_38, BY_35 = 0b00010, 0b00100
BY_FF, BY_F5, BY_RESET = 0b0001, 0b0010, 0b1000
# An erase type has the binary logarithm of its length, and its opcode.
K4, K32, K64 = (12, 0x20), (15, 0x52), (16, 0xD8)


class Table(NamedTuple):
    """This is a parameter table: its ID, its major and minor revision, its address, and its double words."""

    number: int
    revision: tuple
    at: int
    words: tuple


class Modes(NamedTuple):
    """These are fields of double words 1, 5, 7, 15 and 16 that differ between the chips in chips/."""

    has_qpi: bool = False
    enters: int = 0
    leaves: int = 0
    # `is_uniform` says whether 4 KiB erases reach the whole chip (double word 1, bits 1 and 0). `opcode` is the opcode
    # of the 4 KiB erase.
    is_uniform: bool = True
    opcode: int = 0x20
    # Addresses have three bytes (00b), three or four (01b), or four (10b).
    addresses: int = 0


def build(minor, *tables):
    """Returns SFDP bytes: the header with the revision 1.`minor`, the parameter headers, and the tables.

    Gaps contain FFh.
    """
    found = bytearray(b"SFDP" + bytes([minor, 1, len(tables) - 1, 0xFF]))
    for it in tables:
        major, low = it.revision
        found += bytes([it.number & 0xFF, low, major, len(it.words)]) + it.at.to_bytes(3, "little")
        found.append(it.number >> 8)
    for it in tables:
        content = b"".join(word.to_bytes(4, "little") for word in it.words)
        found = found.ljust(it.at, b"\xff")
        found[it.at : it.at + len(content)] = content
    return bytes(found)


def basic(size, types, modes=Modes(), minor=0, at=0x30, quad=None):
    """Returns the basic table.

    It has sixteen double words if quad enable requirements are given, and otherwise nine.
    """
    words = [word_1(modes), density(size), 0x6B08EB44, 0xBB803B08,
             0xFFFFFFEE | modes.has_qpi << 4, 0xFF00FFFF, 0xEB44FFFF if modes.has_qpi else 0xFF00FFFF,
             *erase_types(types)]
    if quad is not None:
        words += [word_10(types), word_11(), 0x4E8C8D8C, 0x757A757A, word_14(), word_15(modes, quad), word_16(modes)]
    return Table(BASIC, (1, minor), at, tuple(words))


def density(size):
    """Returns double word 2: the size in bits, minus one."""
    return 8 * size - 1


def word_1(modes):
    """Returns double word 1: a write granularity of at least 64 bytes, and fast reads with two and four lines."""
    reads = 0b11110001 | modes.addresses << 1
    return (0b01 if modes.is_uniform else 0b11) | 1 << 2 | 0b111 << 5 | modes.opcode << 8 | reads << 16 | 0xFF << 24


def erase_types(types):
    """Returns double words 8 and 9, which have four erase types.

    A missing one has the exponent 0 and the opcode FFh.
    """
    pairs = [exponent | opcode << 8 for exponent, opcode in types] + [0xFF00] * (4 - len(types))
    return pairs[0] | pairs[1] << 16, pairs[2] | pairs[3] << 16


def word_10(types):
    """Returns double word 10: typical erase times of 48, 128 and 256 ms, and at most eight times as long."""
    typical = {12: 2 | 1 << 5, 15: 7 | 1 << 5, 16: 15 | 1 << 5}
    found = 3
    for place, (exponent, _) in enumerate(types):
        found |= typical.get(exponent, 0x7F) << (4 + 7 * place)
    return found


def word_11():
    """Returns double word 11: pages of 256 bytes, which are programmed in 0.7 ms, and a chip erase of 40 s."""
    return 2 | 8 << 4 | (10 | 1 << 5) << 8 | 0b10100 << 14 | 0b00010 << 19 | (9 | 0b10 << 5) << 24


def word_14():
    """Returns double word 14: BUSY is bit 0 of 05h. B9h enters deep power-down, and ABh leaves it."""
    return 1 << 2 | 2 << 8 | 1 << 13 | 0xAB << 15 | 0xB9 << 23


def word_15(modes, quad):
    """Returns double word 15 with these quad enable requirements."""
    return modes.leaves | modes.enters << 4 | quad << 20 | 0xFF << 24


def word_16(modes):
    """Returns double word 16: 50h enables writes of volatile bits of status 1, and 66h and 99h reset the chip.

    If addresses may have four bytes, B7h enters 4-byte addresses.
    """
    return 0b0001000 | 1 << 12 | (0b0000000001 << 14 | 1 << 24) * bool(modes.addresses)


def detect(opcode, mask, is_end=False):
    """Returns a configuration detection command of a sector map. It sends no address and no dummy bytes.

    `mask` selects the bit of the reply that tells configurations apart.
    """
    return mask << 24 | 0b11 << 20 | opcode << 8 | 0x3F << 2 | is_end, 0xFFFFFFFF


def regions(number, lengths_and_types, is_end=False):
    """Returns the map of one configuration: the length of each region, and a mask of the region's erase types."""
    head = 0xFF << 24 | (len(lengths_and_types) - 1) << 16 | number << 8 | 0x3F << 2 | 1 << 1 | is_end
    return head, *((length // 256 - 1) << 8 | 0xF << 4 | types for length, types in lengths_and_types)
