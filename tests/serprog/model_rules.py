"""Cases of models.py itself: how its chips respond to transactions, also to some that no program should send.

The program under test isn't run. The expected bytes come from the datasheets and, for SFDP, from JESD216.
"""
import sfdp
from bench import check
from chips import ALL
from models import Model

ENABLE, POLL, READ_ID = b"\x06", b"\x05", b"\x9f"


def erased(name, **chosen):
    it = ALL[name]
    return Model(it, b"\xff" * it.size, **chosen)


def send(chip, *transactions):
    for it in transactions:
        chip.transfer(it, 0)


def settle(chip):
    """Polls until the chip is ready, at most 100 times. Returns how many polls showed BUSY, and the last status."""
    for count in range(100):
        status = chip.transfer(POLL, 1)[0]
        if not status & 1:
            return count, status
    return 100, status


def wraps_a_page(start):
    """A page program wraps at the end of its page, only clears bits, and needs its own write enable."""
    chip = erased("GD25Q64C")
    send(chip, b"\x02\0\0\xfe\1\2\3")
    check("without WEL", bytes(chip.data[:0x200]), b"\xff" * 0x200)
    send(chip, ENABLE, b"\x02\0\0\xfe\1\2\3")
    check("BUSY and WEL", chip.transfer(POLL, 3), b"\x03\x03\x00")
    check("the page", (bytes(chip.data[0xFE:0x101]), chip.data[0]), (b"\1\2\xff", 3))
    send(chip, ENABLE, b"\x02\0\0\xfe\xf2")
    check("a read of a busy chip", chip.transfer(READ_ID, 3), b"\xff\xff\xff")
    settle(chip)
    check("the byte", chip.data[0xFE], 0)
    send(chip, b"\x20\0\0\0")
    check("an erase without WEL", chip.data[0], 3)
    check("what was ignored", len(chip.ignored), 2)


def reads_before_and_after_a_header(start):
    """If a read sends too few header bytes, its reply begins with the level of the floating line.

    If a read sends too many bytes, the first bytes of the data are skipped.
    """
    chip = erased("GD25Q64C", floating=0)
    check("too early", chip.transfer(b"\x5a\0\0", 4), b"\0\0SF")
    check("late", chip.transfer(b"\x5a\0\0\0\0\0\0", 2), b"DP")
    check("the last byte and the first", chip.transfer(b"\x03\x7f\xff\xff", 2), b"\xff\xff")
    send(chip, ENABLE)
    chip.transfer(b"\x02\0\0\0\x55", 2)
    check("a program with a reply", settle(chip), (2, 0))
    check("its bytes", bytes(chip.data[:4]), b"\x55\0\0\xff")


def stays_in_qpi(start):
    """35h enters QPI mode on some chips. A power-up ends this mode.

    On a chip with FFh in `leaves_qpi`, FFh ends this mode, too, if the line to the programmer, which floats, is high.
    """
    for name in "MX25L12835F", "IS25LP128", "MT25QL128":
        chip = erased(name)
        chip.transfer(b"\x35", 1)
        send(chip, ENABLE, b"\xc7", b"\xf5", b"\xff", b"\x66", b"\x99")
        check(f"the ID of {name}", (chip.is_in_qpi, chip.transfer(READ_ID, 3)), (True, b"\xff" * 3))
        chip.lose_power()
        check(f"the ID of {name}", chip.transfer(READ_ID, 3), chip.it.id)
    for level, stays in (0xFF, False), (0x00, True):
        chip = erased("EN25QH64", floating=level)
        send(chip, b"\x38", b"\xff")
        check("in QPI", chip.is_in_qpi, stays)
    for name in "MX25L6436F", "N25Q064A", "EN25QH64":
        chip = erased(name)
        check(f"35h to {name}", (chip.transfer(b"\x35", 1), chip.is_in_qpi), (b"\xff", False))


def reads_on(start):
    """In a continuous read, a chip takes each transaction for an address.

    FFh ends a continuous read with four lines, and FFh FFh one with two lines.
    """
    for lines, at, shown in (2, 0x2AAAAA, b"\xc3"), (4, 0x6EEEEE, b"\xf9"):
        chip = erased("W25Q64FV")
        # The line to the programmer has bits 7, 5, 3 and 1 of a byte with two lines, and bits 5 and 1 with four. It
        # floats before the data.
        chip.data[at : at + 2] = b"\xa5\x0f"
        chip.lines = lines
        check(f"the reply on one of {lines} lines", chip.transfer(b"\0\0"[: 4 // lines], 1), shown)
        check("the ID", (chip.transfer(b"\0\0\0\0", 3), chip.lines), (b"\xff\xff\xff", lines))
        send(chip, b"\xff")
        check("lines after FFh", chip.lines, lines % 4)
        send(chip, b"\xff\xff")
        check("the ID after FFh FFh", chip.transfer(READ_ID, 3), chip.it.id)
    chip.lines = 4
    chip.lose_power()
    check("the ID after power-up", chip.transfer(READ_ID, 3), chip.it.id)


def erases_by_region(start):
    """S25FL128S accepts 4 KiB erases only in its small sectors. D8h erases 8, 32 or 64 KiB of SST26VF064B."""
    for name, reached, ignored in ("S25FL128S", 0x1F000, 0x20000), ("S25FL128S-top", 0xFE0000, 0xFDF000):
        chip = Model(ALL[name], bytes(1 << 24))
        for at in reached, ignored:
            send(chip, ENABLE, b"\x20" + at.to_bytes(3, "big"))
            settle(chip)
        check(name, (chip.data.count(0xFF), chip.data[reached], len(chip.ignored)), (4096, 0xFF, 1))
    for at, length in (0x2000, 8192), (0x9000, 32768), (0x12345, 65536), (0x7F0000, 32768), (0x7FFFFF, 8192):
        chip = Model(ALL["SST26VF064B"], bytes(1 << 23))
        send(chip, ENABLE, b"\xd8" + at.to_bytes(3, "big"))
        check("while it is locked", chip.data.count(0xFF), 0)
        send(chip, b"\x98", ENABLE, b"\xd8" + at.to_bytes(3, "big"))
        check("BUSY in two bits", chip.transfer(POLL, 1), b"\x83")
        check(f"bytes erased at {at:x}", chip.data.count(0xFF), length)


def writes_registers(start):
    """A status write with one byte clears status 2 or keeps it, as the datasheet of the chip says.

    A chip ignores a status write with more bytes than it accepts.
    """
    for name, sent, wanted in (("W25Q64FV", b"\x01\x00", b"\0\0"), ("W25Q64JV", b"\x01\x00", b"\0\2"),
                               ("W25Q64JV", b"\x01\x1c\xff", b"\x1c\x7b"), ("GD25Q64C", b"\x01\x1c\0", b"\0\2"),
                               ("MX25L12873G", b"\x01\0", b"\x40\2"), ("W25Q64FV", b"\x01\0\0\0", b"\0\2")):
        chip = erased(name)
        chip.status[1] = 2
        send(chip, ENABLE, sent)
        settle(chip)
        check(f"{sent.hex()} to {name}", bytes(chip.status[:2]), wanted)
    chip = erased("W25Q64JV")
    chip.status[:2] = b"\0\x38"
    send(chip, ENABLE, b"\x01\0\0")
    settle(chip)
    check("bits that are never cleared", bytes(chip.status[:2]), b"\0\x38")


def protects_ranges(start):
    """The protected ranges are those of the datasheets' tables. After a refused erase, S25FL128S is busy until 30h."""
    for name, status, wanted in (
            ("W25Q64FV", b"\x04\0\0", (0x7E0000, 0x800000)), ("W25Q64FV", b"\x24\0\0", (0, 0x20000)),
            ("W25Q64FV", b"\x44\0\0", (0x7FF000, 0x800000)), ("W25Q64FV", b"\x24\x40\0", (0x20000, 0x800000)),
            ("W25Q64FV", b"\0\x40\0", (0, 0x800000)), ("W25Q64FV", b"\x1c\x40\0", (0, 0)),
            ("MX25L12835F", b"\x04\0\0", (0xFF0000, 0x1000000)), ("MX25L12835F", b"\x0c\x08\0", (0, 0x40000)),
            ("N25Q064A", b"\x40\0\0", (0, 0x800000)), ("N25Q064A", b"\x2c\0\0", (0, 0x40000)),
            ("W25Q128JV", b"\0\0\4", (0, 0x1000000)), ("S25FL128S", b"\x08\x20\0", (0, 0x80000))):
        first, after = ALL[name].protected(status, ALL[name].size)
        check(f"{name} with {status.hex()}", (first, after) if first < after else (0, 0), wanted)
    chip = Model(ALL["S25FL128S"], bytes(1 << 24), b"\x1c\0\0")
    send(chip, ENABLE, b"\xd8\x10\0\0")
    check("E_ERR, BUSY and WEL", (settle(chip)[0], chip.transfer(POLL, 1)), (100, b"\x3f"))
    send(chip, b"\x30")
    check("after 30h", (chip.transfer(POLL, 1), chip.data[0x100000]), (b"\x1c", 0))


def has_sfdp_of_the_standard(start):
    """The fields of the SFDP tables are at the positions that JESD216 defines."""
    words = [int.from_bytes(ALL["MX25L12873G"].sfdp[0x30 + 4 * at :][:4], "little") for at in range(16)]
    check("double words 1, 2, 8 and 9", (hex(words[0]), words[1], hex(words[7]), hex(words[8])),
          ("0xfff120e5", (1 << 27) - 1, "0x520f200c", "0xff00d810"))
    check("bits 22 to 20 of double word 15", words[14] >> 20 & 7, 0b010)
    check("bits 7 to 4 of double word 11", 1 << (words[10] >> 4 & 15), 256)
    found = ALL["S25FL128S"].sfdp
    check("the sector map's header", found[16:24].hex(), "81000108d00000ff")
    check("its small region", int.from_bytes(found[0xD0 + 12 : 0xD0 + 16], "little"), (0x20000 // 256 - 1) << 8 | 0xF3)
    check("bits 1 and 0 of double word 1", found[0x80] & 3, 3)
    check("double word 2 of 64 KiB", sfdp.density(1 << 16), 0x7FFFF)


CASES = [wraps_a_page, reads_before_and_after_a_header, stays_in_qpi, reads_on, erases_by_region, writes_registers,
         protects_ranges, has_sfdp_of_the_standard]
