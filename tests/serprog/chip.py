"""Models of SPI NOR chips for the tests of flashnor-serprog, written from the datasheets of W25Q64FV and W25Q128FV.

TINY64 has 64 KiB, an ID that isn't in the program's table of chips, SFDP (JESD216) and no block protection. GUARD64 is
like TINY64, but has another ID, and block protection as most real chips outside that table do. The models leave out
what flashnor and flashrom don't need: quad and dual reads, suspend, security registers, reset.
"""
import random
import time
from typing import NamedTuple

PAGE, SECTOR = 256, 4096
BUSY, WEL = 0x01, 0x02
SRP0, TB, SEC = 0x80, 0x20, 0x40
SRP1, CMP, ONCE = 0x01, 0x40, 0x38
ERASES = {0x20: 4096, 0x52: 32768, 0xD8: 65536}
# The unique ID of a chip if the case gives no other unique ID.
DEVICE = bytes.fromhex("5ad1c3970b4e8f26")
READ_ID, READ_SFDP, READ_UNIQUE, READ_DATA = 0x9F, 0x5A, 0x4B, 0x03
WAKE, POWER_DOWN = 0xAB, 0xB9

# The typical durations of the operations by their opcode, in seconds (datasheets, AC characteristics). The duration of
# a chip erase depends on the chip (`Part.chip_erase`).
SECONDS = {0x01: 0.010, 0x02: 0.0007, 0x20: 0.045, 0x52: 0.120, 0xD8: 0.150}


class Part(NamedTuple):
    """The constant properties of a chip. `has_row` is true if the program's table of chips contains the ID.

    `chip_erase` is the duration of a chip erase in seconds.
    """

    id: bytes
    size: int
    has_row: bool
    has_protection: bool
    chip_erase: float


# Chips whose ID is in the table of flashnor-serprog, but that flashnor doesn't emulate. The duration of a chip erase is
# proportional to the size, as for W25Q64FV and W25Q128FV.
FURTHER = {
    name: Part(bytes.fromhex(number), size, True, True, chip_erase)
    for name, number, size, chip_erase in (
        ("W25Q32FV", "ef4016", 1 << 22, 10.0), ("W25Q32FW", "ef6016", 1 << 22, 10.0),
        ("W25Q64FW", "ef6017", 1 << 23, 20.0), ("W25Q128FW", "ef6018", 1 << 24, 40.0),
        ("W25Q32JV-M", "ef7016", 1 << 22, 10.0), ("W25Q64JV-M", "ef7017", 1 << 23, 20.0),
        ("W25Q128JV-M", "ef7018", 1 << 24, 40.0))}

# Other names of chips with an ID of the table (datasheets, Manufacturer and Device Identification). The names with a
# dot and the one with slashes are flashrom's (1.3.0, `flashrom -L`).
NAMES = {
    "W25Q32FV": ("W25Q32BV", "W25Q32CV", "W25Q32DV", "W25Q32JV", "W25Q32JV-Q", "W25Q32.V"),
    "W25Q64FV": ("W25Q64BV", "W25Q64CV", "W25Q64JV", "W25Q64JV-Q", "W25Q64JV-.Q", "W25Q64BV/W25Q64CV/W25Q64FV"),
    "W25Q128FV": ("W25Q128BV", "W25Q128JV", "W25Q128JV-Q", "W25Q128.V"),
    "W25Q32FW": ("W25Q32DW", "W25Q32JW-Q", "W25Q32.W"), "W25Q64FW": ("W25Q64DW", "W25Q64JW-Q", "W25Q64.W"),
    "W25Q128FW": ("W25Q128JW-Q", "W25Q128.W"), "W25Q64JV-M": ("W25Q64JV-.M",), "W25Q128JV-M": ("W25Q128.V..M",),
}

PARTS = {
    "W25Q64FV": Part(bytes.fromhex("ef4017"), 1 << 23, True, True, 20.0),
    "W25Q128FV": Part(bytes.fromhex("ef4018"), 1 << 24, True, True, 40.0),
    "TINY64": Part(bytes.fromhex("fe1010"), 1 << 16, False, False, 1.0),
    "GUARD64": Part(bytes.fromhex("fe1110"), 1 << 16, False, True, 1.0),
    **FURTHER,
}


def sfdp(size):
    """Returns SFDP bytes (JESD216): the header, the header of the basic table, and its double words 1 to 9."""
    headers = bytes.fromhex("53464450 000100ff 00000109 100000ff")
    density = (8 * size - 1).to_bytes(4, "little")
    return headers + bytes.fromhex("05200000") + density + bytes(20) + bytes.fromhex("0c200f52 10d80000")


def protected_range(status, size):
    """Returns the protected range for these status bytes: its first address, and the address after its last byte.

    The tables of the datasheets don't define SEC with BP 110. Here it protects the whole chip, whatever CMP is.
    """
    bp = status[0] >> 2 & 7
    if status[0] & SEC and bp == 6:
        return 0, size
    if bp in (0, 7):
        length = size if bp else 0
    elif status[0] & SEC:
        length = min(SECTOR << (bp - 1), 32768)
    else:
        length = size >> (7 - bp)
    border = length if status[0] & TB else size - length
    at_start = bool(status[0] & TB) != bool(status[1] & CMP)
    return (0, border) if at_start else (border, size)


class Chip:
    """A chip with its data and its two status bytes.

    `scale` multiplies the durations of the datasheet; if it is 0, only the operations in `slow` take time. `slow` maps
    the number of an operation to another duration. `wp_low` is true if WP# is low, so that SRP0 locks the status. While
    `is_asleep`, the chip is in deep power-down, and ignores each command except ABh. While `has_four`, it is in
    four-byte mode (W25Q256FV datasheet, Address Modes).

    `ignored` counts the transactions that receive no bytes and that the chip refused, and those that a busy chip
    ignored, but none in deep power-down. Reads of data or of the ID that a busy chip ignored count only after the first
    operation of a run, or after the first poll that receives two bytes.
    """

    def __init__(self, part, data=None, status=b"\0\0", unique=DEVICE, scale=0.0, wp_low=True):
        self.part = PARTS[part]
        self.size = self.part.size
        self.data = bytearray(data if data is not None else b"\xff" * self.size)
        if len(self.data) != self.size:
            raise ValueError(f"the image has {len(self.data)} bytes, and the chip {self.size}")
        self.status = bytearray(status)
        self.unique, self.scale, self.wp_low = unique, scale, wp_low
        self.wel, self.until, self.ignored, self.slow = False, 0.0, 0, {}
        self.is_asleep = self.has_four = False
        self.count_anew()
        # If the last transaction is a program or an erase, `in_progress` is the address and the former content of its
        # page or block. If it is a status write, `status_in_progress` is the former status bytes.
        self.in_progress = self.status_in_progress = None
        # Maps the address of each marginal byte to two values. Each read returns one of them at random.
        self.marginal, self.chance = {}, random.Random(0)

    def count_anew(self):
        """Resets `has_begun`, and the counts of operations (programs, erases, status writes) and of later polls."""
        self.operations, self.polls, self.has_begun = 0, 0, False

    def is_busy(self):
        if self.until and time.monotonic() >= self.until:
            self.until, self.wel = 0.0, False
        return self.until > 0

    def wait(self):
        """Waits until no operation is in progress."""
        while self.is_busy():
            time.sleep(max(0.0, self.until - time.monotonic()))

    def lose_power(self, fill=0x5A, marginal=None, torn=0):
        """Interrupts the operation of the last transaction. Afterwards WEL is clear, and so is SRP1 unless SRP0 is set.

        All bytes of the page or block of a program or erase become `fill`. If `marginal` is given, up to this number of
        changed bytes become marginal instead, and the others are as after the operation. An interrupted status write
        has written only the bits of `torn`, whose high byte is for status 1.
        """
        if self.in_progress:
            start, before = self.in_progress
            end = start + len(before)
            if marginal is None:
                self.data[start:end] = bytes([fill]) * len(before)
            else:
                changed = [at for at in range(start, end) if self.data[at] != before[at - start]]
                for at in self.chance.sample(changed, min(marginal, len(changed))):
                    self.marginal[at] = before[at - start], self.data[at]
        if self.status_in_progress:
            old = int.from_bytes(self.status_in_progress, "big")
            new = int.from_bytes(self.status, "big")
            self.status[:] = (old & ~torn | new & torn).to_bytes(2, "big")
        if not self.status[0] & SRP0:
            self.status[1] &= ~SRP1
        self.wel, self.until, self.in_progress, self.status_in_progress = False, 0.0, None, None

    def transfer(self, out, replies):
        """Carries out one transaction, and returns the bytes that the programmer receives."""
        self.in_progress = self.status_in_progress = None
        opcode = out[0] if out else None
        if opcode == WAKE or self.is_asleep:
            self.is_asleep = self.is_asleep and opcode != WAKE
            return bytes([0xFF if self.is_asleep else self.part.id[2] - 1]) * replies
        if opcode == 0x05:
            self.polls += 1
            self.has_begun |= replies == 2
            # The chip repeats its status as long as it is read.
            return bytes(self.status[0] & 0xFC | BUSY * self.is_busy() | WEL * self.wel for _ in range(replies))
        if opcode == 0x35:
            return bytes([self.status[1]]) * replies
        if self.is_busy():
            self.ignored += opcode not in (READ_DATA, READ_ID) or self.operations > 0 or self.has_begun
        elif replies:
            return self.read(opcode, out, replies)
        elif opcode in (0x06, 0x04) and len(out) == 1:
            self.wel = opcode == 0x06
        elif opcode == POWER_DOWN and len(out) == 1:
            self.is_asleep = True
        elif not (self.wel and self.operate(opcode, out)):
            self.ignored += 1
        return b"\xff" * replies

    def read(self, opcode, out, replies):
        """Returns the reply to a transaction that reads an ID, SFDP or data. Other replies are FFh."""
        if opcode == READ_ID:
            found = self.part.id
        elif opcode == READ_UNIQUE and len(out) == 5:
            found = self.unique
        elif opcode == READ_SFDP and len(out) == 5:
            found = sfdp(self.size)[int.from_bytes(out[1:4], "big") :]
        elif opcode == READ_DATA and len(out) >= 4:
            return self.read_from(out, replies)
        else:
            found = b""
        return found[:replies].ljust(replies, b"\xff")

    def address(self, sent):
        """Returns the address in a transaction. An address byte that wasn't sent is 00h."""
        return int.from_bytes((sent + b"\0")[1 : 4 + self.has_four], "big") % self.size

    def read_from(self, out, replies):
        """Returns the reply to a read of data. Each byte sent after the address skips one byte of data."""
        early = min(replies, max(0, 4 + self.has_four - len(out)))
        skipped = max(0, len(out) - 4 - self.has_four)
        return b"\xff" * early + self.read_data((self.address(out) + skipped) % self.size, replies - early)

    def read_data(self, address, length):
        """Returns bytes of data. The byte after the last one of the chip is its first one."""
        found = self.data[address : address + length]
        for at, values in self.marginal.items():
            if address <= at < address + len(found):
                found[at - address] = self.chance.choice(values)
        while len(found) < length:
            found += self.data[: length - len(found)]
        return bytes(found)

    def operate(self, opcode, out):
        """Carries out a status write, a program or an erase, and returns whether the chip accepted it."""
        if opcode == 0x01 and len(out) in (2, 3):
            return self.write_status(out[1:])
        header = 4 + self.has_four
        if opcode == 0x02 and len(out) > header:
            return self.program(self.address(out), out[header:])
        if opcode in ERASES and len(out) == header:
            length = ERASES[opcode]
            start = self.address(out) & -length
            return self.change(opcode, start, b"\xff" * length)
        if opcode == 0xC7 and len(out) == 1:
            return self.change(opcode, 0, b"\xff" * self.size)
        return False

    def write_status(self, sent):
        """Writes the status bytes, unless they are locked. If only status 1 is sent, CMP, QE and SRP1 become 0."""
        if self.status[1] & SRP1 or (self.status[0] & SRP0 and self.wp_low):
            return False
        second = sent[1] if len(sent) == 2 else 0
        self.status_in_progress = bytes(self.status)
        self.status[0] = sent[0] & 0xFC
        self.status[1] = self.status[1] & ONCE | second & 0x7B
        self.begin(0x01)
        return True

    def program(self, address, sent):
        """Programs a page. Bits only change from 1 to 0.

        Addresses wrap at the end of the page, and the last byte sent for an address counts.
        """
        page = address & -PAGE
        wanted = bytearray(b"\xff" * PAGE)
        for offset, byte in enumerate(sent):
            wanted[(address + offset) % PAGE] = byte
        old = self.data[page : page + PAGE]
        return self.change(0x02, page, bytes(one & other for one, other in zip(old, wanted)), is_erase=False)

    def change(self, opcode, start, new, is_erase=True):
        """Stores bytes, unless one of their addresses is protected, and returns whether it stored them.

        Bytes that were marginal are no longer marginal after an erase.
        """
        end = start + len(new)
        if self.part.has_protection:
            first, after = protected_range(self.status, self.size)
            if start < after and first < end:
                return False
        self.in_progress = (start, bytes(self.data[start:end]))
        self.data[start:end] = new
        if is_erase and self.marginal:
            self.marginal = {at: values for at, values in self.marginal.items() if not start <= at < end}
        self.begin(opcode)
        return True

    def begin(self, opcode):
        """Starts an operation: sets BUSY for its duration. When the operation ends, WEL is cleared."""
        self.operations, self.polls = self.operations + 1, 0
        seconds = self.slow.get(self.operations, SECONDS.get(opcode, self.part.chip_erase) * self.scale)
        if seconds:
            self.until = time.monotonic() + seconds
        else:
            self.wel = False
