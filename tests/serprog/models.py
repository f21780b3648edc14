"""A model of a SPI NOR chip, and the type of its description: which opcodes a chip knows, and what each of them does.

The rules come from JESD216 and from the datasheets that a description names, not from docs/SPECIFICATION.md. A
transaction is the bytes sent, and then received, while CS# is low. The chip gets 00h while the programmer receives, so
a page program that also receives bytes programs zeros. If the chip ignores a transaction, the line to the programmer
floats. The transaction is appended to `ignored`, except if it receives bytes and its action isn't in CHANGING.
"""
import random
from typing import NamedTuple

BUSY, WEL = 0x01, 0x02
# How many reads of status 1 show BUSY after a status write, a program and an erase.
SAMPLES = {"write": 3, "program": 2, "erase": 5}


def by_parts(registers, size):
    """Returns the protected range for SEC, TB and BP2 to BP0 of status 1, and CMP of status 2 (Winbond and others).

    Without SEC, the smallest range is a 64th of the chip, but at least 64 KiB (a 32nd of W25Q16JV).
    """
    sec, tb, bp = registers[0] >> 6 & 1, registers[0] >> 5 & 1, registers[0] >> 2 & 7
    length = [0, 1, 2, 4, 8, 8, 8, 0][bp] * 4096 if sec else min(size, max(size // 64, 65536) * (1 << bp >> 1))
    if bp == 7 or (bp == 6 and sec):
        return (0, 0) if registers[1] & 0x40 and bp == 7 else (0, size)
    at_start = (0, length) if tb else (size - length, size)
    if not registers[1] & 0x40:
        return at_start
    return (length, size) if tb else (0, size - length)


def by_blocks(bits, top_bit=None, register=0):
    """Returns a function that returns the protected range of chips of Macronix, Micron, ISSI and Eon.

    The range has 2^(BP-1) blocks of 64 KiB, or no block if BP is 0, and at most the whole chip. `bits` are the
    positions of BP0, BP1 and so on in status 1. The range is at the end of the chip, or at its start if the bit
    `top_bit` of the register `register` is set.
    """
    def protected(registers, size):
        bp = sum((registers[0] >> at & 1) << place for place, at in enumerate(bits))
        length = min(size, (1 << bp >> 1) * 65536)
        at_start = top_bit is not None and registers[register] >> top_bit & 1
        return (0, length) if at_start else (size - length, size)
    return protected


def by_sixty_fourths(registers, size):
    """Returns the protected range for BP2 to BP0, and TBPROT in bit 5 of the configuration register (S25FL128S)."""
    length = size * [0, 1, 2, 4, 8, 16, 32, 64][registers[0] >> 2 & 7] // 64
    return (0, length) if registers[1] & 0x20 else (size - length, size)


def with_own_locks(registers, size):
    """Returns the whole chip if bit 2 of status 3 is set, else the range of `by_parts`.

    The bit (WPS of Winbond) says that each block has its own lock, and here all blocks are then locked.
    """
    return (0, size) if registers[2] & 0x04 else by_parts(registers, size)


class Description(NamedTuple):
    """The facts about a chip from its datasheet. `sources` names the sections.

    `opcodes` maps an opcode to its action: the name of a method of `Model` without `do_`, and its last arguments. The
    three registers are status 1, status 2 or the configuration register, and status 3. `registers` are their values
    from the factory, `writable` the bits that a status write changes, and `once` the bits that it can only set. A
    refused program sets the bits `errors[0]` of status 1, and a refused erase `errors[1]`; if there are any, the chip
    then stays busy. `idle` are the opcodes that a busy chip carries out, too.
    """

    name: str
    maker: str
    id: bytes
    size: int
    sfdp: bytes
    opcodes: dict
    sources: tuple
    registers: tuple = (0, 0, 0)
    writable: tuple = (0xFC, 0, 0)
    once: tuple = (0, 0, 0)
    # The bytes after the ID in the reply to 9Fh. `None` means that the ID is repeated.
    after_id: bytes = None
    unique: bytes = b""
    protected: object = by_parts
    has_srp1: bool = False
    errors: tuple = (0, 0)
    # The bits of status 1 that are set while the chip is busy, and the bits of each register that are set after
    # power-up.
    busy: int = BUSY
    power_up: tuple = (0, 0, 0)
    leaves_qpi: tuple = ()
    idle: tuple = (0x05,)


class Model:
    """A chip with a description `it` and its data. `floating` (FFh or 00h) is received if nothing drives the line."""

    def __init__(self, it, data, registers=None, floating=0xFF, wp_low=False):
        if len(data) != it.size:
            raise ValueError(f"the image has {len(data)} bytes, and the chip {it.size}")
        self.it, self.data, self.floating, self.wp_low = it, bytearray(data), floating, wp_low
        self.size = it.size
        self.status = bytearray(registers or it.registers)
        self.wel = self.is_asleep = self.is_in_qpi = self.is_armed = self.has_four = self.is_stuck = False
        # The number of lines of a continuous read (2 or 4), or 0 if none is in progress.
        self.lines = 0
        # `late` is the number of reads of status 1 that still show WEL after an operation has ended, and `shows` the
        # number of those that are left, or `None`. A chip that shows each bit as it is when the bit is sent has one
        # such read if the operation ends between WEL and BUSY of a byte.
        self.late, self.shows = 0, None
        # `left` is the number of reads of status 1 that still show BUSY. Until it is 0, `changing` is the address and
        # the former bytes of a program or an erase, and `writing` the registers before a status write.
        self.left, self.changing, self.writing, self.is_erase = 0, None, None, False
        self.ignored, self.chance = [], random.Random(it.name)
        self.count_anew()

    def count_anew(self):
        """Resets the number of operations and the number of polls after the last operation."""
        self.operations = self.polls = 0

    def lose_power(self):
        """Interrupts the operation in progress, and sets volatile bits, except error bits, to their power-up values."""
        self.tear()
        if self.it.has_srp1 and not self.status[0] & 0x80:
            self.status[1] &= ~1
        for register, bits in enumerate(self.it.power_up):
            self.status[register] |= bits
        self.wel = self.is_asleep = self.is_in_qpi = self.is_armed = self.has_four = self.is_stuck = False
        self.lines, self.shows = 0, None

    def tear(self):
        """Interrupts the operation in progress.

        An erase leaves random bytes. A program or a status write has changed only some of its bits.
        """
        if self.left and self.changing:
            start, before = self.changing
            after = self.data[start : start + len(before)]
            some = self.chance.randbytes(len(before))
            self.data[start : start + len(before)] = some if self.is_erase else bytes(
                new | old & bits for old, new, bits in zip(before, after, some))
        if self.left and self.writing:
            for at, old in enumerate(self.writing):
                bits = self.chance.randrange(256)
                self.status[at] = old & ~bits | self.status[at] & bits
        self.left, self.changing, self.writing = 0, None, None

    def is_busy(self):
        return self.left > 0 or self.is_stuck

    def transfer(self, out, replies):
        """Carries out one transaction, and returns the bytes that the programmer receives."""
        if out[:1] == b"\x05":
            self.polls += 1
        if self.is_in_qpi:
            return self.in_qpi(out, replies)
        if self.lines:
            return self.in_continuous_read(out, replies)
        action = self.it.opcodes.get(out[0]) if out else None
        was_armed, self.is_armed = self.is_armed, False
        if not action or self.is_asleep and action[0] != "wake" or self.is_busy() and out[0] not in self.it.idle:
            return self.ignore(out, replies)
        if action[0] == "reset" and not was_armed:
            return self.ignore(out, replies)
        return getattr(self, f"do_{action[0]}")(out, replies, *action[1:])

    def ignore(self, out, replies):
        if not replies or action_of(self.it, out) in CHANGING:
            self.ignored.append(bytes(out))
        return bytes([self.floating]) * replies

    def in_qpi(self, out, replies):
        """Receives a transaction in QPI mode, in which each clock carries four bits.

        WP# and HOLD# are high, the line to the programmer floats, and the line from the programmer has the bit sent.
        The first two bits sent are therefore the lowest bits of the two digits of the opcode. An opcode of
        `leaves_qpi` ends the mode.
        """
        digits = [0xC | (self.floating & 1) << 1 | out[0] >> at & 1 for at in (7, 6)]
        if digits[0] << 4 | digits[1] in self.it.leaves_qpi:
            self.is_in_qpi = False
        return self.ignore(out, replies)

    def in_continuous_read(self, out, replies):
        """Receives an address and mode bits, and returns data, all on two or four lines (W25Q64FV: BBh, EBh).

        The first line has the bits sent (0 while the programmer receives). The second line floats until the data
        begins. WP# and HOLD# are high. If mode bits 5 and 4 aren't 1 and 0, the continuous read ends with this
        transaction.
        """
        lines, floats = self.lines, self.floating & 1
        sent = [byte >> at & 1 for byte in out + bytes(replies) for at in range(7, -1, -1)]
        mode = 24 // lines + (lines == 2)
        if len(sent) > mode and (floats, sent[mode]) != (1, 0):
            self.lines = 0
        address = 0
        for bit in sent[: 24 // lines]:
            address = address << lines | ((0b1100 | floats << 1 | bit) & ((1 << lines) - 1))
        shown, header = [], 32 // lines + 4 * (lines == 4)
        for clock in range(8 * len(out), len(sent)):
            place, part = divmod(clock - header, 8 // lines)
            byte = self.data[(address + place) % self.size]
            shown.append(byte >> (7 - lines * part - (lines - 2)) & 1 if clock >= header else floats)
        return bytes(sum(bit << 7 - at for at, bit in enumerate(shown[it : it + 8])) for it in range(0, len(shown), 8))

    def stream(self, out, replies, header, byte_at):
        """Returns the reply to a transaction whose data begins after a header of this length. Before, the line floats.

        `byte_at(at, count)` returns `count` bytes of the data, from the position `at` on.
        """
        early = min(replies, max(0, header - len(out)))
        return bytes([self.floating]) * early + byte_at(max(0, len(out) - header), replies - early)

    def address(self, sent):
        """Returns the address in a transaction: three bytes, or four in four-byte mode, modulo the chip's size."""
        return int.from_bytes(sent[1 : 5 if self.has_four else 4], "big") % self.size

    def do_id(self, out, replies, header=1):
        rest = self.it.after_id if self.it.after_id is not None else self.it.id * (replies + len(out))
        found = self.it.id + rest
        return self.stream(out, replies, header, lambda at, count: found[at : at + count].ljust(
            count, bytes([self.floating])))

    def do_status(self, out, replies, register):
        """Returns a register, which is read again for each byte. Each read of status 1 shortens the busy time."""
        found = bytearray()
        for _ in range(len(out) - 1 + replies):
            value = self.status[register]
            if register == 0:
                was_busy = self.is_busy()
                value = value & 0xFC | self.it.busy * was_busy | WEL * self.wel
                self.left = max(0, self.left - 1)
                if not self.is_busy():
                    self.changing = self.writing = None
                    self.end(was_busy)
            found.append(value)
        return bytes(found[len(out) - 1 :])

    def end(self, was_busy):
        """Clears WEL when the operation has ended and, after this, as many reads of status 1 as `late` showed WEL."""
        if was_busy:
            self.shows = self.late
        elif self.shows:
            self.shows -= 1
        if self.shows == 0:
            self.wel, self.shows = False, None

    def do_data(self, out, replies, header=4):
        start = self.address(out + bytes(replies))
        def data(at, count):
            begin = (start + at) % self.size
            found = bytes(self.data[begin : begin + count])
            return found if len(found) == count else found + data(at + len(found), count - len(found))
        return self.stream(out, replies, header + self.has_four, data)

    def do_sfdp(self, out, replies):
        start = int.from_bytes((out + bytes(replies))[1:4], "big")
        return self.stream(out, replies, 5, lambda at, count: self.it.sfdp[start + at :][:count].ljust(count, b"\xff"))

    def do_unique(self, out, replies, header=5, addressed=False):
        """Returns the unique ID, or the one-time area from the sent address on. The bytes repeat at the end."""
        start = int.from_bytes((out + bytes(replies))[1:4], "big") if addressed else 0
        found = self.it.unique
        return self.stream(out, replies, header, lambda at, count: bytes(
            found[(start + at + place) % len(found)] for place in range(count)))

    def do_wake(self, out, replies, number):
        self.is_asleep = False
        return self.stream(out, replies, 4, lambda at, count: bytes([number]) * count)

    def alone(self, out, replies):
        """Returns whether the transaction is only an opcode. If it isn't, the chip ignores the transaction."""
        if len(out) == 1 and not replies:
            return True
        self.ignore(out, 0)
        return False

    def do_sleep(self, out, replies):
        self.is_asleep = self.alone(out, replies)
        return bytes([self.floating]) * replies

    def do_latch(self, out, replies, is_set):
        if self.alone(out, replies):
            self.wel, self.shows = is_set, None
        return bytes([self.floating]) * replies

    def do_qpi(self, out, replies):
        """Enters QPI mode after the opcode. The chip ignores the rest of the transaction."""
        self.is_in_qpi = True
        return bytes([self.floating]) * replies

    def do_arm(self, out, replies):
        self.is_armed = self.alone(out, replies)
        return bytes([self.floating]) * replies

    def do_reset(self, out, replies):
        if self.alone(out, replies):
            self.lose_power()
        return bytes([self.floating]) * replies

    def do_four(self, out, replies, is_set):
        if self.alone(out, replies):
            self.has_four = is_set
        return bytes([self.floating]) * replies

    def do_clear(self, out, replies):
        """Clears WEL and the error bits of a refused operation, which ends the busy state (30h of S25FL128S)."""
        if self.alone(out, replies):
            self.status[0] &= ~(self.it.errors[0] | self.it.errors[1])
            self.is_stuck = self.wel = False
        return bytes([self.floating]) * replies

    def do_write(self, out, replies, registers, clears=False):
        """Writes the sent bytes (then 00h if `clears`) to the writable bits of `registers`. `once` bits stay set."""
        sent = out[1:] + bytes(replies)
        locked = self.status[0] & 0x80 and self.wp_low or self.it.has_srp1 and self.status[1] & 1
        if not self.wel or locked or not 1 <= len(sent) <= len(registers):
            return self.ignore(out, replies)
        self.writing = bytes(self.status)
        for register, value in zip(registers, sent + bytes(len(registers) - len(sent)) * clears):
            mask, once = self.it.writable[register], self.it.once[register]
            old = self.status[register]
            self.status[register] = old & ~mask | value & mask | old & once
        self.begin("write")
        return bytes([self.floating]) * replies

    def do_program(self, out, replies):
        sent, header = out + bytes(replies), 4 + self.has_four
        if not self.wel or len(sent) <= header:
            return self.ignore(out, replies)
        start = self.address(sent)
        page = start - start % 256
        new = bytearray(b"\xff" * 256)
        for place, value in enumerate(sent[header:]):
            new[(start + place) % 256] = value
        old = self.data[page : page + 256]
        self.change(out, page, bytes(one & other for one, other in zip(old, new)), False)
        return bytes([self.floating]) * replies

    def do_erase(self, out, replies, length, first=0, after=1 << 32):
        """Erases the block of an address. An erase of an address below `first`, or not below `after`, is ignored."""
        start = self.address(out)
        if not self.wel or len(out) != 4 + self.has_four or replies or not first <= start < after:
            return self.ignore(out, replies)
        self.change(out, start - start % length, b"\xff" * length, True)
        return b""

    def do_erase_in(self, out, replies, lengths):
        """Erases the block of an address. `lengths` has the end of each region, and the length of its blocks."""
        address = self.address(out)
        return self.do_erase(out, replies, next(length for after, length in lengths if address < after))

    def do_unlock(self, out, replies):
        """Unlocks each block until the next power-up (98h)."""
        if not self.wel or len(out) != 1 or replies:
            return self.ignore(out, replies)
        self.status[2] &= ~0x04
        self.wel = False
        return b""

    def do_chip_erase(self, out, replies):
        if not self.wel or len(out) != 1 or replies:
            return self.ignore(out, replies)
        self.change(out, 0, b"\xff" * self.size, True)
        return b""

    def change(self, out, start, new, is_erase):
        """Stores bytes, unless one of their addresses is protected. If one is, sets the chip's error bits."""
        first, after = self.it.protected(self.status, self.size)
        if max(start, first) < min(start + len(new), after):
            self.ignore(out, 0)
            self.status[0] |= self.it.errors[is_erase]
            self.is_stuck = bool(self.it.errors[is_erase])
            return
        self.changing, self.is_erase = (start, bytes(self.data[start : start + len(new)])), is_erase
        self.data[start : start + len(new)] = new
        self.begin("erase" if is_erase else "program")

    def begin(self, kind):
        """Starts an operation. A number of reads of status 1 show BUSY, and then WEL is cleared."""
        self.operations, self.polls = self.operations + 1, 0
        self.left = SAMPLES[kind]


# The actions, except `wake`, that change the chip or how the chip takes the next transactions.
CHANGING = ("latch", "write", "program", "erase", "erase_in", "unlock", "chip_erase", "sleep", "qpi", "arm", "reset",
            "four", "clear")


def action_of(it, out):
    """Returns the name of the action of the transaction `out`, or `None` if the chip doesn't know the opcode."""
    return it.opcodes[out[0]][0] if out and out[0] in it.opcodes else None
