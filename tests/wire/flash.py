"""Models an SPI NOR flash chip, as the instruction tables and timing diagrams of datasheets describe it.

A chip acts when CS# rises: `select` receives all bytes that were clocked in while CS# was low. The chip carries out an
instruction that changes something, except the release from power-down (ABh), only if CS# rises right after the last
byte of the instruction, as the datasheets demand.

`Flash` has no block protection, and only the status bits BUSY and WEL. `Winbond` (winbond.py) is a W25Q64FV.

Two sets record what a chip did. `once` has each one-time bit, SRP1 among them, that a status write set. `hit` has the
number of each sector that an erase or a program reached, and the text "security register" if one of these was changed.
"""
import copy

SECTOR, PAGE = 4096, 256
BUSY, WEL = 0x01, 0x02
# BLANK is the value of an erased byte, and of a byte that is read while no chip drives the data line. IDLE is the byte
# that a programmer sends while it only receives.
BLANK, IDLE = 0xFF, 0x00
BLOCKS = {0x20: 4096, 0x52: 32768, 0xD8: 65536}


def tables(size):
    """Returns the SFDP of a chip with this size: revision 1.0, with one table, which lists erases of 4, 32 and 64 KiB
    (JESD216, 6.4)."""
    header = b"SFDP" + bytes([0, 1, 0, 0xFF]) + bytes([0, 0, 1, 9, 0x10, 0, 0, 0xFF])
    words = [0xFF000000 | 0x20 << 8 | 0b101, 8 * size - 1, 0, 0, 0, 0, 0, 0x520F200C, 0x0000D810]
    return header + b"".join(it.to_bytes(4, "little") for it in words)


class Flash:
    """A chip of 64 KiB, which programs can identify only by its SFDP. After each operation, BUSY is set in the next
    `polls` reads of status 1."""

    id = bytes.fromhex("fe1010")
    size = 1 << 16

    def __init__(self, data, unique=b"\x11\x22\x33\x44\x55\x66\x77\x88", polls=1):
        if len(data) != self.size:
            raise ValueError(f"the chip has {self.size} bytes")
        self.data, self.unique, self.polls = bytearray(data), bytes(unique), polls
        self.once, self.hit, self.done = set(), set(), []
        self.tables = tables(self.size)
        self.latch = self.asleep = self.deaf = self.armed = False
        self.busy = 0
        self.replies = {
            # The chip repeats its status byte as long as CS# is low (W25Q64FV datasheet, Read Status Register).
            0x9F: (1, lambda _: self.id), 0x05: (1, lambda _: bytes([self.status()]) * self.wanted),
            0x03: (4, self.read), 0x0B: (5, self.read), 0x5A: (5, self.sfdp), 0x4B: (5, lambda _: self.unique),
            0x90: (4, self.maker), 0xAB: (4, lambda _: self.device() * 8)}
        self.orders = {
            0x06: ((1,), self.enable), 0x04: ((1,), self.disable), 0x02: (range(5, 1 << 24), self.program),
            0xC7: ((1,), self.wipe), 0x60: ((1,), self.wipe), 0xB9: ((1,), self.sleep), 0x66: ((1,), self.arm),
            0x99: ((1,), self.reset), **{it: ((4,), self.erase) for it in BLOCKS}}

    def state(self):
        """Returns a copy of the chip's state, for `put_back`."""
        return {name: copy.deepcopy(it) for name, it in vars(self).items() if name not in ("replies", "orders")}

    def put_back(self, state):
        vars(self).update(copy.deepcopy(state))

    def cut_power(self):
        """Cuts the chip's power, and restores it."""
        self.latch = self.asleep = self.deaf = self.armed = False
        self.busy = 0

    def select(self, out, replies):
        """Carries out the instruction `out`, which was clocked in while CS# was low. Returns the bytes that the chip
        clocks out after it; their number is `replies`."""
        blank = bytes([BLANK]) * replies
        if not out + blank or self.deaf:
            return blank
        code = out[0] if out else IDLE
        if code == 0xAB:
            self.asleep = False
        if self.asleep or self.busy and code not in (0x05, 0x35):
            return blank
        was_armed, self.armed = self.armed, False
        if code in self.replies and replies:
            return self.reply(code, out, replies)
        if code in self.orders:
            lengths, order = self.orders[code]
            # The clocks of a reply count too: if `replies` isn't 0, CS# doesn't rise right after the last byte of
            # `out`.
            if len(out) + replies in lengths:
                self.armed = was_armed and code == 0x99
                self.done.append(bytes(out[:8]))
                order(bytes(out) + bytes([IDLE]) * replies)
        return blank

    def reply(self, code, out, replies):
        """Returns the reply to the instruction `out` with the opcode `code`. If `out` is too short, the chip takes the
        first clocks of the reply as the missing bytes."""
        begins, source = self.replies[code]
        lacks = max(0, begins - len(out))
        words = (bytes(out) + bytes([IDLE]) * lacks)[:begins]
        skipped = max(0, len(out) - begins)
        self.wanted = skipped + replies
        found = source(words)
        found += bytes([BLANK]) * (skipped + replies - len(found))
        found = (bytes([BLANK]) * lacks + found[skipped:])[:replies]
        if code == 0x05 and self.busy:
            self.busy -= 1
            self.latch = self.latch and self.busy > 0
        return found

    @staticmethod
    def address(out):
        return int.from_bytes(out[1:4], "big")

    def status(self):
        return BUSY * (self.busy > 0) | WEL * self.latch

    def registers(self):
        """Returns the non-volatile status bytes. `Flash` has none, so both are 0."""
        return 0, 0

    def read(self, out):
        at = self.address(out) % self.size
        found = bytes(self.data[at : at + self.wanted])
        while len(found) < self.wanted:
            found += bytes(self.data[: self.wanted - len(found)])
        return found

    def sfdp(self, out):
        return self.tables[self.address(out) :]

    def device(self):
        return bytes([0x0F])

    def maker(self, _):
        return (self.id[:1] + self.device()) * 8

    def enable(self, _):
        self.latch = True

    def disable(self, _):
        self.latch = False

    def sleep(self, _):
        self.asleep = True

    def arm(self, _):
        self.armed = True

    def reset(self, _):
        if self.armed:
            self.cut_power()

    def is_locked(self, begin, end):
        """Returns whether the chip refuses to erase or program the range from `begin` to `end`. `Flash` never does."""
        return False

    def operate(self, begin, end):
        """Starts an operation on the range from `begin` to `end`. Returns whether the chip carries it out, which
        requires WEL and an unprotected range."""
        if not self.latch or self.is_locked(begin, end):
            return False
        self.hit.update(range(begin // SECTOR, (end - 1) // SECTOR + 1))
        self.settle()
        return True

    def settle(self):
        self.busy = self.polls
        self.latch = self.polls > 0

    def erase(self, out):
        length = BLOCKS[out[0]]
        begin = self.address(out) % self.size // length * length
        if self.operate(begin, begin + length):
            self.data[begin : begin + length] = bytes([BLANK]) * length

    def wipe(self, _):
        if self.operate(0, self.size):
            self.data[:] = bytes([BLANK]) * self.size

    def program(self, out):
        at = self.address(out) % self.size
        page = at // PAGE * PAGE
        if not self.operate(page, page + PAGE):
            return
        taken = {}
        for number, byte in enumerate(out[4:]):
            taken[page + (at + number) % PAGE] = byte
        for place, byte in taken.items():
            self.data[place] &= byte
