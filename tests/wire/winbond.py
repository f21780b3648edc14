"""Models the W25Q64FV: status registers with one-time bits, block protection, security registers and QPI."""
from flash import BLANK, Flash

SRP0, SRP1, QE, CMP, SUSPENDED = 0x80, 0x01, 0x02, 0x40, 0x80
LB = 0x38
# KEPT_1 and KEPT_2 are the non-volatile bits of status 1 and status 2, which a status write can set.
KEPT_1, KEPT_2 = 0xFC, 0x7B
# BOARD_BITS has the bits of status 2 that a restore leaves as they are, with their names in the datasheet (7.1).
BOARD_BITS = {QE: "QE", 0x08: "LB1", 0x10: "LB2", 0x20: "LB3"}
REGISTERS = {0x001000: 0x08, 0x002000: 0x10, 0x003000: 0x20}


def protected(one, two, size):
    """Returns the start and the end of the range that BP, TB and SEC select, and whether CMP is set, which protects
    everything except this range (datasheet, 7.1.10)."""
    bp = one >> 2 & 7
    if bp == 0:
        length = 0
    elif bp == 7:
        length = size
    elif one & 0x40:
        length = min(4096 << bp - 1, 32768)
    else:
        length = size >> 7 - bp
    begin = 0 if one & 0x20 else size - length
    return begin, begin + length, bool(two & CMP)


class Winbond(Flash):
    """A W25Q64FV whose non-volatile status bytes are `status` at first. At power-up, the chip copies them into the
    volatile ones."""

    id = bytes.fromhex("ef4017")
    size = 1 << 23

    def __init__(self, data, status=(0, 0), **more):
        super().__init__(data, **more)
        self.stored = [status[0] & KEPT_1, status[1] & KEPT_2]
        self.now = list(self.stored)
        self.volatile = self.is_suspended = False
        self.pages = {it: bytearray([BLANK]) * 256 for it in REGISTERS}
        self.replies |= {0x35: (1, lambda _: bytes([self.status_2()]) * self.wanted), 0x48: (5, self.register)}
        self.orders |= {
            0x50: ((1,), self.enable_volatile), 0x01: ((2, 3), self.write_status), 0x31: ((2,), self.write_status_2),
            0x38: ((1,), self.enter_qpi), 0x42: (range(5, 1 << 24), self.program_register),
            0x44: ((4,), self.erase_register), 0x32: (range(5, 1 << 24), self.program_quad)}

    def cut_power(self):
        super().cut_power()
        # If SRP1 is set and SRP0 is clear (power supply lock-down), a loss of power clears SRP1. If both are set, SRP1
        # stays set for ever.
        if self.stored[1] & SRP1 and not self.stored[0] & SRP0:
            self.stored[1] &= ~SRP1
        self.now = list(self.stored)
        self.volatile = self.is_suspended = False

    def device(self):
        return bytes([0x16])

    def status(self):
        return super().status() | self.now[0]

    def registers(self):
        return tuple(self.stored)

    def status_2(self):
        return self.now[1] | SUSPENDED * self.is_suspended

    def enable_volatile(self, _):
        self.volatile = True

    def write_status(self, out):
        # A status write of only one data byte clears QE, CMP and SRP1, because older chips have only one status
        # register.
        two = out[2] if len(out) == 3 else self.now[1] & LB
        self.store(out[1], two)

    def write_status_2(self, out):
        self.store(self.now[0], out[1])

    def store(self, one, two):
        """Writes both registers (after 50h only their volatile bits), if 06h or 50h was sent before and SRP1 is clear.
        A one-time bit that is set stays set."""
        may, lasting = self.latch or self.volatile, self.latch
        self.volatile = False
        if not may or self.now[1] & SRP1:
            return
        one, two = one & KEPT_1, two & KEPT_2
        # A volatile write doesn't change the one-time bits.
        fixed = LB if lasting else LB | SRP1
        two = two & ~fixed | self.now[1] & fixed | (two & LB if lasting else 0)
        for bit in (SRP1, 0x08, 0x10, 0x20):
            if two & bit and not self.now[1] & bit:
                self.once.add(bit)
        self.now = [one, two]
        if lasting:
            self.stored = [one, two]
            self.settle()

    def select(self, out, replies):
        # Apart from reads of the status, a busy chip accepts only 75h, which suspends the operation. 7Ah resumes it.
        if bytes(out) == b"\x75" and not replies and self.busy and not self.asleep:
            self.busy, self.is_suspended = 0, True
        if bytes(out) == b"\x7a" and not replies and self.is_suspended:
            self.busy, self.is_suspended = self.polls, False
        return super().select(out, replies)

    def is_locked(self, begin, end):
        if self.is_suspended:
            return True
        low, high, inverted = protected(*self.now, self.size)
        if inverted:
            return begin < low or end > high
        return begin < high and end > low

    def enter_qpi(self, _):
        # In QPI mode the chip reads four data lines at each clock, so it understands no instruction that is sent on one
        # line.
        self.deaf = self.deaf or bool(self.now[1] & QE)

    def register(self, out):
        page = self.pages.get(self.address(out) & 0xFFFF00)
        at = self.address(out) & 0xFF
        return bytes(page[at:] + page[:at]) if page else b""

    def may_change(self, out):
        at = self.address(out) & 0xFFFF00
        if not self.latch or at not in REGISTERS or self.now[1] & REGISTERS[at]:
            return None
        self.settle()
        self.hit.add("security register")
        return self.pages[at]

    def program_register(self, out):
        page = self.may_change(out)
        if page is not None:
            for number, byte in enumerate(out[4:]):
                page[(out[3] + number) % 256] &= byte

    def erase_register(self, out):
        page = self.may_change(out)
        if page is not None:
            page[:] = bytes([BLANK]) * 256

    def program_quad(self, out):
        # A quad program reads four data lines, of which this programmer drives only one, so the page may get any bytes.
        # This model stores 00h in all of them.
        at = self.address(out) % self.size // 256 * 256
        if self.now[1] & QE and self.operate(at, at + 256):
            self.data[at : at + 256] = bytes(256)
