"""Models the firmware of a serial programmer: a board with a UART and a flash chip.

The firmware reads one byte at a time, and replies as soon as it has all bytes of a command. It can't tell when a run of
flashnor-serprog ends. If it has received only a part of a command, it waits for the rest until its power is cut.
Nothing in the serprog protocol (version 1, see flashrom's documentation) marks the start of a command, and a command
has no checksum.
"""

ACK, NAK = b"\x06", b"\x15"
O_SPIOP = 0x13
# FOLLOW has the number of bytes that follow an opcode of KNOWN (none if it isn't a key). After O_SPIOP, these are its
# two lengths of three bytes each, and its data follow them. The firmware expects no bytes after another opcode.
FOLLOW = {0x09: 3, 0x0A: 6, 0x0C: 4, 0x0E: 4, 0x12: 1, O_SPIOP: 6, 0x14: 4, 0x15: 1, 0x16: 1}
KNOWN = (0, 1, 2, 3, 4, 5, 8, 0x10, 0x11, 0x12, O_SPIOP, 0x14, 0x15, 0x16)


class Programmer:
    """The firmware of a programmer whose flash chip is `chip`.

    `buffer` is the size that Q_SERBUF (04h) returns. If `buffer` is None, the firmware doesn't know this command.
    `most` is the length that Q_RDNMAXLEN (11h) returns.

    If `selects_early` is true, CS# falls as soon as the lengths of an O_SPIOP have arrived, and the chip gets each byte
    when it arrives. If the programmer then loses its power before the last byte, and the chip keeps its own, CS# rises
    and the chip acts on the bytes that it has.
    """

    def __init__(self, chip, buffer=0x2000, most=0x10000, selects_early=False):
        self.chip, self.buffer, self.most, self.selects_early = chip, buffer, most, selects_early
        self.partial = bytearray()
        self.wanted = 0
        self.frames = 0

    def power_cycle(self, chip_too=True):
        """Cuts the power of the programmer and, if `chip_too` is true, also that of the chip."""
        data = bytes(self.partial[7:])
        is_selected = self.selects_early and self.partial[:1] == bytes([O_SPIOP]) and data
        self.partial.clear()
        if chip_too:
            self.chip.cut_power()
        elif is_selected:
            self.chip.select(data, 0)

    def state(self):
        """Returns a copy of the state of the programmer and its chip, for `put_back`."""
        return bytes(self.partial), self.wanted, self.chip.state()

    def put_back(self, state):
        self.partial, self.wanted = bytearray(state[0]), state[1]
        self.chip.put_back(state[2])

    def take(self, byte):
        """Takes one byte from the line. Returns the reply if this byte completes a command, and otherwise no bytes."""
        self.partial.append(byte)
        if len(self.partial) == 1:
            self.wanted = 1 + FOLLOW.get(byte, 0) if byte in KNOWN else 1
        elif len(self.partial) == 7 and self.partial[0] == O_SPIOP:
            self.wanted = 7 + int.from_bytes(self.partial[1:4], "little")
        if len(self.partial) < self.wanted:
            return b""
        command, self.partial = bytes(self.partial), bytearray()
        self.frames += 1
        return self.carry_out(command)

    def carry_out(self, command):
        code, rest = command[0], command[1:]
        if code == O_SPIOP:
            replies = int.from_bytes(rest[3:6], "little")
            return ACK + self.chip.select(rest[6:], replies)
        if code not in KNOWN or code == 0x04 and self.buffer is None:
            return NAK
        if code == 0x10:
            return NAK + ACK
        return ACK + self.value(code, rest)

    def value(self, code, rest):
        if code == 0x02:
            return sum(1 << it for it in KNOWN if it != 4 or self.buffer is not None).to_bytes(32, "little")
        if code == 0x14:
            return rest
        values = {0x01: b"\x01\x00", 0x03: b"wire".ljust(16, b"\0"), 0x05: b"\x08",
                  0x08: b"\x00\x20\x00", 0x11: self.most.to_bytes(3, "little")}
        if code == 0x04:
            return self.buffer.to_bytes(2, "little")
        return values.get(code, b"")
