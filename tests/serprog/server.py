#!/usr/bin/env python3
"""This is a serial programmer at a pseudo-terminal. It speaks serprog (version 1), and has a model of a chip.

    server.py LINK --chip NAME [--image FILE] [--status HHHH] [--log FILE] ..

LINK becomes a symbolic link to the terminal device. The image is read at the start, and is written back when the server
receives SIGTERM. The log has one line per transaction, in the form of a trace of flashnor. `--help` lists the other
options.

As a library, `Server(link, chip, traits)` runs in its own thread. flashrom's Documentation/serprog-protocol.txt
describes the protocol; its newer versions also describe 16h, S_SPI_CS.
"""
import argparse
import os
import pty
import select
import signal
import sys
import termios
import threading
import time
import tty
from dataclasses import dataclass, field
from pathlib import Path

from chip import ERASES, PARTS, READ_DATA, Chip

ACK, NAK = b"\x06", b"\x15"
SPI = 0x08
SYNCNOP, S_BUSTYPE, O_SPIOP, S_SPI_FREQ, S_PIN_STATE, S_SPI_CS = 0x10, 0x12, 0x13, 0x14, 0x15, 0x16
ARGUMENTS = {S_BUSTYPE: 1, S_SPI_FREQ: 4, S_PIN_STATE: 1, S_SPI_CS: 1}
ADDRESSED = (0x02, READ_DATA, *ERASES)
COMMANDS = [0, 1, 2, 3, 4, 5, 8, 0x10, 0x11, S_BUSTYPE, O_SPIOP, S_SPI_FREQ, S_PIN_STATE]


class Unplugged(Exception):
    """This exception ends the server when the programmer loses its connection."""


@dataclass
class Traits:
    """The traits of a programmer say how it behaves.

    `events` has the event at a transaction, by its number (from 1 on):

    - `nak`: the transaction isn't carried out, and the reply is NAK.
    - `strange`: the transaction is carried out, and the reply begins with a byte that is neither ACK nor NAK.
    - `mute`: the transaction is carried out, and the programmer sends no byte until the next run.
    - `unplug`: the transaction isn't carried out, and the programmer is disconnected.
    - `lose`: the transaction is carried out, and the programmer is disconnected before it replies.
    - `power`: in addition to `lose`, the chip loses its power during the operation.
    - `dip`: the chip loses its power during the operation, and the programmer replies.
    - `cut N`: the programmer receives only the first N bytes of the frame, and is disconnected.
    - `kill`: the transaction is carried out, the process `victim` is killed, and then the reply is sent.

    Instead of a number, `lose`, `power`, `dip` and `kill` may have a pair: the number of an operation of the chip, and
    the number of a poll after this operation. Poll 0 is the operation's command itself. `loss` has the arguments of the
    chip's `lose_power`.

    The wire between programmer and chip has its own faults. `wrong_bits` and `misses` have as keys the number of a
    transaction, or a pair as above for a poll.
    """

    version: int = 1
    lacks: tuple = ()
    buses: int = SPI
    longest_write: int = 4096
    longest_read: int = 65536
    buffer: int = 4096
    selects: int = 0
    clock: int = 12_000_000
    # A silent programmer never replies. A babbling programmer sends text without end, whatever it receives. `stale` has
    # bytes that wait for the first client.
    is_silent: bool = False
    babbles: bool = False
    stale: bytes = b""
    # These replies replace the right replies to commands other than O_SPIOP, by opcode. `None` disconnects the
    # programmer.
    replies: dict = field(default_factory=dict)
    events: dict = field(default_factory=dict)
    loss: dict = field(default_factory=dict)
    # In the replies to these transactions one bit is wrong. The value has the number of its byte, and the number of the
    # bit in this byte.
    wrong_bits: dict = field(default_factory=dict)
    # The chip misses these transactions. The value is the byte that is received for each byte of the reply.
    misses: dict = field(default_factory=dict)
    # The chip misses all transactions from the first to the second number, because it has no contact or no supply. The
    # third value is the byte that is received for each byte of a reply.
    lost: tuple = ()
    # The addresses of programs, erases and reads of data from the transaction with the first number to that with the
    # second have a wrong bit on their way to the chip. The third value is the number of this bit.
    wrong_address: tuple = ()
    # Before the transaction with this number the board is exchanged. The second value is the chip of the other board.
    other: tuple = ()
    # The programmer has these limits, but doesn't report them. It refuses a transaction that sends more than
    # `most_sent` bytes, or that sends and receives more than `most_in_buffer` together. It never replies to one that
    # sends more than `most_replied`.
    most_sent: int = 1 << 24
    most_in_buffer: int = 1 << 24
    most_replied: int = 1 << 24
    # This function returns what the firmware sends to the chip instead of the bytes in a frame.
    sends: object = bytes
    # The server waits `latency` seconds before each read of the port. The port carries `rate` bytes per second, or is
    # not slowed down if `rate` is 0.
    latency: float = 0.0
    rate: float = 0.0
    # The time-out of the terminal device is in tenths of a second. If the device isn't set up, a read of it waits
    # without a time-out.
    timeout: int = 50
    is_set_up: bool = True


class Server:
    """This is a programmer at a terminal device.

    A thread serves it until `close` is called, or until it is disconnected.
    """

    def __init__(self, link, chip, traits=None):
        self.link, self.chip, self.traits = Path(link), chip, traits or Traits()
        self.port, self.device = pty.openpty()
        set_terminal(self.device, self.traits.timeout, int(not self.traits.is_set_up))
        os.set_blocking(self.port, False)
        self.link.unlink(missing_ok=True)
        self.link.symlink_to(os.ttyname(self.device))
        self.wakes, self.waker = os.pipe()
        self.pending, self.owed, self.victim = bytearray(), 0.0, None
        self.begin()
        self.thread = threading.Thread(target=self.serve, daemon=True)
        self.thread.start()

    def begin(self, events=None):
        """Clears the records of what was received and sent, and counts transactions from 1 again, for the next run."""
        if events is not None:
            self.traits.events = events
        self.received, self.commands, self.log = bytearray(), [], []
        self.ways, self.sent, self.is_mute = [], 0, self.traits.is_silent
        self.has_victim = threading.Event()
        self.killed = False
        self.chip.count_anew()

    def kill_at(self, process):
        """Sets the process that the event `kill` kills."""
        self.victim = process
        self.has_victim.set()

    def close(self):
        """Stops the server. The chip keeps its state."""
        os.write(self.waker, b"x")
        self.thread.join()
        os.close(self.wakes)
        os.close(self.waker)

    def serve(self):
        try:
            self.put(self.traits.stale)
            while True:
                self.serve_command()
        except (Unplugged, OSError):
            pass
        finally:
            os.close(self.port)
            os.close(self.device)

    def serve_command(self):
        opcode = self.take(1)[0]
        if opcode == O_SPIOP:
            self.serve_transaction()
            return
        arguments = self.take(ARGUMENTS.get(opcode, 0))
        self.commands.append((opcode, arguments))
        self.put(self.reply(opcode, arguments))

    def reply(self, opcode, arguments):
        """Returns the reply to a command other than O_SPIOP."""
        traits = self.traits
        if opcode in traits.replies:
            if traits.replies[opcode] is None:
                raise Unplugged
            return traits.replies[opcode]
        if opcode not in self.known():
            return NAK
        if opcode in (0x08, 0x11):
            limit = traits.longest_write if opcode == 0x08 else traits.longest_read
            return ACK + (limit & 0xFFFFFF).to_bytes(3, "little")
        if opcode == S_BUSTYPE:
            return ACK if arguments[0] & traits.buses else NAK
        if opcode == S_SPI_FREQ:
            wanted = int.from_bytes(arguments, "little")
            return ACK + min(wanted, traits.clock).to_bytes(4, "little") if wanted else NAK
        if opcode == S_SPI_CS:
            return ACK if arguments[0] < traits.selects else NAK
        replies = {0x01: traits.version.to_bytes(2, "little"), 0x02: self.command_map(),
                   0x03: b"test programmer".ljust(16, b"\0"), 0x04: traits.buffer.to_bytes(2, "little"),
                   0x05: bytes([traits.buses])}
        return (NAK if opcode == SYNCNOP else b"") + ACK + replies.get(opcode, b"")

    def known(self):
        """Returns the commands in the programmer's command map."""
        return [it for it in COMMANDS + [S_SPI_CS] * bool(self.traits.selects) if it not in self.traits.lacks]

    def longest_read(self):
        """Returns the greatest number of bytes that a transaction may receive, as far as a client knows."""
        return (0x11 in self.known() and self.traits.longest_read) or 1 << 24

    def longest_part(self):
        """Returns the greatest number of bytes that a transaction may send, as far as a client knows.

        Without Q_WRNMAXLEN, the frame must fit into the serial buffer, if the programmer reports its size (Q_SERBUF).
        """
        if 0x08 in self.known():
            return self.traits.longest_write or 1 << 24
        return self.traits.buffer - 7 if 0x04 in self.known() and self.traits.buffer else 1 << 24

    def command_map(self):
        bits = sum(1 << opcode for opcode in self.known())
        return bits.to_bytes(32, "little")

    def serve_transaction(self):
        """Receives the rest of an O_SPIOP frame, carries the transaction out, and replies.

        An event may prevent each of these.
        """
        number = len(self.log) + 1
        event = self.traits.events.pop(number, "")
        if event.startswith("cut"):
            self.take(int(event.split()[1]) - 1)
            raise Unplugged
        lengths = self.take(6)
        longest, replies = (int.from_bytes(lengths[at : at + 3], "little") for at in (0, 3))
        out = self.take(longest)
        if event == "unplug":
            raise Unplugged
        traits = self.traits
        if event == "nak" or O_SPIOP in traits.lacks or longest > (traits.longest_write or 1 << 24) or \
                replies > (traits.longest_read or 1 << 24) or longest > traits.most_sent or \
                longest + replies > traits.most_in_buffer:
            self.put(NAK)
            return
        self.is_mute = self.is_mute or longest > traits.most_replied
        reply = self.carry(number, out, replies)
        event = event or traits.events.pop((self.chip.operations, self.chip.polls), "")
        self.log.append((out, reply))
        self.happen(event)
        self.put((b"!" if event == "strange" else ACK) + reply)

    def carry(self, number, out, replies):
        """Carries out a transaction with the faults of the wire. Returns what the programmer receives from the chip."""
        traits = self.traits
        if traits.other and traits.other[0] == number:
            self.chip, traits.other = traits.other[1], ()
        poll = (self.chip.operations, self.chip.polls + 1) if out == b"\x05" else None
        for at in number, poll:
            if at in traits.misses:
                return bytes([traits.misses.pop(at)]) * replies
        if traits.lost and traits.lost[0] <= number <= traits.lost[1]:
            return bytes([traits.lost[2]]) * replies
        first, last, bit = traits.wrong_address or (0, 0, 0)
        heard = traits.sends(out)
        if first <= number <= last and out[0] in ADDRESSED:
            heard = heard[:1] + (int.from_bytes(heard[1:4], "big") ^ 1 << bit).to_bytes(3, "big") + heard[4:]
        reply = bytearray(self.chip.transfer(heard, replies))
        for at in number, poll:
            byte, bit = traits.wrong_bits.get(at, (0, 0))
            if at in traits.wrong_bits and byte < replies:
                reply[byte] ^= 1 << bit
        return bytes(reply)

    def happen(self, event):
        """Performs an event that occurs between the transaction and its reply."""
        if event in ("lose", "power", "dip"):
            if event != "lose":
                self.chip.lose_power(**self.traits.loss)
            if event != "dip":
                raise Unplugged
        if event == "mute":
            self.is_mute = True
        if event == "kill":
            self.has_victim.wait(10)
            # `killed` must be set before the kill, because the test may read it as soon as the process has ended.
            self.killed = True
            self.victim.kill()
            self.victim.wait()

    def take(self, length):
        """Returns the next `length` bytes that the client sends."""
        while len(self.pending) < length:
            can_write = [self.port] if self.traits.babbles else []
            ready, writable, _ = select.select([self.port, self.wakes], can_write, [])
            if self.wakes in ready:
                raise Unplugged
            if writable:
                time.sleep(0.001)
                self.write_some(b"U" * 512)
            if self.port in ready:
                self.pending += self.read_some()
        taken = bytes(self.pending[:length])
        del self.pending[:length]
        return taken

    def read_some(self):
        """Returns the bytes that are available at the port, after a wait of `latency` seconds."""
        if self.traits.latency:
            time.sleep(self.traits.latency)
        got = os.read(self.port, 65536)
        self.received += got
        self.ways.append(len(got))
        self.pay(len(got))
        return got

    def pay(self, length):
        """Sleeps for the time that these bytes need at `rate`.

        Times of less than half a millisecond are added up first.
        """
        if not self.traits.rate:
            return
        self.owed += length / self.traits.rate
        if self.owed > 0.0005:
            before = time.monotonic()
            time.sleep(self.owed)
            self.owed -= time.monotonic() - before

    def put(self, reply):
        """Sends bytes to the client, unless the programmer is mute or babbles."""
        if self.is_mute or self.traits.babbles:
            return
        self.sent += len(reply)
        self.pay(len(reply))
        while reply:
            ready, _, _ = select.select([self.wakes], [self.port], [])
            if ready:
                raise Unplugged
            reply = reply[self.write_some(reply) :]

    def write_some(self, reply):
        try:
            return os.write(self.port, reply)
        except BlockingIOError:
            return 0


def set_terminal(device, tenths, least=0):
    """Sets up a terminal device as `stty raw -echo clocal -hupcl min LEAST time TENTHS` does.

    If `least` isn't 0, the time is 0: a read then waits without a time-out.
    """
    tty.setraw(device)
    settings = termios.tcgetattr(device)
    settings[2] = (settings[2] | termios.CLOCAL) & ~termios.HUPCL
    settings[6][termios.VMIN], settings[6][termios.VTIME] = least, 0 if least else tenths
    termios.tcsetattr(device, termios.TCSANOW, settings)


def trace_line(out, reply):
    """Returns the line of a trace for a transaction."""
    if not reply:
        return out.hex()
    return f"{out.hex()} > {reply.hex() if len(reply) <= 3 else f'{len(reply)} bytes'}"


def options():
    parser = argparse.ArgumentParser(description=__doc__, formatter_class=argparse.RawDescriptionHelpFormatter)
    parser.add_argument("link")
    parser.add_argument("--chip", default="W25Q64FV", choices=list(PARTS))
    parser.add_argument("--image", type=Path, help="the chip's data; if it is missing, all bytes are FFh")
    parser.add_argument("--status", type=bytes.fromhex, default=b"\0\0", help="the two status bytes")
    parser.add_argument("--unique", type=bytes.fromhex, default=bytes(8), help="the unique ID")
    parser.add_argument("--scale", type=float, default=1.0, help="multiplies the durations of the chip; 0: never busy")
    parser.add_argument("--log", type=Path, help="gets the transactions when the server ends")
    parser.add_argument("--event", nargs="*", default=[], metavar="N=EVENT", help="see the class Traits, except kill")
    for name in ("longest-write", "longest-read", "buffer", "selects", "version", "timeout"):
        parser.add_argument(f"--{name}", type=int, default=getattr(Traits, name.replace("-", "_")))
    for name in ("latency", "rate"):
        parser.add_argument(f"--{name}", type=float, default=0.0)
    given = parser.parse_args()
    given.event = {int(number): event for number, _, event in (it.partition("=") for it in given.event)}
    if "kill" in given.event.values():
        parser.error("the event kill is for the library: only that knows which process to kill")
    return given


def main():
    given = options()
    data = given.image.read_bytes() if given.image and given.image.exists() else None
    chip = Chip(given.chip, data, given.status, given.unique, given.scale)
    names = ("longest_write", "longest_read", "buffer", "selects", "version", "timeout", "latency", "rate")
    traits = Traits(**{name: getattr(given, name) for name in names})
    traits.events = given.event
    signal.pthread_sigmask(signal.SIG_BLOCK, {signal.SIGTERM, signal.SIGINT})
    server = Server(given.link, chip, traits)
    print("ready", flush=True)
    signal.sigwait({signal.SIGTERM, signal.SIGINT})
    if given.image:
        given.image.write_bytes(chip.data)
    if given.log:
        given.log.write_text("".join(trace_line(*it) + "\n" for it in server.log))
    print(f"status {chip.status.hex()}, {len(server.log)} transactions", flush=True)


if __name__ == "__main__":
    sys.exit(main())
