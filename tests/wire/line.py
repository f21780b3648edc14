"""Connects the program with a modelled programmer by a raw pseudo-terminal that loses, doubles or inserts bytes.

The programmer receives one byte after the other. It keeps its state from one run of the program to the next, as a board
does that keeps its power.
"""
import os
import select
import signal
import subprocess
import termios
import time
import tty
from typing import NamedTuple

# TIMES multiplies the times that a read waits and that a run may take. The environment variable PATIENCE sets TIMES,
# for a machine that is busy with other work.
TIMES = int(os.environ.get("PATIENCE", "1"))
# A read of the program waits PATIENCE tenths of a second for a byte, unless a caller of `Line` chooses another time. A
# run may take LONGEST seconds.
PATIENCE, LONGEST = 3, 120 * TIMES
# A terminal can wait at most LONGEST_WAIT tenths of a second, because termios has one byte for this time (VTIME).
LONGEST_WAIT = 255
# These are the kinds of cuts. After a STALE cut, the next run receives, unless a power cycle comes first, the replies
# that the killed run did not read, as a USB device may send them. For an OWN_SUPPLY cut, the programmer selects the
# chip as soon as it has the lengths of a frame, and the chip keeps its power when the programmer loses its power.
PLAIN, STALE, OWN_SUPPLY = 1, 2, 3


class Fault(NamedTuple):
    """A fault at byte `at`, counted from 0, of those that a run sends (`way` is "to") or is sent ("back").

    If `kind` is "lose", `value` bytes from `at` on are lost. "double" sends byte `at` twice, and "insert" inserts the
    byte `value` before it. "cut" kills the program as soon as the programmer has received `at` bytes; `value` is then
    the kind of cut.
    """

    way: str
    at: int
    kind: str
    value: int = 1


class Result(NamedTuple):
    """The result of a run: its exit status, its lines on standard output and standard error, the bytes that it sent,
    and the number of bytes in the programmer's replies."""

    status: int
    out: list
    err: list
    sent: bytes
    replied: int


def tenths(patience, times=TIMES):
    """Returns the tenths of a second that the terminal waits for a byte: `patience`, multiplied by `times`, or
    LONGEST_WAIT if that is less."""
    return min(LONGEST_WAIT, patience * times)


class Way:
    """One direction of the line. Counts the bytes that are sent in this direction."""

    def __init__(self, fault):
        self.fault, self.count = fault, 0

    def pass_on(self, data):
        """Returns the bytes that arrive if `data` is sent: `data` with the effect of the fault, if the fault is within
        `data` and isn't a cut, which changes no bytes."""
        begin, fault = self.count, self.fault
        self.count += len(data)
        if not fault or fault.kind == "cut" or fault.at >= self.count or fault.at + fault.value < begin:
            return data
        here = fault.at - begin
        if fault.kind == "lose":
            return data[: max(0, here)] + data[max(0, here + fault.value) :]
        if here < 0:
            return data
        added = data[here : here + 1] if fault.kind == "double" else bytes([fault.value])
        return data[:here] + added + data[here:]


class Line:
    """A pseudo-terminal, with a programmer at its other end. The link `dev` in the directory `folder` refers to the
    terminal."""

    def __init__(self, program, folder, programmer, patience=PATIENCE):
        self.program, self.folder, self.programmer = program, folder, programmer
        self.waits = bytearray()
        self.master, self.slave = os.openpty()
        tty.setraw(self.slave)
        settings = termios.tcgetattr(self.slave)
        settings[6][termios.VMIN], settings[6][termios.VTIME] = 0, tenths(patience)
        termios.tcsetattr(self.slave, termios.TCSANOW, settings)
        os.set_blocking(self.master, False)
        os.symlink(os.ttyname(self.slave), os.path.join(folder, "dev"))

    def close(self):
        os.close(self.master)
        os.close(self.slave)

    def run(self, *words, fault=None):
        """Runs the program with the arguments `words` after -p, and returns its result.

        After the run, replies that the program did not read are dropped, as a serial port drops bytes that arrive while
        it is closed. Only a STALE cut keeps them.
        """
        words = [self.program, "-p", "serprog:dev=dev", *words]
        process = subprocess.Popen(words, cwd=self.folder, stdin=subprocess.DEVNULL, stdout=subprocess.PIPE,
                                   stderr=subprocess.PIPE, env=dict(os.environ, LC_ALL="C"))
        sent, back = self.serve(process, fault)
        out, err = process.communicate()
        if not fault or fault[2:] != ("cut", STALE):
            self.drop()
        lines = (it.decode(errors="backslashreplace").splitlines() for it in (out, err))
        return Result(process.returncode, *lines, bytes(sent), back.count)

    def serve(self, process, fault):
        """Carries bytes between a process and the programmer until the process ends, or kills it at a cut or after
        LONGEST seconds. Returns the bytes that the process sent, and the `Way` of the replies."""
        sent, ended, end = bytearray(), os.pidfd_open(process.pid), time.monotonic() + LONGEST
        to, back = (Way(fault if fault and fault.way == way else None) for way in ("to", "back"))
        last = fault.at if fault and fault.kind == "cut" else None
        poll = select.poll()
        poll.register(ended, select.POLLIN)
        try:
            while True:
                poll.register(self.master, select.POLLIN | (select.POLLOUT if self.waits else 0))
                is_over = any(it == ended for it, _ in poll.poll(1000))
                data = self.receive()
                sent += data
                is_cut = last is not None and len(sent) >= last
                if is_cut:
                    data = data[: len(data) - (len(sent) - last)]
                    os.kill(process.pid, signal.SIGKILL)
                self.waits += self.feed(to.pass_on(data), back)
                if is_cut or is_over and not data:
                    return sent, back
                if self.waits and not is_over:
                    self.reply()
                if time.monotonic() > end:
                    os.kill(process.pid, signal.SIGKILL)
        finally:
            os.close(ended)

    def receive(self):
        try:
            return os.read(self.master, 65536)
        except BlockingIOError:
            return b""

    def feed(self, data, back):
        """Passes `data` to the programmer, one byte at a time. Returns the bytes of its replies that arrive at the
        program."""
        replies = (self.programmer.take(byte) for byte in data)
        return b"".join(back.pass_on(it) for it in replies if it)

    def reply(self):
        try:
            del self.waits[: os.write(self.master, self.waits[:65536])]
        except BlockingIOError:
            pass

    def drop(self):
        self.waits.clear()
        termios.tcflush(self.slave, termios.TCIOFLUSH)
        self.receive()
