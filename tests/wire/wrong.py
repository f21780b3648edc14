#!/usr/bin/env python3
"""Is a program with mistakes, which Wire must detect (self.py). The environment variable WRONG names the mistakes;
without it the program is right.

The program implements only parts of flashnor-serprog: it sets SRP0 with --wp-enable, protects a range with --wp-range,
and restores the status bytes, except QE, with --restore. These are the mistakes:

- together: The first poll is sent together with the status write.
- syncnop: The first byte of a run is 10h.
- lies: The program prints the line of a successful job even if a reply of the programmer is wrong or missing.
- quiet: A restore that leaves QE clear names this bit, but ends with exit status 0.
- erases: A restore that leaves QE clear erases sector 0, and reports that all bytes are restored.
"""
import os
import sys
from pathlib import Path

WRONG = os.environ.get("WRONG", "").split(",")
SILENT = 2
JOURNAL, QE, RANGE = Path("j"), 0x02, 0x14
KEPT = "Not restored: the chip keeps these status bits, which differ from the journal: QE (clear)."
KEPT_BITS = 'All bytes and protection bits are restored, but not the status bits of the line "Not restored" above.'


def frame(out, replies=0):
    return b"\x13" + len(out).to_bytes(3, "little") + replies.to_bytes(3, "little") + bytes(out)


class Port:
    def __init__(self, name):
        self.file = os.open(name, os.O_RDWR | os.O_NOCTTY)

    def ask(self, data, wanted):
        """Sends `data`, and returns `wanted` bytes of the reply."""
        os.write(self.file, data)
        found = b""
        while len(found) < wanted:
            more = os.read(self.file, wanted - len(found))
            if not more:
                raise OSError("the programmer is silent")
            found += more
        return found

    def acked(self, data, acks=1, replies=0):
        found = self.ask(data, acks + replies)
        if found[:acks] != b"\x06" * acks:
            raise OSError("no ACK")
        return found[acks:]


def drain(port):
    """Reads and drops the replies that an earlier run left."""
    while os.read(port.file, 4096):
        pass


def connect(port):
    if "syncnop" in WRONG:
        if port.ask(b"\x10", 2) != b"\x15\x06":
            raise OSError("no reply to SYNCNOP")
        return
    drain(port)
    port.acked(b"\x00")


def status(port):
    return [port.acked(frame([code], 1), replies=1)[0] for code in (0x05, 0x35)]


def change(port, out):
    """Sends a write enable and the instruction `out`, and polls the chip."""
    both = frame([0x06]) + frame(out)
    poll = frame([0x05], 1)
    if "together" in WRONG:
        port.acked(both + poll, acks=3, replies=1)
    else:
        port.acked(both, acks=2)
    for _ in range(SILENT):
        if not port.acked(poll, replies=1)[0] & 1:
            break


def enable(port):
    one, two = status(port)
    change(port, [0x01, one & 0xFC | 0x80, two & 0x7B])


def protect(port):
    saved = status(port)
    JOURNAL.write_bytes(bytes(saved))
    change(port, [0x01, RANGE, saved[1]])


def restore(port):
    """Restores the status bytes from the journal, except QE, which stays as it is."""
    one, two = JOURNAL.read_bytes()
    found = status(port)
    wanted = [one, two & ~QE | found[1] & QE]
    if found != wanted:
        change(port, [0x01, *wanted])
    if status(port) != wanted:
        raise OSError("the chip didn't store the status")
    if wanted[1] == two:
        return
    print(KEPT, file=sys.stderr)
    if "erases" in WRONG:
        change(port, [0x20, 0, 0, 0])
    if "quiet" not in WRONG:
        sys.exit(KEPT_BITS)


def main(words):
    try:
        port = Port("dev")
        connect(port)
        if "--wp-enable" in words:
            enable(port)
        if "--wp-range" in words:
            protect(port)
        if "--restore" in words:
            restore(port)
    except OSError as why:
        if "lies" not in WRONG:
            sys.exit(f"error: {why}")
    print("Found W25Q64FV (ef4017), 8388608 bytes.")


main(sys.argv[1:])
