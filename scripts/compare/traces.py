"""Reads traces of flashnor, and plays them on another chip.

A line of a trace is one transaction. It has the bytes that were sent. If bytes were received, ` > ` follows, and then
their digits or, for more than three bytes, their number and ` bytes`.
"""
import re
from typing import NamedTuple, Optional

PAGE_PROGRAM, READ, READ_STATUS, SET_LATCH, READ_ID, WRITE_STATUS = 0x02, 0x03, 0x05, 0x06, 0x9F, 0x01
ERASES = {0x20, 0x52, 0xD8, 0xC7}
LINE = re.compile(r"((?:[0-9a-f]{2})+)(?: > (?:((?:[0-9a-f]{2}){1,3})|([4-9]|[1-9]\d+) bytes))?")


class Transaction(NamedTuple):
    """A transaction: the bytes that were sent, the number of bytes that were received, and these bytes if the line has
    them."""
    sent: bytes
    count: int = 0
    reply: Optional[bytes] = None

    def changes_bytes(self):
        return self.sent[0] == PAGE_PROGRAM or self.sent[0] in ERASES

    def changes(self):
        return self.changes_bytes() or self.sent[0] == WRITE_STATUS


def read_line(line):
    """Returns the transaction of a line, which must not end with a line feed."""
    found = LINE.fullmatch(line)
    if not found:
        raise ValueError(f"no line of a trace: {line!r}")
    sent, reply, count = found.groups()
    if reply:
        return Transaction(bytes.fromhex(sent), len(reply) // 2, bytes.fromhex(reply))
    return Transaction(bytes.fromhex(sent), int(count or 0))


def read_trace(text):
    """Returns the transactions of a whole trace."""
    if text and not text.endswith("\n"):
        raise ValueError("the last line of a trace isn't ended")
    return [read_line(line) for line in text.splitlines()]


def wanted_of(transaction, image):
    """Returns the bytes that the chip must reply to 03h (from its bytes `image`), 05h or 9Fh (from the trace). Returns
    None for another opcode, for 03h if `image` is None, and for 05h or 9Fh if the trace doesn't show the reply."""
    if transaction.sent[0] == READ and image is not None:
        start = int.from_bytes(transaction.sent[1:4], "big")
        return image[start : start + transaction.count]
    return transaction.reply if transaction.sent[0] in (READ_STATUS, READ_ID) else None


def play(chip, transactions, before, after):
    """Sends the transactions to a chip. Returns the number of compared replies, and a text for each reply that differs.

    `before` has the chip's bytes before the first change of a byte, and `after` those after the last change; the bytes
    between these changes are unknown. `chip` must have `exchange`, which takes the bytes to send and the number of
    bytes to receive, and `kept`, the bits of status 1 that the chip has.
    """
    changing = [number for number, it in enumerate(transactions) if it.changes_bytes()]
    first, last = (changing[0], changing[-1]) if changing else (len(transactions), -1)
    compared, differences = 0, []
    for number, it in enumerate(transactions):
        reply = chip.exchange(it.sent, it.count)
        wanted = wanted_of(it, before if number < first else after if number > last else None)
        if wanted is None:
            continue
        mask = chip.kept if it.sent[0] == READ_STATUS else 0xFF
        compared += 1
        if [byte & mask for byte in reply] != [byte & mask for byte in wanted]:
            differences.append(f"line {number + 1} ({it.sent[:4].hex()}) brings in {reply[:8].hex()}, "
                               f"not {wanted[:8].hex()}")
    return compared, differences
