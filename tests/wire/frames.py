"""Finds the frames (serprog commands) that a run sends, and chooses the faults that are tried at their bytes."""
from typing import NamedTuple

from firmware import FOLLOW, KNOWN, O_SPIOP
from line import OWN_SUPPLY, PLAIN, STALE, Fault

# CHANGING has opcodes of instructions that change something in the chip, including write enable (06h, 50h).
CHANGING = (0x06, 0x50, 0x01, 0x02, 0x20, 0x52, 0xD8, 0xC7)
# TO_IT has the bytes that are inserted on the way to the programmer, and FROM_IT those that are inserted into its
# replies.
TO_IT, FROM_IT = (0x00, 0x06, 0x10, 0x13, 0xFF), (0x00, 0x06, 0x15, 0xFF)
# The first HEAD bytes of an O_SPIOP frame are its opcode and its two lengths.
HEAD = 7


class Frame(NamedTuple):
    """A command of the serprog protocol, with its reply.

    Among the bytes that a run sends, the command has the positions from `begin` to `end`. Among the bytes that the run
    receives, the reply has the positions from `first` to `last`. `end` and `last` are exclusive. `kind` has the
    command's opcode and, for O_SPIOP, the opcode of the chip's instruction (otherwise None).
    """

    begin: int
    end: int
    kind: tuple
    first: int
    last: int

    @property
    def changes(self):
        return self.kind[1] in CHANGING

    @property
    def modifies(self):
        """Returns whether the instruction changes data or non-volatile status bits. A write enable changes neither."""
        return self.changes and self.kind[1] not in (0x06, 0x50)

    @property
    def name(self):
        code, inner = self.kind
        return f"command {code:02x}h" if inner is None else f"frame of {inner:02x}h"

    def begin_of(self, fault):
        return self.begin if fault.way == "to" else self.first


def frames_of(sent):
    """Returns the frames in the bytes that a run sent, except an incomplete frame at the end."""
    found, at, replied = [], 0, 0
    while at < len(sent):
        code = sent[at]
        end, replies, inner = at + 1 + (FOLLOW.get(code, 0) if code in KNOWN else 0), None, None
        if code == O_SPIOP:
            end += int.from_bytes(sent[at + 1 : at + 4], "little")
            replies = 1 + int.from_bytes(sent[at + 4 : at + 7], "little")
            inner = sent[at + HEAD] if end > at + HEAD else None
        if end > len(sent):
            break
        replies = replies or REPLIES.get(code, 1)
        found.append(Frame(at, end, (code, inner), replied, replied + replies))
        at, replied = end, replied + replies
    return found


# REPLIES has the length of the reply to each opcode whose reply isn't one byte long. For O_SPIOP, `frames_of` computes
# the length.
REPLIES = {0x01: 3, 0x02: 33, 0x03: 17, 0x04: 3, 0x05: 2, 0x08: 4, 0x10: 2, 0x11: 4, 0x14: 5}


def frame_at(frames, fault):
    """Returns the frame in which a fault occurs. A cut occurs in the frame of the last byte that the programmer
    received."""
    if fault.way == "back":
        return next(it for it in frames if it.first <= fault.at < it.last)
    at = fault.at - (fault.kind == "cut")
    return next(it for it in frames if it.begin <= at < it.end)


def chosen(frames):
    """Returns the frames at whose bytes faults are tried: all that change something, and the first, last and longest of
    each kind. (Before its job, the program makes a read in a frame as long as that of a page program.)"""
    kinds = {}
    for number, frame in enumerate(frames):
        kinds.setdefault(frame.kind, []).append(number)
    longest = (max(it, key=lambda number: frames[number].end - frames[number].begin) for it in kinds.values())
    numbers = {it for all_of_it in kinds.values() for it in (all_of_it[0], all_of_it[-1])} | set(longest)
    numbers |= {number for number, frame in enumerate(frames) if frame.changes}
    return [frames[it] for it in sorted(numbers)]


def some(begin, end, all_up_to):
    """Returns the first `all_up_to` numbers of the range from `begin` to `end` (exclusive). Of the other numbers,
    returns only the first, second, middle and last."""
    head = range(begin, min(end, begin + all_up_to))
    rest = range(head.stop, end)
    if len(rest) <= 4:
        return [*head, *rest]
    return [*head, rest[0], rest[1], rest[len(rest) // 2], rest[-1]]


def sweep(frames, is_long=False):
    """Returns the faults at some bytes (`some`) of the frames that `chosen` returns, in both directions.

    If `is_long` is true, returns only faults on the way to the programmer, in frames that modify the chip.
    """
    found = []
    for frame in chosen(frames):
        if is_long and not frame.modifies:
            continue
        for at in some(frame.begin, frame.end, HEAD + 4):
            found += faults_at("to", at, TO_IT)
        for at in some(frame.first, frame.last, 8) if not is_long else ():
            found += faults_at("back", at, FROM_IT)
    return found


def faults_at(way, at, inserted):
    """Returns the faults at byte `at`: it is lost, alone or with the next one or two bytes; it is doubled; or one of
    the bytes `inserted` is inserted before it."""
    lost = [Fault(way, at, "lose", count) for count in (1, 2, 3)]
    return [*lost, Fault(way, at, "double"), *(Fault(way, at, "insert", byte) for byte in inserted)]


def cuts(frames):
    """Returns cuts of each kind in each frame that changes something: after each of its first bytes and after a few
    later ones (`some`), but not after the last byte."""
    return [Fault("to", at, "cut", kind) for frame in frames if frame.changes
            for at in some(frame.begin + 1, frame.end, HEAD + 4) for kind in (PLAIN, STALE, OWN_SUPPLY)]
