"""This module makes wrong programs of the right flashnor-serprog. self.py tests that the cases detect them.

A wrong program is the right one with a mistake that is planted around it: in its transactions with the programmer
(WIRE), in the programmer's replies to other commands (SAYS), in the arguments or files before a run (BEFORE), or in
what the run prints and leaves (AFTER). A key of these tables is a mistake. Its value has the case or the job of bits.py
that must detect the mistake, and the function that plants it.
"""
import threading
from functools import partial

import bench
import bits
import reference
import run
from chip import BUSY, ERASES, READ_DATA, READ_ID, READ_SFDP, READ_UNIQUE, SECTOR, SRP0, WAKE, Chip
from faults import RESTORE, UNCHANGED
from server import ACK, NAK, O_SPIOP, Server
from wire import UNPROTECTED

POLL, STATUS_2, WRITE_STATUS, WRITE_ENABLE, LB1 = 0x05, 0x35, 0x01, 0x06, 0x08
LATER_READS = (READ_DATA, POLL, STATUS_2, READ_UNIQUE, READ_SFDP)


class Refused(Exception):
    """The programmer didn't reply ACK to a transaction. The argument is its reply."""


class Wire(Server):
    """A programmer that receives what the wrong program sends.

    `mistake` is the mistake of the program. The functions in WIRE get each transaction of the right program, and return
    the bytes that it receives. They call `forward` if the wrong program sends the transaction, too.

    `answers` has the first reply to each transaction of a run. A modifying command removes replies with data or status.
    `last` is the opcode of the last transaction, `changed` says whether the run has sent a modifying command, and
    `written` is its last status write. `block` has the address and the bytes of the last read of data. `old_block` is
    such a block from before a modifying command.
    """

    mistake = ""
    held = None

    def begin(self, events=None):
        super().begin(events)
        self.answers, self.last, self.changed, self.written = {}, 0, False, b""
        self.block = self.old_block = (0, b"")

    def serve_transaction(self):
        out, replies = self.take_frame()
        plant = WIRE.get(self.mistake, (None, Wire.forward))[1]
        try:
            reply = plant(self, out, replies)
        except Refused as why:
            self.put(why.args[0])
            return
        self.remember(out, replies, reply)
        self.put(ACK + reply)

    def take_frame(self):
        """Takes the rest of a frame, and removes the frame from the record of what the programmer received."""
        lengths = self.take(6)
        sent, replies = (int.from_bytes(lengths[at : at + 3], "little") for at in (0, 3))
        out = self.take(sent)
        end = len(self.received) - len(self.pending)
        del self.received[max(0, end - 7 - sent) : end]
        return out, replies

    def forward(self, out, replies):
        """Lets the programmer receive a transaction, and returns its reply. Raises `Refused` if that isn't ACK."""
        frame = bytes([O_SPIOP]) + len(out).to_bytes(3, "little") + replies.to_bytes(3, "little") + out
        end = len(self.received) - len(self.pending)
        self.received[end:end] = frame
        self.pending[:0] = frame[1:]
        self.held = b""
        super().serve_transaction()
        reply, self.held = self.held, None
        if reply[:1] != ACK:
            raise Refused(reply)
        return reply[1:]

    def put(self, reply):
        if self.held is None:
            super().put(reply)
        else:
            self.held += reply

    def remember(self, out, replies, reply):
        self.last = out[0]
        if out[0] in reference.CHANGING:
            self.changed = True
            self.answers = {key: it for key, it in self.answers.items() if key[0][0] not in (READ_DATA, POLL, STATUS_2)}
        if out[0] == WRITE_STATUS:
            self.written = out
        self.answers.setdefault((out, replies), reply)

    def reply(self, opcode, arguments):
        reply = super().reply(opcode, arguments)
        return SAYS[self.mistake][1](self, opcode, reply) if self.mistake in SAYS else reply

    def in_trial(self):
        """Returns whether the job hasn't begun: the last transactions, if any, were trial reads."""
        return not self.chip.has_begun


class WrongBench(bench.Bench):
    """A bench whose runs make the mistake `Wire.mistake`."""

    def start_words(self, words, *streams, **others):
        words = [str(it) for it in words]
        plant = BEFORE.get(Wire.mistake, (None, lambda _, words: words))[1]
        process = super().start_words(plant(self, words), *streams, **others)
        self.words = words
        return process

    def finish(self, process):
        got = super().finish(process)
        return AFTER[Wire.mistake][1](self, got) if Wire.mistake in AFTER else got


def address(out):
    return int.from_bytes(out[1:4], "big")


# A planter is a function that plants a mistake of the wire (see `Wire`). A condition is a function that gets the same
# arguments, and returns whether the mistake is made in this transaction.


def reads(*opcodes):
    """Returns a condition: the transaction has one of these opcodes."""
    return lambda wire, out, replies: out[0] in opcodes


def confirms(*opcodes):
    """Returns a condition: the transaction reads the ID to confirm the reply to one of these opcodes."""
    return lambda wire, out, replies: out[0] == READ_ID and wire.last in opcodes and not wire.in_trial()


def reads_data(wire, out, _):
    return out[0] == READ_DATA and not wire.in_trial()


def reads_id_again(wire, out, _):
    return out[0] == wire.last == READ_ID


def begins_change(wire, out, _):
    return out[0] == WRITE_ENABLE and not wire.changed


def reads_status_back(wire, out, _):
    return out[0] == STATUS_2 and wire.written


def is_trial(wire, out, _):
    return out[0] == READ_DATA and wire.in_trial()


def is_overlap(wire, out, replies):
    """Returns whether this is one of two overlapping trial reads."""
    return is_trial(wire, out, replies) and len(out) == 4 and replies in (reference.TRIAL, reference.TRIAL - 1)


def is_last_overlap(wire, out, replies):
    return is_overlap(wire, out, replies) and address(out) == reference.ADDRESSES[-1] + 1


def is_short(wire, out, replies):
    """Returns whether this is a trial read that looks for the address of the long frame."""
    return is_trial(wire, out, replies) and len(out) == 4 and replies == reference.FEW


def is_long(wire, out, _):
    """Returns whether this is a trial read with a long frame."""
    return wire.in_trial() and out[0] in (READ_DATA, POLL) and len(out) > 4


def is_long_again(wire, out, replies):
    return is_long(wire, out, replies) and (out, replies) in wire.answers


def is_long_without_reply(wire, out, replies):
    return is_long(wire, out, replies) and not replies


def looks_for_chip(wire, out, replies):
    return wire.in_trial() and (out, replies) in reference.LOOK


def right(wire, out, replies):
    """Returns the reply of the chip if firmware and wire have no fault, and the chip isn't in four-byte mode."""
    mode, wire.chip.has_four = wire.chip.has_four, False
    reply = Chip.transfer(wire.chip, out, replies)
    wire.chip.has_four = mode
    return reply


def blank(_, out, replies):
    return b"\xff" * replies


def first(wire, out, replies):
    """Returns the reply to the first such transaction, or `None` if this is the first one."""
    return wire.answers.get((out, replies))


def drops(when, answer=right):
    """Returns a planter: transactions aren't sent. The program works with the reply that `answer` returns."""
    return lambda wire, out, replies: (answer if when(wire, out, replies) else Wire.forward)(wire, out, replies)


def once(when):
    """Returns a planter: transactions aren't sent again, except for data and status after a modifying command."""
    return drops(lambda wire, out, replies: first(wire, out, replies) is not None and when(wire, out, replies), first)


def refuses(when):
    """Returns a planter: transactions aren't sent. The program does what it does after NAK."""
    def plant(wire, out, replies):
        if when(wire, out, replies):
            raise Refused(NAK)
        return wire.forward(out, replies)
    return plant


def believes(when, answer=first):
    """Returns a planter: transactions are sent, but instead of the reply the program takes what `answer` returns."""
    def plant(wire, out, replies):
        reply = wire.forward(out, replies)
        return answer(wire, out, replies) or reply if when(wire, out, replies) else reply
    return plant


def takes_ids(*ids):
    """Returns a planter: a confirming ID counts as the right one if it is in `ids`, or if `ids` is empty."""
    def plant(wire, out, replies):
        is_confirming = confirms(*LATER_READS)(wire, out, replies)
        reply = wire.forward(out, replies)
        return wire.chip.part.id if is_confirming and (not ids or reply in ids) else reply
    return plant


def masks(mask, when):
    """Returns a planter: the program ignores the bits of `mask` in status 1 while `when` holds for the programmer."""
    def plant(wire, out, replies):
        reply = wire.forward(out, replies)
        return bytes(it & ~mask for it in reply) if out[0] == POLL and when(wire) else reply
    return plant


def writes_status(change):
    """Returns a planter: a status write sends `change` of its bytes, and isn't compared when it is read back."""
    def plant(wire, out, replies):
        if out[0] == WRITE_STATUS:
            return wire.forward(change(out), replies)
        reply = wire.forward(out, replies)
        at = {POLL: 1, STATUS_2: 2}.get(out[0])
        return wire.written[at : at + 1] * replies if at and wire.written else reply
    return plant


def keeps_blocks(*opcodes):
    """Returns a planter: data that was read before commands with these opcodes isn't read again after them."""
    def plant(wire, out, replies):
        if out[0] != READ_DATA:
            if out[0] in reference.CHANGING and out[0] != WRITE_ENABLE:
                wire.old_block = wire.block = wire.block if out[0] in opcodes else (0, b"")
            return wire.forward(out, replies)
        start, block = wire.old_block
        at = address(out) - start
        if 0 <= at and at + replies <= len(block):
            return block[at:][:replies]
        wire.block, wire.old_block = (address(out), wire.forward(out, replies)), (0, b"")
        return wire.block[1]
    return plant


def reads_on(when):
    """Returns a planter: reads of sectors read one more sector if `when` holds for their end. It isn't used."""
    def plant(wire, out, replies):
        has_room = SECTOR <= replies <= wire.longest_read() - SECTOR
        goes_on = out[0] == READ_DATA and has_room and when(wire, address(out) + replies)
        return wire.forward(out, replies + SECTOR * goes_on)[:replies]
    return plant


def also(when, plan):
    """Returns a planter: the transactions of the function `plan` are sent, too, before this one."""
    def plant(wire, out, replies):
        if when(wire, out, replies):
            for it in plan(wire):
                wire.forward(*it)
        return wire.forward(out, replies)
    return plant


def polls_one_byte(wire, out, replies):
    if (out, replies) == reference.STATUS_TWICE:
        return wire.forward(*reference.POLL) * 2
    return wire.forward(out, replies)


def believes_one_status(wire, out, replies):
    """Plants that only the first byte of the first poll counts, unless the chip is busy."""
    reply = wire.forward(out, replies)
    if (out, replies) != reference.STATUS_TWICE:
        return reply
    before = first(wire, out, replies) or reply
    return (reply if (before[0] | reply[0]) & 1 else before)[:1] * 2


def locks_another_device(wire, out, replies):
    """Gives the name of the programmer's device to a device that the program hasn't locked."""
    wire.link.unlink()
    wire.link.symlink_to("/dev/null")
    return wire.forward(out, replies)


def sends_one_by_one(wire, out, replies):
    """Records a page program that was written together with its write enable as written after it."""
    rest = len(wire.pending)
    if out[0] == WRITE_ENABLE and rest:
        wire.ways[-1:] = [wire.ways[-1] - rest, rest]
    return wire.forward(out, replies)


def overfills(wire, out, replies):
    """Records a long page program that was written after its write enable as written together with it."""
    if reference.joins(out) and wire.last == WRITE_ENABLE and wire.ways[-2:] == [8, 7 + len(out)]:
        wire.ways[-2:] = [15 + len(out)]
    return wire.forward(out, replies)


WIRE = {
    "does not lock": ("holds_its_lock", locks_another_device),
    "reads once": ("reads_twice", once(reads_data)),
    "restores any device": ("restores_no_other", believes(reads(READ_UNIQUE), lambda *_: bytes(8))),
    "does not enable writes": ("erases", drops(reads(WRITE_ENABLE))),
    "keeps blocks at programs": ("writes", keeps_blocks(0x02)),
    "keeps blocks at erases": ("erases_regions", keeps_blocks(*ERASES, 0xC7)),
    "keeps blocks at status writes": ("unlocks", keeps_blocks(WRITE_STATUS)),
    "reads past the end": ("reads_inside", reads_on(lambda wire, end: end == wire.chip.size)),
    "overfills the buffer": ("fills_no_buffer", overfills),
    "sends one by one": ("fills_no_buffer", sends_one_by_one),
    "begins while busy": ("restores_a_busy_chip", masks(BUSY, lambda wire: not wire.changed)),
    "polls once": ("restores_a_busy_chip", masks(BUSY, lambda wire: wire.changed)),
    "does not wake": ("wakes_the_chip", drops(reads(WAKE), blank)),
    "reads IDs once": ("identifies", once(reads_id_again)),
    "believes one ID": ("compares_replies", believes(reads(READ_UNIQUE, READ_SFDP))),
    "polls one byte": ("erases", polls_one_byte),
    "believes one status": ("bits_protect_05", believes_one_status),
    "believes one status 2": ("bits_protect_35", believes(reads(STATUS_2))),
    "asks each chip for status 2": ("never_enters_qpi", also(reads_id_again, lambda _: [reference.READ_STATUS_2])),
    "writes other bits": ("protects", writes_status(lambda out: out[:2] + bytes([out[2] | LB1]))),
    "does not read a status write back": ("protects", drops(reads_status_back, lambda wire, *_: wire.written[2:])),
    "does not compare a status write": ("reads_status_writes_back", writes_status(bytes)),
    "confirms nothing": ("loses_a_write", drops(confirms(*LATER_READS))),
    "confirms no data": ("loses_a_backup", drops(confirms(READ_DATA))),
    "confirms no status 1": ("loses_an_unlock", drops(confirms(POLL))),
    "confirms no status 2": ("loses_an_unlock", drops(confirms(STATUS_2))),
    "takes any ID": ("loses_a_read", takes_ids()),
    "takes FFh for the ID": ("loses_an_erase", takes_ids(b"\xff" * 3)),
    "reads the unique ID once": ("erases", once(reads(READ_UNIQUE))),
    "takes another unique ID": ("changes_no_other_chip", believes(reads(READ_UNIQUE))),
    "reads saved sectors": ("restores_marginal_bytes", also(begins_change, lambda _: [reference.read_sector(1)])),
    "reads ahead into saved sectors": ("restores", reads_on(lambda wire, end: not wire.changed)),
    "changes any chip": ("refuses_unknown_protection", masks(reference.PROTECTION_1, lambda wire: True)),
    "always writes SRP0": ("changes_srp0", also(
        reads_id_again, lambda wire: reference.write_status(bytes(wire.chip.status)))),
    "unprotects when it locks": ("changes_srp0", writes_status(lambda out: bytes([out[0], out[1] & SRP0, out[2]]))),
    "makes no trial reads": ("refuses_four_byte_mode", drops(is_trial)),
    "takes any overlap": ("refuses_four_byte_mode", believes(is_overlap, right)),
    "takes any long frame": ("refuses_firmware_that_wraps", believes(is_long, right)),
    "tries each place once": ("restores_bytes_that_change", once(is_overlap)),
    "takes a few bytes that differ": ("takes_unlike_bytes_at_some_places", believes(is_last_overlap, right)),
    "looks for no chip after the trial reads": ("sends_nothing_before_its_job", drops(looks_for_chip)),
    "tries long frames once": ("goes_on_after_noise", once(is_long)),
    "finds no bytes for a long frame": ("finds_bytes_for_a_long_frame", believes(is_short, blank)),
    "takes long frames that differ": ("refuses_firmware_that_changes_bytes", believes(is_long_again, right)),
    "sends no frame again": ("takes_a_shared_buffer", refuses(is_long_without_reply)),
}


# A planter in SAYS gets the opcode of a command and the programmer's reply, and returns what the program receives.


def says(opcode, reply):
    """Returns a planter: the program takes the reply to this command for `reply`."""
    return lambda wire, asked, got: reply if asked == opcode else got


def selects(_, opcode, reply):
    """Plants that the program takes each programmer for one with the command 16h."""
    return reply[:3] + bytes([reply[3] | 0x40]) + reply[4:] if opcode == 0x02 else reply


def repeats_stale(wire, opcode, reply):
    """Plants that stale bytes are still there after the synchronization."""
    return wire.traits.stale * (opcode == 0x01) + reply


SAYS = {
    "synchronizes once": ("takes_stale_bytes", repeats_stale),
    "takes any version": ("needs_version_1", says(0x01, ACK + b"\x01\x00")),
    "takes small limits": ("needs_wide_limits", says(0x08, ACK + b"\x05\x00\x00")),
    "selects without the command": ("needs_commands", selects),
    "reads past the limit": ("uses_small_programmers", says(0x11, ACK + bytes(3))),
}


# A planter in BEFORE gets the bench and the arguments of a run, and returns other arguments.


def adds(option, operation):
    return lambda _, words: words + [option] * (operation in words and option not in words)


def lacks(*options):
    return lambda _, words: [it for it in words if it not in options]


def overwrites(option):
    """Returns a planter: the file that this option names is removed before the run."""
    def plant(own, words):
        for name in [name for it, name in zip(words, words[1:]) if it == option]:
            own.path(name).unlink(missing_ok=True)
        return words
    return plant


def drops_second_read(_, words):
    return words[:-2] if "-r" in words and words[-2] == "--read" else words


BEFORE = {
    "overwrites journals": ("keeps_old_journals", overwrites("--journal")),
    "overwrites backups": ("makes_a_new_file", overwrites("--backup")),
    "skips equal sectors": ("restores_marginal_bytes", adds("--quick", "--restore")),
    "reads nothing after a change": ("erases_regions", adds("-N", "-E")),
    "compares with -N": ("leaves_out_the_comparison", lacks("-N", "--noverify-all")),
    "is never quick": ("restores_quickly", lacks("--quick")),
    "reads no rest": ("restores", adds("-N", "--restore")),
    "compares a restore with -N": ("restores_quickly", lacks("-N")),
    "takes an option twice": ("takes_long_names", drops_second_read),
    "knows no long names": ("takes_long_names", lambda _, words: [it.replace("--chip", "--none") for it in words]),
}


# A planter in AFTER gets the bench and the result of a run, and returns another result.


def hides(*begins):
    """Returns a planter: lines of standard error that begin so are missing. If none is left, the exit status is 0."""
    def plant(_, got):
        err = [it for it in got.err if not it.startswith(begins)]
        return got if err == got.err else bench.Result(int(bool(err)), got.out, err)
    return plant


def prints(text, other):
    return lambda _, got: got._replace(err=[it.replace(text, other) for it in got.err])


def leaves(name, content):
    """Returns a planter: if this file exists after a run, it contains the bytes that the function `content` returns."""
    def plant(own, got):
        if own.path(name).exists():
            own.write(name, content(own))
        return got
    return plant


def half_of(own):
    """Returns a journal with half of the sectors of the chip."""
    numbers = range(own.chip.size // SECTOR // 2)
    return reference.journal(own.part, own.data_before, numbers, bytes(own.chip.status), own.chip.unique)


def restores_nothing(own, got):
    if "--restore" in own.words:
        own.chip.data[:] = own.data_before
    return got


def changes_when_stopped(own, got):
    if got.err[:1] == ["Error 12: stopped."]:
        own.chip.data[0] ^= 0xFF
    return got


def creates_backup(own, got):
    if "whole" in own.words:
        own.path("whole").touch()
    return got


def seals_backup(own, got):
    if got.status:
        own.write("whole", reference.journal(own.part, b"\xff" * own.chip.size, range(own.chip.size // SECTOR)))
    return got


AFTER = {
    "opens anything": ("needs_a_character_device", hides("Programmer fault 2")),
    "verifies anything": ("verifies", hides("Error 14")),
    "restores nothing": ("restores", restores_nothing),
    "saves nothing": ("writes", leaves("j", lambda own: reference.journal(own.part, own.data_before, []))),
    "seals late": ("writes", leaves("j", lambda own: own.path("j").read_bytes()[:-1])),
    "ignores a changed length": ("refuses_a_port_that_changes_what_is_sent", hides("Programmer fault 12")),
    "believes changed data": ("notices_a_port_that_changes_what_is_received", hides("Programmer fault 13")),
    "changes a chip with wrong data": ("changes_nothing_with_wrong_data", changes_when_stopped),
    "does not say what is unprotected": ("reports_an_unprotected_chip", prints(UNPROTECTED, "")),
    "compares nothing": ("compares_the_rest", hides("Chip fault 4", "Also changed")),
    "compares included sectors only": ("compares_excluded_sectors", hides("Chip fault 4", "Also changed")),
    "compares no rest": ("compares_the_rest_of_a_restore", hides("Chip fault 4")),
    "compares only successful restores": ("compares_after_error_14", hides("Chip fault 4")),
    "hides the error of a restore": ("compares_after_error_14", hides("Error 14")),
    "always restores": ("reads_twice", prints(UNCHANGED, RESTORE)),
    "calls each chip unchanged": ("reports_causes", prints(RESTORE, UNCHANGED)),
    "saves half of the chip": ("saves_the_chip", leaves("whole", half_of)),
    "creates a backup first": ("makes_a_new_file", creates_backup),
    "seals a backup first": ("is_cut", seals_backup),
}

# Maps each mistake to the case or the job of bits.py that must detect it.
MISTAKES = {mistake: case for table in (WIRE, SAYS, BEFORE, AFTER) for mistake, (case, _) in table.items()}
# The exceptions that ended a programmer. They are mistakes of this module.
BROKEN = []


def plant_all():
    """Lets the cases of this process use the classes of this module."""
    bench.Server = Wire
    run.Bench = bits.Bench = WrongBench
    threading.excepthook = BROKEN.append


def lines_of(program, mistake, name):
    """Runs a case or a job of bits.py with a mistake, and returns the lines of its first failure, or an empty list."""
    Wire.mistake = mistake
    tries = bits.tries(program, [name]) if name.startswith("bits_") else [partial(run.try_case, program, name)]
    lines = next((list(it) for it in (one() for one in tries) if it), [])
    if BROKEN:
        raise BROKEN[0].exc_value
    return lines
