"""Cases with modelled chips of twelve makers, which the package `chips` describes.

Each chip is either refused, or written and restored. After a write the chip must hold each byte of the target. After
the restore it must hold each byte and status bit of the original, even if the program was killed or the chip lost its
power. A chip that is refused receives only reads, ABh, and opcodes that it doesn't know, and the program creates no
journal.
"""
import hashlib
import random
import time
from typing import NamedTuple

import reference
from bench import check, check_data
from chips import ALL
from models import Model, action_of

SECTOR, BLOCK = 4096, 65536
READS = ("data", "status", "id", "sfdp", "unique", "wake")
# The events that stop a session (or disturb it: `dip`, a short loss of power), each at a pair of numbers: an operation,
# and a poll after it (poll 0 is the operation's own command). The first operations erase, and the later ones program.
# `RESTORE_STOPS` stop a restore.
STOPS = (("kill", (1, 0)), ("power", (1, 1)), ("lose", (2, 0)), ("power", (3, 0)), ("kill", (6, 1)), ("power", (9, 0)),
         ("dip", (2, 0)), ("dip", (8, 0)))
RESTORE_STOPS = (("power", (1, 0)), ("kill", (4, 0)))
# The arguments of a write, without the journal's name, that is limited to the regions with changed sectors. -N leaves
# out the comparison of the whole chip.
IN_REGIONS = "-w", "new", "-N", "-l", "layout", "-i", "low", "-i", "middle", "-i", "high", "--journal"
# The two values of a received byte if nothing drives the line to the programmer.
LEVELS = 0xFF, 0x00
# The longest time in seconds that a refused run may take, even on a busy machine.
SOON = 20
# If no chip replies, the program reads the ID and status 1 ten times (`ASKED`). If the replies are FFh, it then sends
# `LEAVING`, which ends continuous reads and, on some chips, QPI mode.
ASKED, LEAVING = [b"\x9f", b"\x05"] * 10, [b"\xff", b"\xff\xff"]


class Refused(NamedTuple):
    """The beginnings of the lines printed by the jobs that end with an error (`err`), and these jobs (`jobs`).

    The other jobs of the case only read, and succeed.
    """

    err: tuple
    jobs: tuple


CHANGES = ("-w", "new", "--journal", "j"), ("-E", "--journal", "j")
BACKUP = ("--backup", "j")
READINGS = (), ("--flash-size",), ("-r", "out")
NO_SECTORS = Refused(("Error 2: unknown chip, SFDP fault 8.",), (*CHANGES, BACKUP))


def unknown(fault, *hints):
    jobs = (*CHANGES, BACKUP, *READINGS, ("--wp-status",))
    return Refused((f"Error 2: unknown chip, SFDP fault {fault}.", *hints), jobs)


# The chips that are refused; all others are written. W25Q256JV has 32 MiB, MX25L6405D has no SFDP, and S25FL128S-256
# has sectors of 256 KiB. The other S25FL128S have 4 KiB sectors only at one end. The last two chips have no status 1.
NO_STATUS = unknown(1, reference.NO_STATUS[1])
REFUSED = {
    "W25Q256JV": unknown(7), "MX25L6405D": unknown(1), "S25FL128S-256": unknown(8),
    "S25FL128S": NO_SECTORS, "S25FL128S-top": NO_SECTORS, "S25FL128S-old": NO_SECTORS,
    "AT45DB081E": NO_STATUS, "MX35LF1GE4AB": NO_STATUS,
}
# The chips whose blocks are all locked after each power-up, and the bit of the third register that is set while blocks
# have locks of their own.
LOCKED, OWN_LOCKS = ("SST26VF064B",), 0x04
# The chips whose SFDP says that bit 6 of status 1 is QE. QE isn't restored, so a journal contains 0 for this bit.
QUAD = "MX25L12873G", "IS25LP064", "IS25LP128"


def images(it):
    """Returns the original, the target, and the numbers of the sectors that differ: a block of 64 KiB and three more.

    Only sector 40 needs no erase.
    """
    chance = random.Random(it.name)
    old = bytearray(chance.randbytes(it.size))
    last = it.size // SECTOR - 1
    changed = (*range(16), 40, 41, last)
    for number in changed:
        fresh = bytearray(b"\xff" * SECTOR)
        fresh[250:262], fresh[2000:2003] = chance.randbytes(12), chance.randbytes(3)
        old[number * SECTOR : (number + 1) * SECTOR] = fresh
    new = bytearray(old)
    for number in changed:
        at = number * SECTOR
        new[at + 200 : at + 700] = chance.randbytes(12) + b"\xff" * 488
    new[40 * SECTOR : 41 * SECTOR] = old[40 * SECTOR : 41 * SECTOR]
    new[40 * SECTOR + 900 : 40 * SECTOR + 903] = b"\0\x10\0"
    return bytes(old), bytes(new), changed


class Play:
    """A bench whose chip is a `Model` of the description `it`, with its original, target and changed sectors."""

    def __init__(self, start, it, status=None):
        self.it, self.bench = it, start()
        self.old, self.new, self.changed = images(it)
        self.registers = bytes(it.registers if status is None else (status, *it.registers[1:]))
        self.bench.remembers = False
        self.bench.chip = Model(it, self.old, self.registers, LEVELS[0])
        self.bench.plug()
        self.bench.write("new", self.new)
        self.bench.write("layout", "".join(
            f"{at:08x}:{after - 1:08x} {name}\n" for name, at, after in self.regions()).encode())

    def regions(self):
        """Returns the name, the first address and the end of three regions, which contain all changed sectors."""
        return (("low", 0, BLOCK), ("middle", 40 * SECTOR, 42 * SECTOR), ("high", self.it.size - SECTOR, self.it.size))

    def run(self, *words, **events):
        """Runs the program, and returns its result. Checks that the chip ignored only reads and ABh.

        Afterwards the chip must not be in QPI mode, asleep or in four-byte mode.
        """
        got = self.bench.run(*words, **events)
        check(f"what the chip ignored in {words}", [it.hex() for it in self.chip.ignored if it[:1] != b"\xab"], [])
        check(f"in QPI, asleep, or in 4-byte mode after {words}",
              (self.chip.is_in_qpi, self.chip.is_asleep, self.chip.has_four), (False, False, False))
        return got

    @property
    def chip(self):
        return self.bench.chip

    def only_reads(self, words):
        """Checks that the last run sent only reads, ABh (which wakes the chip), and opcodes that the chip doesn't know.

        It must not have sent 06h, 01h, or a 35h that doesn't read status 2 of this chip.
        """
        sent = sorted({f"{out[0]:02x}" for out, _ in self.bench.server.log
                       if (action_of(self.it, out) or "data") not in READS or out[0] in (0x01, 0x06, 0x35)
                       and action_of(self.it, out) != "status"})
        check(f"other opcodes than those of reads in {words}", sent, [])

    def expect(self, *words, out=()):
        """Runs the program, which must succeed and print the chip's ID and size in its first line.

        The next lines must begin with the texts in `out`.
        """
        got = self.run(*words)
        check(f"exit status of {words}, {got.err}", got.status, 0)
        check(f"the first line of {words}", f"({self.it.id.hex()}), {self.it.size} bytes." in got.out[0], True)
        lines = tuple(line[: len(begins)] for begins, line in zip(out, got.out[1:]))
        check(f"how the next lines of {words} begin", lines, out)

    def check_chip(self, data):
        check_data(f"the chip {self.it.name}", bytes(self.chip.data), data)
        check("status registers", bytes(self.chip.status).hex(), self.registers.hex())

    def check_journal(self, name, numbers):
        """Checks each byte of a journal that saves the sectors `numbers`.

        If the chip has no unique ID, the journal contains eight bytes FFh or eight bytes 00h as its unique ID.
        """
        found = self.bench.path(name).read_bytes()
        unique = found[11:19]
        if set(self.it.unique) <= {0xFF}:
            check("the unique ID", unique in (b"\xff" * 8, bytes(8)), True)
        else:
            check("the unique ID", unique, self.it.unique[:8])
        second = self.registers[1] if 0x35 in {out[0] for out, _ in self.bench.server.log} else 0
        first = self.registers[0] & ~0x40 if self.it.name in QUAD else self.registers[0]
        wanted = b"NORUNDO2" + self.it.id + unique + bytes([first, second])
        wanted += self.it.size.to_bytes(4, "little")
        for number in numbers:
            wanted += number.to_bytes(4, "little") + self.old[number * SECTOR : (number + 1) * SECTOR]
        wanted += b"\xff" * 4
        check_data(name, found, wanted + hashlib.sha256(wanted).digest())


def identifies(play):
    for words in (), ("--flash-size",), ("--flash-name",):
        got = play.run(*words)
        check(f"exit status of {words}, {got.err}", got.status, 0)
        play.only_reads(words)
    play.check_chip(play.old)


def is_written(play, journal="j"):
    """Backs up the whole chip, writes it, compares it and restores it, and checks the chip and the journals."""
    play.expect("--backup", "b", out=("Read ",))
    play.only_reads("--backup")
    play.check_journal("b", range(play.it.size // SECTOR))
    play.expect("-w", "new", "--journal", journal, out=("Done: ",))
    play.check_chip(play.new)
    play.check_journal(journal, play.changed)
    play.expect("-v", "new", out=("Verified.",))
    play.only_reads("-v")
    play.expect("--restore", journal, out=("Done: ",))
    play.check_chip(play.old)


def is_restored(play):
    """Stops or disturbs a session in regions at each of `STOPS`, and restores the chip after each of these sessions.

    After the first two sessions, the first restore is stopped, too.
    """
    for number, (event, at) in enumerate(STOPS):
        journal = f"j{number}"
        stop(play, (*IN_REGIONS, journal), event, at)
        if number < len(RESTORE_STOPS):
            stop(play, ("--restore", journal, "-N"), *RESTORE_STOPS[number])
        play.expect("--restore", journal, "-N", out=("Done: ",))
        play.check_chip(play.old)


def stop(play, words, event, at):
    """Runs the program with an event, which must occur. Except after `kill` and `dip`, connects a programmer again."""
    got = play.run(*words, events={at: event})
    if play.bench.server.traits.events:
        check(f"the event {event} at {at} of {words}", got, "an event")
    if event == "kill":
        check(f"exit status of {words}", got.status, -9)
        return
    # After a short loss of power, the run may detect wrong bytes (exit status 1) or succeed.
    if event != "dip":
        check(f"exit status of {words}, {got.err}", got.status, 1)
        play.bench.plug()


def is_protected(play):
    """Protects the first half of the chip. A write then ends with error 10, and a restore removes the protection."""
    half = play.it.size // 2
    play.expect("--wp-range", f"0,{half:#x}", "--journal", "p", out=("Done: ",))
    check("the protected range", play.it.protected(play.chip.status, play.it.size), (0, half))
    got = play.run("-w", "new", "--journal", "q")
    check("the refusal", (got.err[0][:9], got.status), ("Error 10:", 1))
    play.only_reads("-w")
    play.bench.check_absent("q")
    play.expect("--restore", "p", out=("Done: ",))
    play.check_chip(play.old)


def is_refused(play, refused):
    """Checks that the refused jobs end soon, send only reads and ABh, and create no journal. Others must succeed."""
    for words in refused.jobs:
        began = time.monotonic()
        got = play.run(*words)
        check(f"the end of {words} within seconds", time.monotonic() - began < SOON, True)
        begins = tuple(line[: len(wanted)] for wanted, line in zip(refused.err, got.err))
        check(f"the refusal of {words}", (begins, got.out, got.status), (refused.err, [], 1))
        play.only_reads(words)
        play.bench.check_absent("j")
        play.check_chip(play.old)
    if READINGS[0] not in refused.jobs:
        identifies(play)
        play.expect("-r", "out", out=("Read ",))
        play.only_reads("-r")
        play.bench.check_file("out", play.old)


# The chips whose ID is in the program's table of chips. Only on these chips a case uses --wp-range.
ROWS = "W25Q64FV", "W25Q64JV", "W25Q128JV", "W25Q64JV-M"


def writes(start, it):
    """a chip that is identified, backed up, written, compared and restored, with each byte and status bit checked"""
    play = Play(start, it)
    identifies(play)
    is_written(play)


def moves(start, it):
    """a chip that is restored while its floating lines have another level than in the session, as at another clip"""
    play = Play(start, it)
    for before, after in (LEVELS, LEVELS[::-1]):
        journal = f"j{before}"
        play.chip.floating = before
        play.expect(*IN_REGIONS, journal, out=("Done: ",))
        play.check_chip(play.new)
        play.chip.floating = after
        play.expect("--restore", journal, "-N", out=("Done: ",))
        play.check_chip(play.old)


def stops(start, it):
    """a chip that is restored after kills and losses of power in sessions and restores, and lost replies in sessions"""
    is_restored(Play(start, it))


def protects(start, it):
    """a chip whose first half is protected, so a write there ends with error 10, until a restore unprotects it"""
    is_protected(Play(start, it))


def clears_wel_late(start, it):
    """a chip that is written and restored although WEL stays set for one, two or three reads of status 1 after BUSY"""
    for late in 1, 2, 3:
        play = Play(start, it)
        play.chip.late = late
        is_written(play)
        if it.name in ROWS:
            is_protected(play)


def has_own_locks(start, it):
    """a chip that keeps its bytes while its blocks are locked, and is restored and written once they are unlocked"""
    play = Play(start, it)
    play.chip.status[2] |= OWN_LOCKS
    got = play.bench.run("-w", "new", "--journal", "j")
    check("the write", (got.err[0][:9], got.status), ("Error 14:", 1))
    play.registers = bytes((*it.registers[:2], it.registers[2] & ~OWN_LOCKS))
    play.chip.status[2] &= ~OWN_LOCKS
    play.chip.ignored.clear()
    play.check_chip(play.old)
    play.expect("--restore", "j", out=("Done: ",))
    play.check_chip(play.old)
    is_written(play, "k")


def refuses(start, it):
    """a chip that is refused by the jobs of `REFUSED`, which send only reads"""
    is_refused(Play(start, it), REFUSED[it.name])


def is_in_qpi(start, it):
    """a chip in QPI mode that ignores FFh, so each run ends with error 1, at either level of the floating line"""
    for level in LEVELS:
        stays_lost(start, it, level)


def is_in_qpi_at_00(start, it):
    """a chip in QPI mode that can't receive FFh, because the floating line is low, so each run ends with error 1"""
    stays_lost(start, it, 0x00)


def stays_lost(start, it, level):
    """Checks that three jobs on a chip in QPI mode end with error 1, and send FFh only if the floating line is high.

    If the line is low, the chip would receive another byte than FFh.
    """
    play = Play(start, it)
    play.chip.floating, play.chip.is_in_qpi = level, True
    for words in (), CHANGES[0], BACKUP:
        got = play.bench.run(*words)
        check(f"the refusal of {words}", (got.err, got.out, got.status), (reference.NO_CHIP, [], 1))
        play.only_reads(words)
        check("FFh was sent", LEAVING[0] in sent_to(play), level == 0xFF)
        play.bench.check_absent("j")
    check("in QPI", play.chip.is_in_qpi, True)
    play.check_chip(play.old)


def begins_in_four_byte_mode(start, it):
    """a chip in four-byte mode, on which each run sends only ABh and 03h, and ends with programmer fault 15"""
    for level in LEVELS:
        # The chip waits for a fourth address byte of each 03h, so the first byte of the reply has the level of the
        # floating line.
        play = Play(start, it)
        play.chip.floating, play.chip.has_four = level, True
        for words in (), ("-r", "out"), CHANGES[1], BACKUP:
            got = play.bench.run(*words)
            check(f"the refusal of {words}", (got.err, got.out, got.status),
                  ([play.bench.device(reference.FOUR_BYTES)], [], 1))
            check("opcodes", {out[:1] for out, _ in play.bench.server.log}, {b"\xab", b"\x03"})
            play.bench.check_absent("j")
            play.bench.check_absent("out")
        play.check_chip(play.old)


def sent_to(play):
    """Returns the bytes sent by each transaction of the last run except the first one, which wakes the chip."""
    return [out for out, _ in play.bench.server.log[1:]]


def leaves_qpi(start, it):
    """a chip in QPI mode that is found after the program has sent FFh, which ends this mode. Later runs send no FFh"""
    play = Play(start, it)
    play.chip.is_in_qpi = True
    got = play.bench.run()
    check(f"exit status, {got.err}", got.status, 0)
    check("what was sent first", sent_to(play)[:23], [*ASKED, *LEAVING, b"\x9f"])
    check("FFh was sent later", LEAVING[0] in sent_to(play)[22:], False)
    play.chip.ignored.clear()
    identifies(play)
    check("FFh was sent", LEAVING[0] in sent_to(play), False)


def ends_continuous_reads(start, it):
    """a blank chip that is found although it is in a continuous read with two or four lines, so it returns only FFh"""
    for lines in 2, 4:
        play = Play(start, it)
        play.chip.data[:], play.chip.lines = b"\xff" * it.size, lines
        got = play.bench.run()
        check(f"the run with {lines} lines, {got.err}", (got.status, play.chip.lines), (0, 0))
        # With four lines, the first transaction (ABh) already ends the continuous read, so FFh isn't sent.
        check("FFh was sent", LEAVING[0] in sent_to(play), lines == 2)


def case_of(played, it, name=None):
    """Returns a case that runs `played` on the chip `it`. The case's name ends with the chip's name in lower case."""
    def case(start):
        played(start, it)
    case.__name__ = f"{name or played.__name__}_{it.name.lower().replace('-', '_')}"
    case.__doc__ = f"{it.maker} {it.name} is {getattr(played, 'func', played).__doc__}."
    return case


def cases():
    for it in (it for it in ALL.values() if it.name not in LOCKED):
        for played in (refuses,) if it.name in REFUSED else (writes, stops):
            yield case_of(played, it)
        if it.name not in REFUSED and not {0x35, 0x4B} <= set(it.opcodes):
            yield case_of(moves, it)
    yield from (case_of(clears_wel_late, ALL[name]) for name in ("W25Q64FV", "MT25QL128"))
    yield from (case_of(has_own_locks, ALL[name]) for name in ("W25Q128JV", *LOCKED))
    yield from (case_of(is_in_qpi, ALL[name]) for name in ("MX25L12835F", "IS25LP128", "MT25QL128"))
    for it in (it for it in ALL.values() if 0xFF in it.leaves_qpi):
        yield case_of(is_in_qpi_at_00, it)
        if it.name not in LOCKED:
            yield case_of(leaves_qpi, it)
    yield case_of(ends_continuous_reads, ALL["W25Q64FV"])
    yield case_of(begins_in_four_byte_mode, ALL["W25Q256JV"])
    yield from (case_of(protects, ALL[name]) for name in ROWS)


CASES = list(cases())
