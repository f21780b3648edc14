"""This module computes what the program must send, print and write for a chip that is never busy.

A plan is a list of the engine's transactions: pairs of the bytes sent and the number of bytes received. From a plan,
`carried` computes the transactions on the wire between programmer and chip. From these, `frames` computes the frames of
the serprog protocol. The module uses no code of the program.
"""
import hashlib

from chip import CMP, DEVICE, ERASES, PAGE, PARTS, READ_DATA, READ_ID, READ_SFDP, READ_UNIQUE, SECTOR, WAKE

POLL = (b"\x05", 1)
READ_STATUS_2 = (b"\x35", 1)
# A run first sends ABh, which wakes the chip. The frame contains 0Dh (13 bytes to send) and 0Ah (10 bytes to receive),
# which a port that isn't raw may change. If the programmer's limits are too low for this frame, the run sends only ABh.
WAKES = (bytes([WAKE]) + b"\x10" * 12, 10)
ONLY_WAKES = (bytes([WAKE]), 0)
# These two reads, of the ID and of status 1, show whether a chip is connected.
LOOK = [(b"\x9f", 3), (b"\x05", 1)]
# The run sends this command after WAKES. The reply is version 1, unless the port changed the frame of WAKES.
QUERY_VERSION = b"\x01"
# A poll on the wire receives status 1 twice.
STATUS_TWICE = (b"\x05", 2)
# The program sends reads with these opcodes twice, and compares their replies. After a reply, except an ID, CONFIRM
# reads the ID again, because a lost chip doesn't return its ID. CONFIRM also follows reads of data and the polls that
# `compared` sends twice.
TWICE = (READ_ID, READ_SFDP, READ_UNIQUE, 0x35)
CONFIRM = (bytes([READ_ID]), 3)
# A probe reads this number of bytes of the basic SFDP table, which are nine double words.
TABLE_LEN = 36
WRITE_ENABLE = (b"\x06", 0)
PROTECTION_1 = 0x7C
# This number stands for a programmer without a limit. It is greater than any number of bytes in a transaction.
UNLIMITED = 1 << 24
# Before a job, the program makes trial reads at or shortly after up to PLACES addresses, which are multiples of STEP.
# Each of two overlapping trial reads returns at most TRIAL bytes. A long read, whose frame sends at most PROGRAM bytes
# (as a page program does), returns at most FEW bytes.
PLACES, STEP, TRIAL, FEW, PROGRAM = 8, 0x1110, 32, 4, 260
ADDRESSES = range(0, PLACES * STEP, STEP)
# If none of these addresses suits a long read, TOP is tried. A read there that sends PROGRAM bytes reads at FFFFF0h.
TOP = 0xFFFEF0
# A block that is read ahead has at most BLOCK bytes. CHANGING has the opcodes of the modifying commands.
BLOCK = 65536
CHANGING = (0x06, 0x01, 0x02, *ERASES, 0xC7)

# This line follows the file fault with this number if the program doesn't know the cause.
FILE_HINTS = {
    1: "It is missing or can't be read: correct its name or its permissions.",
    2: "It can't be created, written or locked: correct its name or permissions, or free disk space.",
    4: "It exists already, and is never overwritten: choose a new name.",
    5: "It has two roles in this run, or another program uses it: give each role its own file, or wait for that "
       "program."}
# This line follows a file fault with this cause.
CAUSES = {
    "missing": "There is no such file: correct its name.",
    "no directory": "There is no such directory: correct its name.",
    "directory": "It is a directory: give the name of a file.",
    "denied": "Permission denied: correct its name or its permissions.",
    "full": "No space is left on the disk: free some, or choose another disk.",
    "loop": "Its links form a loop, or are too many: correct its name.",
    "long": "Its name is too long: shorten it.",
    "input": "Input/output error: check the disk, or choose another disk.",
    "refused": "The system refused it: choose another file or directory.",
    "locked": "Another process has locked it: wait until that process has ended.",
    "printed": "This run prints to it: choose another file."}
IS_JOURNAL = "It is a journal, which is never overwritten: choose a new name."
IS_NO_LOG = "It exists, and is no log, so it isn't overwritten: choose a new name."
# A restore prints these lines for a journal that isn't sealed.
UNSEALED = [
    "error: the journal was never sealed, or was cut off later", "Error 15: journal fault 1.",
    "If the terminal showed the progress of that session, but not SEALED, the chip was not changed. Otherwise look for "
    "another copy of the journal, and don't write or erase anything."]
# The program prints these lines if no chip replies.
NO_CHIP = ["Error 1: no chip.", "Check contacts, supply and wiring, and that cs= selects this chip. A chip in QPI mode "
           "looks the same: disconnect it from power."]
# The program prints these lines if a chip without SFDP replies an ID, but only FFh for status 1.
NO_STATUS = ["Error 2: unknown chip, SFDP fault 1.", "It replies an ID, but only FFh for status 1, so it isn't SPI NOR "
             "flash (but SPI NAND or DataFlash), or a contact is bad."]
# This line is printed with the clock that the programmer set and the clock in spispeed=.
HIGHER_CLOCK = "The programmer set its clock to {} Hz, above the {} Hz of spispeed=."
# This line follows error 4 if the run has regions.
WHOLE_IMAGE = "Give an image of the whole chip. -i NAME:FILE gives the bytes of a region."
# This text follows the two unique IDs in the line after error 20.
OTHER_UNIT = "The journal is another board's, or the chip was replaced: find this board's journal, or see " \
    "--replaced-chip."
# One of these two texts ends the line after error 17 on a chip of the table if SRP0 differs, and SRP1 doesn't.
SET_SRP0, CLEAR_SRP0 = (f" {do} SRP0 (--wp-{option}), and restore again."
                        for do, option in (("Set", "enable"), ("Clear", "disable")))
# This text follows error 17 on a chip of the table if only the chip has SRP1 set, and SRP0 is clear in both.
CLEAR_SRP1 = " A power cycle clears SRP1: disconnect the chip from power, and restore again."
# This text ends the line after error 17 in other cases, except if bits 2 to 5 differ on a chip found by SFDP.
WRITE_IMAGE = (" If the journal is this board's, write an image from before the session instead (-w, with a new journal): "
               "-w doesn't compare these bits, and leaves them as they are. See RECOVERY.")
# A restore keeps these bits of status 2 as they are on the chip, because the board's software may have changed them.
BOARD_BITS = {0x02: "QE", 0x04: "bit 2 of status 2", 0x08: "LB1", 0x10: "LB2", 0x20: "LB3"}
NOT_OFFERED = ["Error 8: range not offered.", "--wp-list lists the ranges that this chip can protect."]
# LOCKED has the line after error 9, and TO_UNLOCK the end of the line after error 10. A key says whether SRP0 and SRP1
# are set.
LOCKED = {
    (True, False): "SRP0 is set. Clear it while WP# is high (--wp-disable).",
    (False, True): "SRP1 is set. Clear it by a power cycle: disconnect the chip from power.",
    (True, True): "SRP0 and SRP1 are set: the status may be locked for good."}
TO_UNLOCK = {
    (False, False): ", or use --unlock.",
    (True, False): ". SRP0 is set: to lift the protection, clear it while WP# is high (--wp-disable), then use "
                   "--unlock.",
    (False, True): ". SRP1 is set: to lift the protection, disconnect the chip from power, then use --unlock.",
    (True, True): ". SRP0 and SRP1 are set: the protection may be there for good."}
# These are the lines of error 6 if bits 2 to 6 of status 1 are clear. If one of them is set, another line follows
# error 6.
NO_PROTECTION = ["Error 6: no protection on this chip.", "This program doesn't know the protection bits of this chip."]
# After --wp-enable (True) and --wp-disable (False) these lines say what the new value of SRP0 means.
LOCK_MEANING = {
    True: ["SRP0 is set: while WP# is low, the status and the protected range can't be changed.",
           "To clear SRP0, connect WP# to the supply, and use --wp-disable."],
    False: ["SRP0 is clear: the status can be changed. The protected range is as before.",
            "To set SRP0 again, also before a restore from a journal that has it set, use --wp-enable."]}
# The program prints these lines if -c names W25Q64FV, and the chip is TINY64.
OTHER_NAME = ["Error 3: another chip than named.", "-c names W25Q64FV. The connected chip has the ID fe1010, and only "
              "its SFDP is known: its name for -c is SFDP."]


def locks_of(status):
    """Returns whether SRP0 is set, and whether SRP1 is set, in these status bytes."""
    return bool(status[0] & 0x80), bool(status[1] & 0x01)


def locked(status):
    """Returns the lines of error 9 for a chip with these status bytes."""
    return ["Error 9: status locked.", LOCKED[locks_of(status)]]


def protected(address, status):
    """Returns the lines of error 10 at this address for a chip with these status bytes."""
    return [f"Error 10: protected at 0x{address:06x}.",
            f"Include only regions that aren't protected{TO_UNLOCK[locks_of(status)]}"]


def status_line(status):
    """Returns the last line of --wp-status for a chip with these status bytes."""
    names = {(False, False): "", (True, False): ", SRP0 is set", (False, True): ", SRP1 is set",
             (True, True): ", SRP0 and SRP1 are set"}
    return f"Status: 0x{status[0]:02x} 0x{status[1]:02x}{names[locks_of(status)]}"


# These are the names of the bits of status 1 and status 2, the highest bit first, without BUSY, WEL and SUS.
BITS = (((0x80, "SRP0"), (0x40, "SEC"), (0x20, "TB"), (0x10, "BP2"), (0x08, "BP1"), (0x04, "BP0")),
        ((0x40, "CMP"), (0x20, "LB3"), (0x10, "LB2"), (0x08, "LB1"), (0x04, "bit 2 of status 2"), (0x02, "QE"),
         (0x01, "SRP1")))


# The trial reads cause these two programmer faults. DEV stands for the device's name.
LONG_FRAMES = "Programmer fault 14: DEV doesn't send a page program as one whole transaction. Disconnect the chip and " \
    "its board from all power for ten seconds, and try again. If the line appears again, install firmware that sends " \
    "260 bytes in a transaction, or that says how many it sends (Q_WRNMAXLEN)."
FOUR_BYTES = "Programmer fault 15: DEV has a chip whose overlapping reads differ: it takes four address bytes, or a " \
    "contact is bad. Check contacts, disconnect the chip and its board from all power for ten seconds, and try again. If " \
    "the line appears again, the chip is set to begin in four-byte mode: this program can't use it."
# A restore ends with this line if it printed "Not restored" and restored everything else. The line isn't printed if the
# only bit that differs is QE, and QE is set on the chip.
LOST_BITS = "All bytes and protection bits are restored, but not the status bits of the line \"Not restored\" above."
# This text ends the line of chip fault 4 after a restore.
REST_DIFFERS = "from what was read before this restore. The journal doesn't save this sector, which a disturbed " \
    "address on the wire has probably erased or programmed. Restore this sector from a backup. Repeating this " \
    "restore won't report it again, because the next run compares with what the sector holds now."


def kept_bits(saved, found):
    """Returns the line that a restore prints if it keeps bits of status 2 that differ from the journal.

    `saved` is status 2 in the journal, and `found` is the chip's.
    """
    bits = "".join(f" {name} ({'set' if found & bit else 'clear'})" for bit, name in BOARD_BITS.items()
                   if (saved ^ found) & bit)
    quad = " A board that reads with four lines needs QE: set it with another tool." * (saved & 2 > found & 2)
    return f"Not restored: the chip keeps these status bits, which differ from the journal:{bits}.{quad}"


def not_stored_status(sent, found):
    """Returns the beginning of the line of chip fault 3 after a status write.

    `sent` has the status bytes that were written, and `found` those that were read back.
    """
    names = [name for bits, one, other in zip(BITS, sent, found) for bit, name in bits if (one ^ other) & bit]
    why = f"the chip did not store a status write; these bits differ: {' '.join(names)}. Check WP#, SRP0 and the " \
        "supply."
    if found[0] & ~sent[0] & 0x80:
        why = "SRP0 is still set, because the chip ignored the status write: WP# is probably low. Connect WP# to the " \
            "supply, and repeat the run."
    return f"Chip fault 3: {why} (Sent {sent[0]:02X}h {sent[1]:02X}h, read back {found[0]:02X}h {found[1]:02X}h.)"


def sealed(name):
    """Returns the line that a session prints before its first change. `name` is the name of its journal."""
    return ("SEALED: the chip is changed from here on. If this run is interrupted, disconnect the programmer from power "
            f"before the next run, and restore with the journal {name}.")


def unknown_chip(chip_id):
    """Returns the lines of error 2 for a chip with this ID and without SFDP."""
    return ["Error 2: unknown chip, SFDP fault 1.",
            f"Its ID is {chip_id.hex()}. If another run finds another ID, check contacts, supply and wiring, or lower the "
            "clock (spispeed=)."]


# In the line after error 14, these two texts surround the command that restores the chip. The key is the operation.
DIFFERENCE = {
    "-w": (", and compare the chip with the image (-v). If -v finds another address or none, the journal may be misread, "
           "too: first save the chip (--backup left.journal).", ""),
    "-E": (". The journal may be misread, too: first save the chip (--backup left.journal).", ""),
    "--restore": (".", " If error 14 occurs again, disconnect all power from the chip, and restore with --quick, then from "
                  "a backup without --quick: its erases may be others."),
}


def not_stored(address, operation="-w", journal="j"):
    """Returns the lines of error 14 for a change or restore whose first wrong byte is at this address."""
    first, last = DIFFERENCE[operation]
    return [f"Error 14: bytes differ at 0x{address:06x}.",
            f"The chip did not store all bytes, or they were misread: lower the clock (spispeed=){first} Then restore "
            f"the chip with --restore {journal}.{last}"]


# A journal without sectors has this length: 25 bytes for the header, and 36 for the end mark and the digest.
EMPTY = 61
# This text is the reason why no `JOURNAL.sectors` belongs to a journal that saves no sector, as after --wp-range.
UNWRITTEN = "isn't written by a session that saves no sector"


def unknown_sectors(journal, why="is missing"):
    """Returns the last line of a restore without a valid `JOURNAL.sectors`.

    With this file, a restore detects whether the session changed a sector that the journal doesn't save.
    """
    return (f"{journal}.sectors {why}, so it isn't known whether the session damaged another sector. To find out, "
            "compare the chip with an image (-v), or restore from a backup (--quick).")


def sums(part, old, known, unique=DEVICE):
    """Returns the file `JOURNAL.sectors` with the sums of the sectors in `known` (flashnor-serprog(8), FILES)."""
    found = b"NORSUMS1" + PARTS[part].id + unique
    for number in range(4096):
        found += b"\1" + hashlib.sha256(sector_of(old, number)).digest()[:8] if number in known else bytes(9)
    return found + hashlib.sha256(found).digest()


def is_partial(whole):
    """Returns whether these bytes are a journal of format 2 that saves some, but not all sectors of its chip."""
    saved = (len(whole) - EMPTY) // (SECTOR + 4)
    return whole[:8] == b"NORUNDO2" and 0 < saved < int.from_bytes(whole[21:25], "little") // SECTOR


def used_name(journal="j"):
    """Returns the last line of a failed backup, or of a session that failed between the seal and its first change."""
    return f"This run has created {journal}: repeat the command with a new journal name."


def file_fault(number, name, cause=None):
    """Returns the lines of the file fault `number` for this name.

    `cause` is a key of CAUSES, or `None` if the program doesn't know the cause.
    """
    return [f"File fault {number}: {name}.", CAUSES[cause] if cause else FILE_HINTS[number]]


def command(opcode, address=None, dummies=0):
    """Returns an opcode, three address bytes if an address is given, and the given number of dummy bytes."""
    return bytes([opcode]) + (b"" if address is None else address.to_bytes(3, "big")) + bytes(dummies)


# This transaction of a plan reads the unique ID.
UNIQUE = (command(READ_UNIQUE, 0, 1), 8)


class Limited(tuple):
    """This is a read in a plan: a pair of the bytes sent and the number of bytes received.

    The program may read ahead for this read, but not past the address `limit`.
    """
    limit = 1 << 24


def trials(data, sends=UNLIMITED, reads=UNLIMITED):
    """Returns the trial reads on a chip with these bytes.

    `sends` and `reads` are the limits of the programmer's transactions. First, at each address, two reads overlap. The
    first address whose bytes aren't all equal is the last one. Then, at each address and at TOP, a short read skips
    `padding` bytes. If the bytes that it returns aren't all equal, another read returns the skipped bytes, but at most
    `reads`. If these don't contain the bytes of the short read, the address is the last one: a long read sends
    `padding` bytes after it, so that its frame is as long as that of a page program (or as `sends`), and the short read
    is repeated. If there is no such address, a long and a short read return status 1 instead.
    """
    found, length, few, padding = [], min(TRIAL, reads), min(FEW, reads), min(PROGRAM, sends) - 4
    for address in ADDRESSES:
        found += [(command(READ_DATA, address), length), (command(READ_DATA, address + 1), length - 1)]
        if len(set(data[address : address + length])) > 1:
            break
    for address in *ADDRESSES, TOP:
        start, short = address % len(data), (command(READ_DATA, address + padding), few)
        found.append(short)
        last = data[start + padding :][:few]
        if len(set(last)) > 1:
            found.append((command(READ_DATA, address), min(padding, reads)))
            if last not in data[start:][: min(padding, reads)]:
                return found + [(command(READ_DATA, address, padding), few), short]
    return found + [(POLL[0] + bytes(padding + 3), few), (POLL[0], few)]


def before_job(data, sends=UNLIMITED, reads=UNLIMITED):
    """Returns the transactions on the wire before the first one of a job.

    They wake the chip, make the trial reads, and read the ID and status 1 to find out whether the chip is still
    connected.
    """
    has_room = sends >= len(WAKES[0]) and reads >= WAKES[1]
    return [WAKES if has_room else ONLY_WAKES] + trials(data, sends, reads) + LOOK


def carried(plan, data, reads=BLOCK, sends=UNLIMITED, chip=None, image=None):
    """Returns the transactions on the wire of a run with this plan, on a chip with the bytes `data`.

    `reads` and `sends` are the programmer's limits. The transactions begin with those of `before_job`.

    Data is read ahead. A read that begins where the last block ended reads a block of twice the last length, but at
    most `reads` bytes (rounded down to whole sectors), and not past the next multiple of 64 KiB or the `limit` of the
    read. Any other transaction discards the block. A block is read twice. If the run expects an image, only the sectors
    that differ from the image are read again. `chip` is then a model of the chip before the plan, which this function
    changes. After each read of data the ID is read.

    Before the first modifying command the unique ID is read again, if the plan reads it. Before the basic SFDP table
    the ID is read again. Status 2 isn't read from a chip that is found by its SFDP, because the SFDP of the models has
    only nine double words. All other replies are compared as `compared` describes.
    """
    found, begin, end, step, last = before_job(data, sends, reads), 0, 0, 0, 0
    has_row = all(out[0] != READ_SFDP for out, _ in plan)
    for item in plan:
        out, replies = item
        if out[0] != READ_DATA:
            end = begin
            if out[0] in CHANGING and not last and UNIQUE in plan:
                found += compared(*UNIQUE, last)
            if out[0] == READ_SFDP and replies == TABLE_LEN:
                found += compared(command(READ_ID), 3, last)
            if has_row or item != READ_STATUS_2:
                found += compared(out, replies, last)
            last = out[0] if out[0] in CHANGING else 0x05 if last else 0
            if chip:
                chip.transfer(out, replies)
            continue
        at = int.from_bytes(out[1:], "big")
        if at < begin or at + replies > end:
            step = min(2 * step, reads // SECTOR * SECTOR) if at == end > begin else replies
            limit = getattr(item, "limit", Limited.limit)
            begin, end = at, at + max(replies, min(step, BLOCK - at % BLOCK, limit - at))
            again = [(begin, end)] if image is None else differing(chip.read_data(begin, end - begin), image, begin)
            for start, stop in [(begin, end), *again]:
                found += [(command(READ_DATA, start), stop - start), CONFIRM]
    return found


def compares_from(wire, first):
    """Returns the number of the poll that begins the comparison after a change.

    The change begins at the transaction with the number `first`. The comparison identifies the chip again: a poll, and
    then two reads of the ID in a row, which occur nowhere between `first` and this poll.
    """
    return next(at for at, (out, _) in enumerate(wire, 1)
                if at > first and out[0] == wire[at][0][0] == READ_ID) - 1


def differing(data, image, begin):
    """Returns the address ranges of the sectors in `data` that differ from an image. Adjacent ranges are joined.

    `begin` is the address of the first byte of `data`.
    """
    found, end = [], begin + len(data)
    for at in range(begin // SECTOR * SECTOR, end, SECTOR):
        start, stop = max(at, begin), min(at + SECTOR, end)
        if data[start - begin : stop - begin] == image[start:stop]:
            continue
        if found and found[-1][1] == start:
            start = found.pop()[0]
        found.append((start, stop))
    return found


def compared(out, replies, last):
    """Returns the transactions on the wire for one transaction of a plan that reads no data.

    `last` is 0 if no modifying command was sent, the opcode of the previous transaction if that is a modifying command,
    and 05h otherwise. A poll receives status 1 twice in one reply. Before the first modifying command, and after a
    status write, the poll is sent twice, with a read of the ID after each reply. After a status write, status 2 is then
    read twice, too. Other reads in TWICE are sent twice. A read of the ID follows each of their replies, except if it
    is an ID itself.
    """
    if out[0] == POLL[0][0]:
        if last not in (0, 0x01):
            return [STATUS_TWICE]
        return [STATUS_TWICE, CONFIRM] * 2 + [READ_STATUS_2, CONFIRM] * (2 if last == 0x01 else 0)
    if out[0] in TWICE and out[0] != READ_ID:
        return [(out, replies), CONFIRM] * 2
    return [(out, replies)] * (2 if out[0] in TWICE else 1)


def frames(transactions):
    """Returns the serprog frames (O_SPIOP) of these transactions. Q_IFACE follows the frame of WAKES."""
    found = bytearray()
    for out, replies in transactions:
        found += b"\x13" + len(out).to_bytes(3, "little") + replies.to_bytes(3, "little") + out
        found += QUERY_VERSION * ((out, replies) == WAKES)
    return bytes(found)


def joins(out):
    """Returns whether the program may write this command to the port together with the write enable before it.

    This applies to page programs with at least 32 data bytes, if the serial buffer holds both commands.
    """
    return out[0] == 0x02 and len(out) >= 36


def writes(plan, buffer):
    """Returns the number of bytes of each write to the port for these transactions.

    `buffer` is the size of the serial buffer. A write enable waits for the command after it. Both are written together
    if this command `joins` and both fit into the buffer.
    """
    found, waiting = [], 0
    for out, replies in plan:
        length = 7 + len(out)
        is_waiting = (out, replies) == WRITE_ENABLE and length <= buffer
        if waiting and (not joins(out) or waiting + length > buffer):
            found.append(waiting)
            waiting = 0
        waiting += length
        if not is_waiting:
            found.append(waiting)
            waiting = 0
        if (out, replies) == WAKES:
            found.append(len(QUERY_VERSION))
    return found


def probe(part):
    """Returns the plan of a probe. A chip whose ID isn't in the table is identified by its SFDP."""
    plan = [POLL, (command(READ_ID), 3)]
    if not PARTS[part].has_row:
        plan += [(command(READ_SFDP, at, 1), length) for at, length in ((0, 8), (8, 8), (16, TABLE_LEN))]
    return plan


def identify(part):
    """Returns the plan of the identification, which is the first step of a session or restore."""
    return probe(part) + [READ_STATUS_2, UNIQUE]


def read_sector(number):
    return command(READ_DATA, number * SECTOR), SECTOR


def operation(out):
    """Returns the plan of one operation: a write enable, the command, and one poll, because the chip is never busy."""
    return [WRITE_ENABLE, (out, 0), POLL]


def write_status(status):
    return operation(bytes([0x01]) + status)


def without_protection(status):
    """Returns the status bytes with all protection bits cleared."""
    return bytes([status[0] & ~PROTECTION_1 & 0xFC, status[1] & ~CMP])


def sector_of(data, number):
    return data[number * SECTOR : (number + 1) * SECTOR]


def erases(raised, size):
    """Returns the plan that erases these sectors of a chip with `size` bytes, in ascending order."""
    raised, plan = set(raised), []
    if len(raised) == size // SECTOR:
        return operation(b"\xc7")
    left = sorted(raised)
    while left:
        for opcode, length in sorted(ERASES.items(), key=lambda it: -it[1]):
            count = length // SECTOR
            block = range(left[0] // count * count, left[0] // count * count + count)
            if raised.issuperset(block):
                break
        plan += operation(command(opcode, block[0] * SECTOR))
        left = [it for it in left if it not in block]
    return plan


def programs(number, old, target):
    """Returns the plan that programs a sector.

    In each page with a difference one span is programmed, from the first to the last difference.
    """
    plan = []
    for at in range(0, SECTOR, PAGE):
        differ = [at + i for i in range(PAGE) if old[at + i] != target[at + i]]
        if differ:
            first, after = differ[0], differ[-1] + 1
            plan += operation(command(0x02, number * SECTOR + first) + target[first:after])
    return plan


def change(old, target, numbers, verifies=True):
    """Returns the plan of a session's steps Erase, Program and Verify, for these sectors of an unprotected chip."""
    touched = [it for it in numbers if sector_of(old, it) != sector_of(target, it)]
    raised = [it for it in touched
              if any(new & ~was for was, new in zip(sector_of(old, it), sector_of(target, it)))]
    plan = erases(raised, len(old))
    for number in touched:
        was = sector_of(old, number)
        if number in raised:
            was = b"\xff" * SECTOR
        else:
            plan.append(read_sector(number))
        plan += programs(number, was, sector_of(target, number))
    return plan + [read_sector(it) for it in touched] * verifies


def session(part, old, target, numbers=None, verifies=True):
    """Returns the plan of a session on an unprotected chip. `numbers` are the sectors with an included address."""
    numbers = range(len(old) // SECTOR) if numbers is None else numbers
    return identify(part) + [read_sector(it) for it in numbers] + change(old, target, numbers, verifies)


def rewriting(old, saved):
    """Returns the plan that erases, programs and verifies these sectors."""
    plan = erases(saved, len(old))
    for number in saved:
        plan += programs(number, b"\xff" * SECTOR, sector_of(old, number))
    return plan + [read_sector(it) for it in saved]


def restore(part, old, saved):
    """Returns the plan of a restore on an unprotected chip, from a journal that saves these sectors of `old`.

    The restore erases and programs these sectors without reading them first.
    """
    return identify(part) + rewriting(old, saved)


def read_rest(part, saved):
    """Returns the plan that reads each sector which the journal doesn't save.

    No read may read ahead into a saved sector.
    """
    count, plan = PARTS[part].size // SECTOR, []
    for number in sorted({*range(count)} - {*saved}):
        plan.append(Limited(read_sector(number)))
        plan[-1].limit = SECTOR * min([it for it in saved if it > number], default=count)
    return plan


def whole_restore(part, plan, saved):
    """Returns the plan of --restore without -N.

    `plan` is the restore itself, and `saved` are the sectors in the journal. The program first identifies the chip.
    Before and after the restore, it reads the sectors that the journal doesn't save.
    """
    rest = read_rest(part, saved)
    return probe(part) + rest + plan + rest


def read_out(part, numbers):
    """Returns the plan of -r.

    The program probes before it creates the file, and once more before it reads the sectors.
    """
    return probe(part) * 2 + [read_sector(it) for it in numbers]


def read_whole(part):
    """Returns the plan that probes the chip and reads all of it."""
    return probe(part) + [read_sector(it) for it in range(PARTS[part].size // SECTOR)]


def backup(part):
    """Returns the plan of --backup. The program probes before it creates the file."""
    return probe(part) + identify(part) + [read_sector(it) for it in range(PARTS[part].size // SECTOR)]


def whole_run(part, plan, is_compared=False, has_regions=False):
    """Returns the plan of -w or -E. `plan` is the session.

    The program probes before it creates the journal. If the whole chip is compared, the program reads it after the
    session and, if the run has regions, also before.
    """
    return probe(part) + read_whole(part) * (is_compared and has_regions) + plan + read_whole(part) * is_compared


def touched(old, target):
    return [it for it in range(len(old) // SECTOR) if sector_of(old, it) != sector_of(target, it)]


def journal(part, old, saved, status=b"\0\0", unique=DEVICE):
    """Returns a journal of format 2 that saves these sectors of a chip (flashnor-journal(5))."""
    found = b"NORUNDO2" + PARTS[part].id + unique + status + len(old).to_bytes(4, "little")
    for number in saved:
        found += number.to_bytes(4, "little") + sector_of(old, number)
    found += b"\xff" * 4
    return found + hashlib.sha256(found).digest()


def done(plan, old, target):
    """Returns the line "Done: .." that a session with this plan prints."""
    return report(plan, len(touched(old, target)))


def report(plan, count):
    """Returns the line "Done: .." of a session or restore with this plan that touches `count` sectors."""
    erased = sum(out[0] in (*ERASES, 0xC7) for out, _ in plan)
    programmed = sum(out[0] == 0x02 for out, _ in plan)
    return f"Done: touched {count}, erases {erased}, programs {programmed}, transactions {len(plan)}."


def found(part):
    """Returns the line "Found .." for this chip."""
    name = part if PARTS[part].has_row else "SFDP"
    return f"Found {name} ({PARTS[part].id.hex()}), {PARTS[part].size} bytes."
