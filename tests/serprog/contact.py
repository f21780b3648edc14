"""In these cases the chip loses its contact or supply during a job, for a while or until the run ends.

In the cases of `lose`, it begins at each transaction of the run in turn, except the first. A lost chip misses what is
sent, and each byte of a reply is FFh, or each is 00h. The cases check that:

- A run ends with exit status 0 only if the chip, and the file that the run wrote, are as requested.
- No sealed journal has bytes that the chip never had, and no one-time bit is set.
- If a run changed the chip, the journal restores the original chip.
- If the chip is lost after the job's first read of the ID and stays lost, the line after error 12 reports it.
"""
import hashlib
import time

import bits
import reference
from bench import STRIDE, check, check_data
from chip import ONCE, PARTS, SECTOR
from faults import LOST, RESTORE, UNCHANGED
from losses import FEW, chip_images
from wire import STOPPED

UNIQUE = bits.UNIQUE
ALL = range(16)
# If the loss begins at one of the first IDENTIFICATION transactions of a job, `lose` tries each length in LENGTHS with
# both reply bytes, otherwise one length and one byte. For each byte, `lose` also tries the length END (until the run
# ends), except for FFh if the first lost reply is that of a poll of the job.
IDENTIFICATION = 19
LENGTHS = (1, 2, 3, 5, 9)
END = 1 << 24
ADVICE = "h during the run. Check contacts and supply."
# If a change or restore was completed, but the comparison after it stopped, this line follows the line with the cause.
# The key is the operation.
COMPLETED = {
    "-w": "The change was made, and its sectors were verified. Only the comparison of the whole chip is missing.",
    "-E": "The change was made, and its sectors were verified. Only the comparison of the whole chip is missing.",
    "--restore": "The sectors that the journal doesn't save were not compared after the restore. "
                 "Compare the chip with a backup."}


def tiny(words, after, saved=()):
    """Returns a job on TINY64 that leaves the bytes `after` on the chip. Its journal saves the sectors `saved`."""
    old, _ = chip_images(FEW)
    return bits.Work("TINY64", words, old, after, b"\0\0", b"\0\0", [],
                     reference.journal("TINY64", old, saved, b"\0\0", UNIQUE))


def records(journal):
    """Returns the first 21 bytes of a journal (magic, ID, unique ID, status), and its saved sectors by their numbers.

    Returns `None` and no sectors if the journal isn't sealed.
    """
    if hashlib.sha256(journal[:-32]).digest() != journal[-32:]:
        return None, {}
    found = {}
    for at in range(25, len(journal) - 36, SECTOR + 4):
        found[int.from_bytes(journal[at : at + 4], "little")] = journal[at + 4 : at + 4 + SECTOR]
    return journal[:21], found


def check_journal(bench, name, work):
    """Checks that a sealed journal has the chip's ID, unique ID and status, and only sectors of the original chip.

    A journal that is missing or isn't sealed is not checked.
    """
    if not bench.path(name).exists():
        return
    header, sectors = records(bench.path(name).read_bytes())
    if header is None:
        return
    check("the ID, the unique ID and the status in the sealed journal", header, work.journal[:21])
    for number, data in sectors.items():
        original = work.after if work.words[0] == "--restore" else work.before
        check_data(f"sector {number} in the sealed journal", data, reference.sector_of(original, number))


def begin(bench, work):
    """Sets the chip and the files to their state before the job."""
    bench.chip.data[:], bench.chip.status[:], bench.chip.wel = work.before, work.status, False
    for name in ("j", "j.sectors", "out"):
        bench.path(name).unlink(missing_ok=True)
    if work.words[0] == "--restore":
        bench.write("j", work.journal)


def try_lost(bench, work, lost):
    """Runs a job with a loss of the chip, checks what the run leaves, and returns its result.

    `lost` has the first and the last transaction that the chip misses, and the byte that is received instead. If `lost`
    is empty, the chip isn't lost.
    """
    begin(bench, work)
    bench.server.traits.lost = lost
    got = bench.run(*work.words)
    bench.server.traits.lost = ()
    chip = bench.chip
    check("one-time bits", chip.status[1] & ONCE, work.status[1] & ONCE)
    check("the exit status is 0 or 1", got.status in (0, 1), True)
    name = "out" if work.words[0] == "--backup" else "j"
    check_journal(bench, name, work)
    is_as_before = chip.data == work.before and chip.status == work.status
    if got.status == 0:
        check("the chip is as asked", chip.data == work.after, True)
        check("status bytes", bytes(chip.status), work.new_status)
        if work.words[0] == "-r":
            bench.check_file("out", work.before)
        else:
            bench.check_file(name, work.journal)
        return got
    if says_completed(got, work):
        check("the chip of a completed job is as asked", (chip.data == work.after, bytes(chip.status)),
              (True, work.new_status))
    if any(it.endswith(UNCHANGED) for it in got.err):
        check("the chip is unchanged", is_as_before, True)
    if not is_as_before:
        back = (work.after, work.new_status) if work.words[0] == "--restore" else (work.before, work.status)
        again = bench.run("--restore", "j", *["-N"] * (work.part != "TINY64"))
        check("the restore", (again.err, again.status), ([], 0))
        check("the chip after the restore", chip.data == back[0], True)
        check("status bytes after the restore", bytes(chip.status), back[1])
    return got


def says_completed(got, work):
    """Returns whether the run reported that its change or restore was completed, and only the comparison is missing."""
    return got.err[2:] == [COMPLETED.get(work.words[0])]


def check_cause(got, work, at, seal, byte):
    """Checks what a run printed whose chip was lost from transaction `at` until the end.

    `seal` is the number of transactions before the first modifying command.
    """
    cause = f"{LOST}{PARTS[work.part].id.hex().upper()}h to {3 * f'{byte:02X}'}{ADVICE}"
    if not says_completed(got, work):
        if work.words[0] == "--restore":
            cause += " " + RESTORE
        elif work.words[0] in ("-w", "-E", "--wp-range"):
            cause += " " + (UNCHANGED if at <= seal else RESTORE)
            # The first modifying commands of a job with --unlock (06h and 01h) lift the protection.
            cause += " Until then it may be unprotected." * ("--unlock" in work.words and at > seal)
    check("the cause", (got.err[:2], got.out), ([STOPPED, cause], []))


def lose(start, work):
    """Runs a job repeatedly, with a loss that begins at each transaction except the first in turn. Checks each run."""
    bench = start(work.part, data=work.before, status=work.status, unique=UNIQUE)
    bench.remembers = False
    bench.write("layout", bits.LAYOUT)
    bench.write("new", work.after)
    first = bench.first()
    check("the run without a loss", try_lost(bench, work, ()).status, 0)
    log = list(bench.server.log)
    # This is the number of transactions before the first modifying command.
    seal = next((at for at, (out, _) in enumerate(log) if out[0] in reference.CHANGING), END)
    # With the STRIDE of 9 that self.py sets, losses begin at transactions 8, 17 and so on, which are enough to detect
    # all mistakes in self.py.
    for at in (it for it in range(2, len(log) + 1) if it % STRIDE == 8 % STRIDE):
        is_first = first <= at < first + IDENTIFICATION
        # If polls receive FFh, the program waits as for a busy chip. contacts.py tests such losses after an operation.
        is_poll = at >= first and next(out for out, reply in log[at - 1 :] if reply) == b"\x05"
        for byte in (0xFF, 0x00) if is_first else ((0xFF, 0x00)[at % 2],):
            for length in LENGTHS if is_first else (LENGTHS[at // 2 % len(LENGTHS)],):
                try_lost(bench, work, (at, at + length - 1, byte))
            if is_poll and byte == 0xFF:
                continue
            got = try_lost(bench, work, (at, END, byte))
            if at < first and byte == 0xFF:
                check("a chip that is lost before the job", (got.err, got.status), (reference.NO_CHIP, 1))
            # Transaction `first + 1` reads the job's first ID. Only a loss that begins later is reported as a change of
            # the ID.
            if at > first + 1:
                check_cause(got, work, at, seal, byte)


def finds_no_contact(start):
    """Checks that a run without contact, in which every reply byte is FFh, ends with error 1 and creates no file.

    The program must read the ID and status 1 ten times, send FFh and FFh FFh, which end continuous reads and the QPI
    mode of some chips, and read the ID once more.
    """
    old, new = chip_images(FEW)
    for words, absent in (((), ()), (("-r", "out"), ("out",)), (("--backup", "j"), ("j",)), (("--wp-status",), ()),
                          (("-w", "new", "--journal", "j"), ("j", "j.sectors")), (("--wp-enable",), ())):
        bench = start(data=old)
        bench.write("new", new)
        bench.server.traits.lost = (1, END, 0xFF)
        bench.expect(*words, err=reference.NO_CHIP)
        check("transactions", [out for out, _ in bench.server.log[1:]],
              [b"\x9f", b"\x05"] * 10 + [b"\xff", b"\xff\xff", b"\x9f"])
        for name in absent:
            bench.check_absent(name)


def waits_for_a_late_contact(start):
    """Checks that a chip is found if its contact returns before the program reads the ID for the last time.

    A busy chip is found, too, even if it is busy for three seconds.
    """
    for last in 1, 2, 3, 4, 19, 20, 21, 23:
        bench = start()
        bench.server.traits.lost = (1, last, 0xFF)
        bench.expect(out=[reference.found("TINY64")])
    bench = start()
    bench.server.traits.lost = (1, 24, 0xFF)
    bench.expect(err=reference.NO_CHIP)
    bench = start()
    bench.chip.until = time.monotonic() + 3
    bench.server.traits.lost = (1, 1, 0xFF)
    bench.expect(out=[reference.found("TINY64")])
    check("is busy", bench.chip.is_busy(), False)


def waits_for_a_late_status(start):
    """Checks that a chip with SFDP is found even if it replies only FFh to reads of status 1 for four seconds.

    Such a chip without SFDP is refused with error 2 after ten reads of the ID and of status 1, and one of SFDP.
    """
    bench = start()
    transfer, until, unknown = bench.chip.transfer, time.monotonic() + 4, [b"\x05", b"\xab"]
    bench.chip.transfer = lambda out, replies: (
        b"\xff" * replies if out[:1] in unknown and time.monotonic() < until else transfer(out, replies))
    bench.expect(out=[reference.found("TINY64")])
    check("status 1 was late", time.monotonic() > until, True)
    until = time.monotonic() + 60
    unknown.append(b"\x5a")
    bench.expect(err=reference.NO_STATUS)
    check("transactions", [out for out, _ in bench.server.log[1:]], [b"\x9f", b"\x05"] * 10 + [b"\x5a\0\0\0\0"])


def loses_a_write(start):
    """Tries losses of the chip during -w on a chip of 64 KiB, and during the comparison of the whole chip."""
    lose(start, tiny(("-w", "new", "--journal", "j"), chip_images(FEW)[1], FEW))


def loses_an_erase(start):
    """Tries losses of the chip during -E on a chip of 64 KiB, and during the comparison of the whole chip."""
    old, _ = chip_images(FEW)
    blank = b"\xff" * len(old)
    lose(start, tiny(("-E", "--journal", "j"), blank, reference.touched(old, blank)))


def loses_a_read(start):
    """Tries losses of the chip during -r of a chip of 64 KiB."""
    lose(start, tiny(("-r", "out"), chip_images(FEW)[0]))


def loses_a_backup(start):
    """Tries losses of the chip during --backup of a chip of 64 KiB."""
    lose(start, tiny(("--backup", "out"), chip_images(FEW)[0], ALL))


def loses_a_restore(start):
    """Tries losses of the chip during --restore on a chip of 64 KiB, and during its comparison of unsaved sectors."""
    lose(start, bits.restore_tiny())


def loses_a_change_of_range(start):
    """Tries losses of the chip during --wp-range on a W25Q64FV with QE and CMP set."""
    lose(start, bits.protect())


def loses_a_restore_of_the_range(start):
    """Tries losses of the chip during --restore from a journal of --wp-range, on a W25Q64FV with QE set."""
    lose(start, bits.restore_range())


def loses_an_unlock(start):
    """Tries losses of the chip during -w --unlock of one sector of a W25Q64FV that is protected as a whole."""
    lose(start, bits.unlock())


CASES = [finds_no_contact, waits_for_a_late_contact, waits_for_a_late_status, loses_a_write, loses_an_erase,
         loses_a_read, loses_a_backup, loses_a_restore, loses_a_change_of_range, loses_a_restore_of_the_range,
         loses_an_unlock]
