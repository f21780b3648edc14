"""Cases of --backup, which saves the whole chip in a new journal, and of restores from this journal."""
import reference
from bench import STRIDE, check
from chip import READ_ID, SECTOR
from faults import DIFFER, LOST
from losses import session_wire
from options import ALL, FREE, SIZE, images
from refusals import LARGE
from wire import STOPPED, begins, check_unchanged

UNIQUE = bytes(range(8))
BACKUP = ("--backup", "whole")
# The two ways to restore the whole chip. The first rewrites each saved sector, and --quick only those that differ.
WAYS = (("--restore", "whole"), ("--restore", "whole", "--quick"))


def large_chip():
    """Returns the bytes of a W25Q64FV whose first two and last two sectors aren't blank."""
    return bytes(range(256)) * 32 + b"\xff" * (LARGE - 16384) + bytes(range(255, -1, -1)) * 32


def saves_the_chip(start):
    """--backup saves each sector, the status bits and the unique ID in a new journal, and doesn't change the chip."""
    for part, old, status in ("TINY64", images("saves_the_chip")[0], b"\0\0"), \
            ("W25Q64FV", large_chip(), b"\x84\x02"):
        bench = start(part, data=old, status=status, unique=UNIQUE)
        lines = [reference.found(part), f"Read {len(old)} bytes."]
        bench.expect(*BACKUP, out=lines)
        bench.check_frames(reference.backup(part))
        bench.check_file("whole", reference.journal(part, old, range(len(old) // SECTOR), status, UNIQUE))
        check_unchanged(bench, old, status)
        bench.expect("--backup", "named", "-c", "SFDP" if part == "TINY64" else part, out=lines)
        bench.check_frames(reference.backup(part))


def shows_how_much_is_saved(start):
    """With plain progress at a terminal, a backup prints the number of each 256th scanned sector, from sector 1."""
    start().expect_at_terminal(*BACKUP, lines=["identify", "scan: sector 1 of 16"])
    bench = start("W25Q64FV")
    bench.expect_at_terminal(*BACKUP, lines=[
        "identify", *(f"scan: sector {n} of 2048" for n in range(1, 2048, 256))])


def restores_other_sectors(start):
    """After damage outside the session's sectors, the session's journal can't restore the chip, but a backup can.

    The restore from the session's journal ends with chip fault 5. A restore from the backup succeeds with and without
    --quick.
    """
    old, new = images("restores_other_sectors")
    for words in WAYS:
        bench = start(data=old)
        bench.write("new", new)
        check("the backup", bench.run(*BACKUP).status, 0)
        check("the session", bench.run("-w", "new", "--journal", "j").status, 0)
        bench.chip.data[5 * SECTOR + 7 : 9 * SECTOR] = b"\0" * (4 * SECTOR - 7)
        begins("the session's restore", bench.run("--restore", "j"), ["Chip fault 5: "])
        now = bytes(bench.chip.data)
        check("sectors that still differ", reference.touched(now, old), [5, 6, 8])
        plan = reference.restore("TINY64", old, ALL)
        line = reference.report(plan, len(ALL))
        if "--quick" in words:
            plan = reference.session("TINY64", now, old)
            line = reference.done(plan, now, old)
        bench.expect(*words, out=[reference.found("TINY64"), line])
        # The backup saves each sector, so no other sector has to be compared.
        bench.check_frames(reference.whole_restore("TINY64", plan, ALL))
        bench.check_chip(old)
        bench.check_file("whole", reference.journal("TINY64", old, ALL))


def restores_a_locked_chip(start):
    """If SRP0 and a protected range are set, a restore from a backup ends with error 9.

    With --quick it works, because no protected sector differs. If only SRP0 is set, it works without --quick.
    """
    old = large_chip()
    damaged = b"\0" * SECTOR + old[SECTOR:]
    for status, is_protected in (b"\x84\0", True), (b"\x80\0", False):
        bench = start("W25Q64FV", data=old, status=status)
        check("the backup", bench.run(*BACKUP).status, 0)
        # Sector 0 is damaged. The protected range is at the end of the chip, so it doesn't contain sector 0.
        bench.chip.data[:] = damaged
        if is_protected:
            bench.expect("--restore", "whole", err=reference.locked(status))
            check_unchanged(bench, damaged, status)
            check("the quick restore", bench.run("--restore", "whole", "--quick").status, 0)
        else:
            check("the restore", bench.run("--restore", "whole").status, 0)
        bench.check_chip(old, status)


def restores_after_wrong_addresses(start):
    """A backup restores the original chip after an address bit was wrong in one erase, or in a whole change.

    The session then ends with error 14 or chip fault 4, and a restore from its journal with chip fault 5.
    """
    for numbers, is_one in ((1, 2, 7, 15), True), ((2, 7, 15), False):
        old, new = images("restores_after_wrong_addresses", numbers)
        wire = session_wire(old, new)
        first = next(at for at, (out, _) in enumerate(wire, 1) if out[0] == 0x20)
        last = first if is_one else reference.compares_from(wire, first) - 1
        for words in WAYS:
            bench = start(data=old)
            bench.write("new", new)
            check("the backup", bench.run(*BACKUP).status, 0)
            bench.server.traits.wrong_address = (first, last, 14)
            first_word = "Error 14:" if is_one else "Chip fault 4:"
            begins("the session", bench.run("-w", "new", "--journal", "j"), [first_word])
            bench.server.traits.wrong_address = ()
            begins("the session's restore", bench.run("--restore", "j"), ["Chip fault 5: "])
            check("the chip is as before", bench.chip.data == old, False)
            check(" ".join(words), bench.run(*words).status, 0)
            bench.check_chip(old)


def makes_a_new_file(start):
    """A backup to an existing file (except the programmer's device) ends with file fault 4, and the file is unchanged.

    If there is no chip, or -c names another chip, the backup creates no file.
    """
    old, _ = images("makes_a_new_file")
    bench = start(data=old)
    for content in b"", old, reference.journal("TINY64", old, [1]):
        bench.write("whole", content)
        bench.expect(*BACKUP, err=reference.file_fault(4, "whole"))
        bench.check_file("whole", content)
        bench.check_nothing_sent()
    bench.expect("--backup", "dev", err=reference.file_fault(5, "dev"))
    bench.expect("--backup", "none/whole", err=reference.file_fault(2, "none/whole", "no directory"))
    bench.path("whole").unlink()
    bench.expect(*BACKUP, "-c", "W25Q64FV", err=reference.OTHER_NAME)
    bench.check_frames(reference.probe("TINY64"))
    bench.check_absent("whole")
    bench.chip.transfer = lambda out, replies: (b"\0" if out[:1] == b"\x05" else b"\xff") * replies
    bench.expect(*BACKUP, err=reference.NO_CHIP)
    bench.check_absent("whole")


def takes_no_other_option(start):
    """--backup with a second operation, --journal, -l, -i, -n, -N, --unlock or --quick ends with a usage fault."""
    bench = start(data=FREE)
    bench.write("layout", b"0:fff first\n")
    for fault, words, why in (
            (4, "-r out", "-r and --backup cannot be used together"),
            (4, "--restore j", "--restore and --backup cannot be used together"),
            (4, "-E --journal j", "-E and --backup cannot be used together"),
            (6, "--journal j", "--journal needs -w, -E or --wp-range"),
            (7, "-l layout -i first", "-l and -i need -r, -v, -w or -E"),
            (7, "-i first", "-i needs -l, --fmap, --fmap-file, --ifd or --ifd-file"),
            (8, "-n", "-n needs -w or -E"), (8, "-N", "-N needs -w, -E or --restore"),
            (8, "--unlock", "--unlock needs -w or -E"),
            (8, "--quick", "--quick needs --restore")):
        bench.expect(*BACKUP, *words.split(), err=[f"error: {why}", f"Usage fault {fault}."])
        bench.check_absent("whole")
    bench.check_nothing_sent()


def check_begun(bench, old):
    """Checks that the chip is unchanged, and that the journal is absent or incomplete. Removes an incomplete journal.

    An incomplete journal must be a prefix of the whole one, and a restore from it must end with error 15.
    """
    check_unchanged(bench, old, b"\0\0")
    if not bench.path("whole").exists():
        return
    begun, journal = bench.path("whole").read_bytes(), reference.journal("TINY64", old, ALL)
    check("the file is a part of the journal", begun == journal[: len(begun)] and len(begun) < len(journal), True)
    for words in WAYS:
        bench.expect(*words, err=reference.UNSEALED)
        bench.check_nothing_sent()
    bench.path("whole").unlink()


def saves_no_wrong_bit(start):
    """A wrong bit 3 in a reply stops a backup (error 12). If the journal exists, a restore from it ends with error 15.

    The case leaves out the replies before the job: those to ABh (which wakes the chip), to the trial reads, and to the
    first reads of the ID and of status 1.
    """
    old, _ = images("saves_no_wrong_bit")
    wire = reference.carried(reference.backup("TINY64"), old)
    bench = start(data=old)
    for number, (out, replies) in list(enumerate(wire, 1))[bench.first() - 1 :]:
        for byte in {0, replies // 2, replies - 1} if replies else ():
            # Bit 3 is wrong, not bit 0 (BUSY), which would only cost one more poll.
            bench.server.traits.wrong_bits = {number: (byte, 3)}
            cause = LOST if out[0] == READ_ID else DIFFER
            begins(f"transaction {number}, {out.hex()}", bench.run(*BACKUP), [STOPPED, cause])
            check_begun(bench, old)


def is_cut(start):
    """A backup that is killed, or loses a reply or the programmer, leaves no journal that --restore accepts."""
    old, _ = images("is_cut")
    wire = reference.carried(reference.backup("TINY64"), old)
    bench = start(data=old)
    for number in range(bench.first(), len(wire) + 1, STRIDE):
        for event in "kill", "lose", "unplug":
            got = bench.run(*BACKUP, events={number: event})
            check("status 0", got.status == 0, False)
            if event != "kill":
                begins(event, got, [STOPPED])
            bench.plug()
            if number > len(reference.carried(reference.probe("TINY64"), old)):
                check("the file was created", bench.path("whole").exists(), True)
            check_begun(bench, old)
    bench.expect(*BACKUP, out=[reference.found("TINY64"), f"Read {SIZE} bytes."])
    bench.check_file("whole", reference.journal("TINY64", old, ALL))


CASES = [saves_the_chip, shows_how_much_is_saved, restores_other_sectors, restores_a_locked_chip,
         restores_after_wrong_addresses, makes_a_new_file, takes_no_other_option, saves_no_wrong_bit, is_cut]
