"""Cases of --wp-enable and --wp-disable, which set and clear SRP0 (bit 7 of status 1).

Most cases use a W25Q64FV, whose block protection the program knows, with a high level at its WP# pin.
"""
import reference
from bench import check
from options import images
from refusals import LARGE
from wire import STOPPED, numbers_of

PART = "W25Q64FV"
FOUND = "Found W25Q64FV (ef4017), 8388608 bytes."
SET, CLEAR = reference.LOCK_MEANING[True], reference.LOCK_MEANING[False]
AGAIN = " Then repeat the run: until it succeeds, SRP0 may have either value."
# The transactions that read the status, once after the identification and once after the status write.
READ = [reference.POLL, reference.READ_STATUS_2]


def text(status):
    return f"0x{status[0]:02x} 0x{status[1]:02x}"


def changed(before, after, meaning):
    """Returns the lines that a run prints if it changed SRP0."""
    return [FOUND, f"Status before: {text(before)}", f"Status now: {text(after)}", *meaning]


def kept(status, meaning):
    """Returns the lines that a run prints if SRP0 had the wanted value already."""
    return [FOUND, f"Status (unchanged): {text(status)}", *meaning]


def bench_with(start, status, wp_low=False, **chosen):
    """Returns a bench whose chip has these status bytes and this level of WP#."""
    bench = start(PART, status=status, **chosen)
    bench.chip.wp_low = wp_low
    return bench


def changes_srp0(start):
    """Both options change only SRP0, by one status write, and then read the status back. They create no file."""
    for rest in b"\0\0", b"\x04\0", b"\x58\x7a", b"\x7c\x42":
        clear, is_set = rest, bytes([rest[0] | 0x80, rest[1]])
        bench = bench_with(start, clear)
        files = sorted(it.name for it in bench.folder.iterdir())
        for option, before, after, meaning in (("--wp-enable", clear, is_set, SET),
                                               ("--wp-disable", is_set, clear, CLEAR)):
            bench.expect(option, out=changed(before, after, meaning))
            check("status bytes", bytes(bench.chip.status), after)
            bench.check_frames(reference.probe(PART) + READ + reference.write_status(after) + READ)
            bench.expect(option, out=kept(after, meaning))
            bench.check_frames(reference.probe(PART) + READ)
            check("status bytes", bytes(bench.chip.status), after)
        check("ignored transactions", bench.chip.ignored, 0)
        check("files", sorted(it.name for it in bench.folder.iterdir()), files)


def locks_the_protection(start):
    """With WP# low and SRP0 set, --wp-disable ends with chip fault 3, and --wp-range with error 9.

    With WP# high, --wp-disable works again.
    """
    bench = bench_with(start, b"\x04\0", wp_low=True)
    bench.expect("--wp-enable", out=changed(b"\x04\0", b"\x84\0", SET))
    for _ in range(2):
        bench.expect("--wp-disable", err=[STOPPED, reference.not_stored_status(b"\x04\0", b"\x84\0")])
        check("status bytes", bytes(bench.chip.status), b"\x84\0")
    bench.expect("--wp-range", "0,0", "--journal", "j", err=reference.locked(b"\x84\0"))
    bench.chip.wp_low = False
    # The ignored status write left WEL (bit 1) set.
    bench.expect("--wp-disable", out=changed(b"\x86\0", b"\x04\0", CLEAR))


def reports_a_missed_write(start):
    """If the chip misses the status write, --wp-enable ends with chip fault 3.

    If the programmer refuses the status write, the line with the cause advises to repeat the run. If it refuses the
    transaction before the write enable, the line doesn't.
    """
    bench = bench_with(start, b"\x04\x02")
    bench.expect("--wp-enable", out=changed(b"\x04\x02", b"\x84\x02", SET))
    number = numbers_of(bench, 0x01)[0]
    bench.chip.status[:] = b"\x04\x02"
    bench.server.traits.misses = {number: 0xFF}
    bench.expect("--wp-enable", err=[
        STOPPED, reference.not_stored_status(b"\x84\x02", b"\x04\x02") + AGAIN])
    got = bench.run("--wp-enable", events={number: "nak"})
    check("the cause", (got.err[:1], got.err[1].endswith(AGAIN)), ([STOPPED], True))
    got = bench.run("--wp-enable", events={number - 2: "nak"})
    check("the cause", (got.err[:1], AGAIN in got.err[1]), ([STOPPED], False))
    check("status bytes", bytes(bench.chip.status), b"\x04\x02")


def refuses_to_lock(start):
    """If SRP1 is set, both options end with error 9, and on a chip without known block protection with error 6.

    If -c names another chip, they end with error 3. Runs with error 9 or 6 send no status write.
    """
    for status in b"\0\x01", b"\x80\x01":
        bench = bench_with(start, status)
        for option in "--wp-enable", "--wp-disable":
            bench.expect(option, err=reference.locked(status))
            bench.check_frames(reference.probe(PART) + READ)
    bench = start()
    for option in "--wp-enable", "--wp-disable":
        bench.expect(option, err=reference.NO_PROTECTION)
        bench.check_frames(reference.probe("TINY64"))
        bench.expect(option, "-c", PART, err=reference.OTHER_NAME)
    bench_with(start, b"\x80\0").expect("--wp-disable", "-c", PART, out=changed(b"\x80\0", b"\0\0", CLEAR))


def takes_one_lock(start):
    """A run of either option with a second operation, --journal, -l, -n or --unlock ends with a usage fault."""
    bench = start(PART)
    bench.write("image", b"")
    for fault, words, why in (
            (4, "--wp-enable --wp-disable", "--wp-enable and --wp-disable cannot be used together"),
            (4, "-w image --wp-disable --journal j", "-w and --wp-disable cannot be used together"),
            (4, "--wp-status --wp-enable", "--wp-status and --wp-enable cannot be used together"),
            (4, "--wp-range 0,0 --wp-disable --journal j", "--wp-range and --wp-disable cannot be used together"),
            (6, "--wp-disable --journal j", "--journal needs -w, -E or --wp-range"),
            (7, "--wp-enable -l image -i a", "-l and -i need -r, -v, -w or -E"),
            (8, "--wp-enable -n", "-n needs -w or -E"), (8, "--wp-disable --unlock", "--unlock needs -w or -E")):
        bench.expect(*words.split(), err=[f"error: {why}", f"Usage fault {fault}."])
    got = bench.run("--wp-enable", "image")
    check("the last line", (got.out, got.err[-1:], got.status), ([], ["Usage fault 1."], 1))
    bench.check_nothing_sent()


def logs_the_status_write(start):
    """-V shows the status write of --wp-disable. The log has a line before the change, and ends as the output does."""
    bench = bench_with(start, b"\x84\0")
    got = bench.run("--wp-disable", "-V", "-o", "log")
    check("standard output", got.out, changed(b"\x84\0", b"\x04\0", CLEAR))
    commands = [line.split(" ", 1)[1] for line in got.err]
    check("lines of -V", commands, ["identify", "write enable", "write status, 2 bytes"])
    lines = bench.path("log").read_text().splitlines()
    check("the line before the change", "The chip is changed from here on." in lines, True)
    check("the last lines of the log", lines[-5:], got.out)


def changes_a_locked_chip(start):
    """A chip with SRP0 and protected sectors can be unlocked, changed, restored and locked again.

    The chip then holds its original bytes and status.
    """
    first, status = images("changes_a_locked_chip"), b"\x9c\x02"
    old, new = (data + b"\xff" * (LARGE - len(data)) for data in first)
    bench = bench_with(start, status, data=old)
    bench.remembers = False
    bench.write("new", new)
    bench.write("layout", b"0:ffff low\n")
    words = "-w", "new", "--unlock", "-N", "-l", "layout", "-i", "low"
    bench.expect(*words, "--journal", "refused", err=reference.locked(status))
    bench.expect("--wp-disable", out=changed(status, b"\x1c\x02", CLEAR))
    check("the change", bench.run(*words, "--journal", "j").status, 0)
    bench.check_chip(new, b"\x1c\x02")
    bench.expect("--wp-enable", out=changed(b"\x1c\x02", status, SET))
    # SRP0 is clear in the journal, and set on the chip.
    bench.expect("--restore", "j", "-N", err=[
        "Error 17: status differs from the journal's.",
        "Status in the journal: 1c 02 BP0 BP1 BP2 QE. Status of the chip: 9c 02 BP0 BP1 BP2 SRP0 QE."
        + reference.CLEAR_SRP0])
    bench.expect("--wp-disable", out=changed(status, b"\x1c\x02", CLEAR))
    check("the restore", bench.run("--restore", "j", "-N").status, 0)
    bench.check_chip(old, b"\x1c\x02")
    bench.expect("--wp-enable", out=changed(b"\x1c\x02", status, SET))
    bench.check_chip(old, status)


def says_which_lock_differs(start):
    """If only SRP0 differs, a line after error 17 says how to set or clear SRP0.

    If only SRP1 differs, and is set on the chip, the line says how to clear SRP1. In the other cases the line advises
    to write an image. BP0 and QE don't change the advice.
    """
    data = b"\xff" * LARGE
    for saved, found, its, advice in (
            (b"\x80\0", b"\0\0", "80 00 SRP0. Status of the chip: 00 00.", reference.SET_SRP0),
            (b"\0\0", b"\x84\0", "00 00. Status of the chip: 84 00 BP0 SRP0.", reference.CLEAR_SRP0),
            (b"\0\0", b"\0\x01", "00 00. Status of the chip: 00 01 SRP1.", reference.CLEAR_SRP1),
            (b"\0\x01", b"\0\0", "00 01 SRP1. Status of the chip: 00 00.", reference.WRITE_IMAGE),
            (b"\0\x08", b"\0\0", "00 08 LB1. Status of the chip: 00 00.", reference.WRITE_IMAGE),
            (b"\0\0", b"\x80\x01", "00 00. Status of the chip: 80 01 SRP0 SRP1.", reference.WRITE_IMAGE),
            (b"\0\0", b"\x80\x02", "00 00. Status of the chip: 80 02 SRP0 QE.", reference.CLEAR_SRP0)):
        bench = bench_with(start, found, data=data)
        bench.write("j", reference.journal(PART, data, [0], saved))
        bench.expect("--restore", "j", "-N", err=[
            "Error 17: status differs from the journal's.", f"Status in the journal: {its}{advice}"])
        bench.check_chip(data, found)


CASES = [changes_srp0, locks_the_protection, reports_a_missed_write, refuses_to_lock, takes_one_lock,
         logs_the_status_write, changes_a_locked_chip, says_which_lock_differs]
