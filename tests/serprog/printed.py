"""These cases test printed lines: commands to copy, progress, locked status bits, reasons of the system, and logs.

A printed command must name the right file in each of SHELLS. Some cases test which file a failed run
removes, keeps or overwrites.
"""
import os
import re
import shutil
import subprocess
import time
from pathlib import Path

import reference
import terminal
from bench import WAITING, Differs, check
from chip import SECTOR
from journals import RESTORE, describe
from losses import session_wire
from maps import with_fmap
from options import images
from regions import random_image

SHELLS = [it for it in ("sh", "dash", "bash", "busybox") if shutil.which(it)]
LARGE = 1 << 23
MEANWHILE = Path(__file__).parents[1] / "flashnor/meanwhile.c"
NAMES = ["x';touch PWN;'", "it's", "'", "a b", "$(touch PWN)", "`touch PWN`", 'a"b', "a\\b", "*", "~", "#a", "!x", "-j",
         "\u00e9"]
# The program prints no command with one of these names, because they contain a newline, an escape sequence, a C1
# control character, or U+202E, which reverses text. The values are the names as they are printed.
UNPRINTED = {"a\u202eb": "a\\xe2\\x80\\xaeb", "a\nb": "a\\x0ab", "a\x1b[31mb": "a\\x1b[31mb", "a\u0085b": "a\\xc2\\x85b"}


def taken_back(bench, command):
    """Returns the last argument of a command, as the shells parse the command.

    Checks that all SHELLS agree, and that no shell ran the `touch PWN` in a name.
    """
    found = set()
    for shell in SHELLS:
        script = f"last() {{ shift $(($# - 1)); printf %s \"$1\"; }}\nlast {command}"
        words = ["busybox", "sh"] if shell == "busybox" else [shell]
        found.add(subprocess.run([*words, "-c", script], cwd=bench.folder, capture_output=True, check=True).stdout)
    bench.check_absent("PWN")
    check("names that the shells took", len(found), 1)
    return found.pop().decode()


def quotes_names(start):
    """Checks that each shell takes the journal's name from the restore command that --check-journal prints.

    For a name that can't be copied, a line with the printable form of the name is printed instead of a command.
    """
    bench = start()
    whole = reference.journal("TINY64", bytes(65536), (1,))
    for name in NAMES:
        bench.write(name, whole)
        line = describe(bench, f"./{name}" if name[0] == "-" else name).out[-1]
        check("the command", line.startswith(RESTORE[:-1]), True)
        back = taken_back(bench, line.partition(": ")[2])
        check("the name", back, f"./{name}" if name[0] == "-" else name)
    for name, text in UNPRINTED.items():
        bench.write(name, whole)
        line = describe(bench, name).out[-1]
        check("the line", line, f"To restore, rename the file, whose name can't be copied: {text}")


def quotes_names_after_error_12(start):
    """Checks that each shell takes the journal's name from the restore command in the line after error 12.

    If the name contains a newline, the line says that the name can't be copied.
    """
    old, new = images("quotes_names_after_error_12")
    at = next(at for at, (out, _) in enumerate(session_wire(old, new), 1) if out[0] == 0x02)
    for name in NAMES[:3]:
        bench = start(data=old)
        bench.write("new", new)
        got = bench.run("-w", "new", f"--journal={name}", events={at: "nak"})
        check("error 12", got.err[0], "Error 12: stopped.")
        text = got.err[1].partition(" Then restore the chip with ")[2]
        check("the name", taken_back(bench, text.removesuffix(".")), name)
    bench = start(data=old)
    bench.write("new", new)
    got = bench.run("-w", "new", "--journal=a\nb", events={at: "nak"})
    check("the advice", got.err[1].endswith(
        "--restore and the journal, whose name can't be copied: a\\x0ab."), True)
    check("the number of lines", len(got.err), 2)


def quotes_the_device(start):
    """Checks that each of SHELLS reads the device's name, with its apostrophe, from the stty command of a fault."""
    bench = start()
    device = bench.path("it's")
    os.symlink("/dev/null", device)
    for rate in ":9600", "":
        got = bench.finish(bench.start_words([bench.program, "-p", f"serprog:dev={device}{rate}"]))
        found = re.search("stty -F (.*?) (?:9600 )?raw -echo", " ".join(got.err))
        check("the device", taken_back(bench, found[1]), str(device))


def counts_what_it_reads_again(start):
    """Checks that progress counts the second read of a blank sector as read back, and not as a sector of the scan.

    A session reads a blank sector once more, after the scan, before it programs the sector.
    """
    old = b"\xff" * LARGE
    bench = start("W25Q64FV", data=old)
    bench.write("new", b"\0" + old[1:])
    scan = [f"scan: sector {n} of 2048" for n in range(1, 2048, 256)]
    bench.expect_at_terminal("-w", "new", "--journal", "j", lines=[
        "identify", *scan, "Sectors to change: 1. Erases: 0. Bytes of journal: 4161.", "read back: 1 sector",
        reference.sealed("j"), "program: 1 page", "read back: 2 sectors",
        *(it.replace("scan", "compare") for it in scan)])


def says_how_long_a_change_takes(start):
    """Checks the estimate before a change: less than a second, or minutes and seconds for a longer change."""
    old = b"\x5a" * LARGE
    for number, text in (1, "The change takes less than a second."), (40, "The change takes about M:SS at the chip's "
                                                                         "typical times and R."):
        bench = start("W25Q64FV", data=old)
        new = bytearray(old)
        for sector in range(0, 32 * number, 32):
            new[SECTOR * sector] = 0xA5
        bench.write("new", bytes(new))
        status, printed, _ = terminal.run(bench, "-w", "new", "--journal", "j", "-N")
        check("status", status, 0)
        lines = [re.sub(r"\d+(\.\d)? KiB/s", "R", re.sub(r"\d+:[0-5]\d", "M:SS", it))
                 for it in terminal.Screen(printed).lines]
        check("the line", [it for it in lines if it.startswith("The change takes")], [text])


def shows_locks(start):
    """Checks that --wp-status names SRP0 and SRP1 if they are set, and that --wp-range prints the protected range."""
    bench = start("W25Q64FV")
    for status, last in ((b"\0\0", "0x00 0x00"), (b"\x84\x02", "0x84 0x02, SRP0 is set"),
                         (b"\x1c\x01", "0x1c 0x01, SRP1 is set"), (b"\x80\x01", "0x80 0x01, SRP0 and SRP1 are set")):
        bench.chip.status[:] = status
        got = bench.run("--wp-status")
        check("the last line", (got.status, len(got.out), got.out[-1]), (0, 3, f"Status: {last}"))
    for number, (asked, shown) in enumerate((("0x7e0000,0x20000", "0x7e0000,0x020000"), ("0,0", "0x000000,0x000000"),
                                             ("4096,0", "0x000000,0x000000"), ("0,8388608", "0x000000,0x800000"))):
        bench = start("W25Q64FV")
        got = bench.run("--wp-range", asked, "--journal", "j")
        check(f"the last line {number}", (got.status, len(got.out), got.out[-1]), (0, 3, f"Range: {shown}"))
        check("what is protected", bench.run("--wp-status").out[0], got.out[-1])


def advises_on_locks(start):
    """Checks the line after error 10 for each state of SRP0 and SRP1. If one of them is set, --unlock is not enough.

    Error 6 is followed by a line about bits of status 1 that are set and may protect sectors.
    """
    old = b"\xff" * LARGE
    for status in b"\x04\0", b"\x84\0", b"\x04\x01", b"\x84\x01":
        bench = start("W25Q64FV", data=old, status=status)
        bench.write("new", old[:-1] + b"\0")
        got = bench.run("-w", "new", "--journal", "j", "-N")
        check("the lines", got.err[:2], reference.protected(LARGE - 4096, status))
    bench = start("TINY64", status=b"\x1c\0")
    bench.expect("--wp-status", err=[
        "Error 6: no protection on this chip.",
        "Status 1 of this chip is 1Ch. On nearly every chip its bits 2 to 6 protect sectors, but this program doesn't "
        "know what they mean on this chip."])


def fits_narrow_terminals(start):
    """Checks that the rewritten progress line has at most 39 characters during a step, and fewer than 80 before it.

    If the environment sets COLUMNS to a positive number, the line of a step also has fewer characters than this number.
    """
    old, new = images("fits_narrow_terminals")
    for columns, longest in (None, 39), ("200", 39), ("30", 29), ("0", 39), ("x", 39):
        bench = start(data=old, rate=200_000)
        bench.write("new", new)
        os.environ.pop("COLUMNS", None)
        if columns:
            os.environ["COLUMNS"] = columns
        try:
            status, printed, _ = terminal.run(bench, "-w", "new", "--journal", "j")
        finally:
            os.environ.pop("COLUMNS", None)
        check("status", status, 0)
        texts = [it.decode() for it in terminal.DRAWN.findall(printed)]
        wide = [it for it in texts[1:] if ", took " not in it and len(it) > longest]
        check(f"drawings that are too long for {columns}", wide, [])
        check("the first drawing", (texts[0], len(texts[0]) < 80), (WAITING, True))


def says_a_line_a_minute(start):
    """Checks that a run whose standard error is a pipe prints only one line of progress, after a minute."""
    bench = start(rate=1_600, longest_read=4096)
    got = bench.run("-r", "out")
    check("the run", (got.status, got.err), (0, []))
    if len(bench.minutes) != 1 or not terminal.STEP.fullmatch(bench.minutes[0]):
        raise Differs("this is not one line of the progress:", repr(bench.minutes))


def removes_an_unsealed_journal(start):
    """Checks that a session that stops before its journal is sealed removes this journal.

    A failed backup keeps its file. A journal that is sealed, or that existed before the run, is never removed.
    """
    old, new = images("removes_an_unsealed_journal")
    wire = session_wire(old, new)
    seal = wire.index(reference.WRITE_ENABLE)
    sealed = seal - len(reference.compared(*reference.UNIQUE, 0))
    bench = start(data=old)
    bench.write("new", new)
    created = len(reference.carried(reference.probe("TINY64"), old)) + 1
    for at, is_left in (created, False), (sealed, False), (sealed + 1, True), (seal + 1, True):
        got = bench.run("-w", "new", "--journal", "j", events={at: "nak"})
        check("error 12", got.err[0], "Error 12: stopped.")
        check(f"the journal is left, at {at}", bench.path("j").exists(), is_left)
        if is_left:
            bench.check_file("j", reference.journal("TINY64", old, reference.touched(old, new)))
        check("the last line", got.err[-1] == reference.used_name(), at == sealed + 1)
        bench.remove_journal()
        bench.plug()
    # A file that existed before the run must stay, whether it is empty, an unsealed journal or no journal.
    for content in b"", b"NORUNDO2", b"other bytes":
        bench.write("j", content)
        bench.expect("-w", "new", "--journal", "j", err=reference.file_fault(4, "j"))
        bench.check_file("j", content)
    bench.remove_journal()
    check("status", bench.run("-w", "new", "--journal", "j").status, 0)
    got = bench.run("--backup", "whole", events={created + 9: "nak"})
    check("the last line", got.err[-1], reference.used_name("whole"))


def keeps_the_file_of_another_program(start):
    """Checks that a stopped session keeps a file with which another program replaced the session's unsealed journal.

    The session removes the file only if it is empty, an unsealed journal of format 2, or the beginning of one. The file
    could then be the session's own.
    """
    old, new = images("keeps_the_file_of_another_program")
    sealed = reference.journal("TINY64", new, [1])
    for content, is_left in ((b"other bytes", True), (b"NORUNDO1", True), (b"NORUNDO", False), (b"", False),
                             (sealed, True), (sealed[:-1], False)):
        bench = start(data=old)
        bench.write("new", new)
        bench.write("other", content)
        # The run creates the journal's file before it identifies the chip for the second time.
        at = len(reference.carried(reference.probe("TINY64") * 2, old))
        carry = bench.chip.transfer

        def replace(out, replies):
            if len(bench.server.log) + 1 == at:
                check("the journal is there, and empty", bench.path("j").read_bytes(), b"")
                os.replace(bench.path("other"), bench.path("j"))
            return carry(out, replies)

        bench.chip.transfer = replace
        got = bench.run("-w", "new", "--journal", "j", events={at + 1: "nak"})
        bench.chip.transfer = carry
        check(f"error 12 with {content[:12]}", (got.err[0], got.status), ("Error 12: stopped.", 1))
        check("the last line", got.err[2:], [reference.used_name()] * is_left)
        if is_left:
            bench.check_file("j", content)
        else:
            bench.check_absent("j")
        bench.check_chip(old)


# This line follows file fault 2 if the journal was removed, replaced or changed after it was sealed.
LOST = "After this run sealed the journal, another program removed, replaced or changed it: don't restore from a file " \
       "with this name."


def at_moment(bench, moment, **chosen):
    """Makes the next runs execute COMMAND just before the file call `moment`, or lets this and later calls fail."""
    library = bench.path("meanwhile.so")
    subprocess.run(["cc", "-std=c11", "-O1", "-shared", "-fPIC", "-o", library, MEANWHILE], check=True)
    bench.environment = {"LD_PRELOAD": str(library), "MOMENT": moment, **chosen}


CREATED = "This run has created j: repeat the command with a new journal name."


def prints_the_systems_reason(start):
    """Checks that errors 11 and 19 and file fault 2 are followed by the system's reason for the failure.

    File fault 2 is tested for a region's file, an extracted image and a log.
    """
    if not shutil.which("cc"):
        print("skipped: prints_the_systems_reason, since there is no C compiler (cc)")
        return
    old, new = images("prints_the_systems_reason")
    bench = start(data=old)
    bench.write("new", new)
    for moment, error, cause in (("fsync j", "ENOSPC", "full"), ("write j", "EIO", "input"),
                                 ("fsync j", "ESTALE", "refused")):
        at_moment(bench, moment, ERROR=error)
        lines = ["Error 11: journal not written.", reference.CAUSES[cause]]
        # The run keeps a complete journal, although it may not be durable, because its sync failed.
        is_complete = moment.startswith("fsync")
        bench.expect("-w", "new", "--journal", "j", err=lines + [CREATED] * is_complete)
        check("is the journal there", bench.path("j").exists(), is_complete)
        bench.path("j").unlink(missing_ok=True)
    at_moment(bench, "write out", ERROR="EDQUOT")
    bench.expect("-r", "out", err=["Error 19: output failed after 0 bytes.", reference.CAUSES["full"]])
    # The writes to a region's file, to an extracted image and to the log fail.
    bench.environment = {}
    check("status", bench.run("--backup", "whole").status, 0)
    bench.write("layout", b"0:fff a\n")
    for error, cause in ("EDQUOT", "full"), ("EIO", "input"), ("EPERM", "denied"), ("ESTALE", "refused"):
        at_moment(bench, "write part", ERROR=error)
        bench.expect("-r", "out", "-l", "layout", "-i", "a:part", err=reference.file_fault(2, "part", cause))
        bench.expect("--check-journal", "whole", "--extract-image", "part",
                     err=reference.file_fault(2, "part", cause))
        at_moment(bench, "write log", ERROR=error)
        bench.path("log").unlink(missing_ok=True)
        got = bench.run("--flash-size", "-o", "log")
        check("output, faults and status", (got.out, got.err, got.status), (
            ["65536"], ["File fault 2: log.",
                        f"The log is incomplete, but the job went on. {reference.CAUSES[cause]}"], 1))
    bench.environment = {}


def prints_why_names_cannot_be_compared(start):
    """Checks that file fault 1 is followed by the system's reason if a name is a loop of links, or is too long."""
    bench = start()
    bench.path("loop").symlink_to("loop")
    for words in ("-v", "loop"), ("-r", "loop"), ("-w", "loop/image", "--journal", "j"), \
            ("-w", "new", "--journal", "loop"), ("--restore", "loop"), ("--backup", "loop"), ("-r", "out", "-o", "loop"):
        name = next(it for it in words if it.startswith("loop"))
        bench.expect(*words, err=reference.file_fault(1, name, "loop"))
        bench.check_nothing_sent()
    for name in 256 * "n", 2100 * "./":
        for words in ("-r", name), ("--backup", name), ("-r", "out", "-o", name):
            bench.expect(*words, err=reference.file_fault(1, name, "long"))
            bench.check_nothing_sent()
    bench.check_absent("j")


def notices_a_lost_journal(start):
    """Checks that a run ends with file fault 2 if its sealed journal is removed, replaced or truncated.

    The session changes the chip nevertheless.
    """
    if not shutil.which("cc"):
        print("skipped: notices_a_lost_journal, since there is no C compiler (cc)")
        return
    old, new = images("notices_a_lost_journal")
    for command, is_lost in (("mv j moved", True), ("cp j k; mv k j", True), ("truncate -s -1 j", True),
                             ("cp j k", False)):
        bench = start(data=old)
        bench.write("new", new)
        at_moment(bench, "make j.sectors", COMMAND=command)
        got = bench.run("-w", "new", "--journal", "j")
        check("the last line", got.out[-1].split(":")[0], "Done")
        check("standard error", got.err, ["File fault 2: j.", LOST] if is_lost else [])
        check("status", got.status, int(is_lost))
        bench.check_chip(new)


def keeps_the_log_of_a_session(start):
    """Checks that a restore appends its log to the log in the file, and that --flash-size overwrites the log."""
    old, new = images("keeps_the_log_of_a_session")
    bench = start(data=old)
    bench.write("new", new)
    check("status", bench.run("-w", "new", "--journal", "j", "-o", "log").status, 0)
    session = bench.path("log").read_bytes()
    for _ in range(2):
        before = bench.path("log").read_bytes()
        check("status", bench.run("--restore", "j", "-o", "log").status, 0)
        both = bench.path("log").read_bytes()
        check("the log begins as before, then there is an empty line", both.startswith(before + b"\nLog of "), True)
    check("the beginning of all", both.startswith(session), True)
    check("the runs", both.count(b"Log of flashnor-serprog 1.0\n"), 3)
    check("status", bench.run("--flash-size", "-o", "log").status, 0)
    check("the runs", bench.path("log").read_bytes().count(b"Log of flashnor-serprog 1.0\n"), 1)
    for content in b"", None:
        bench.path("log").unlink()
        if content is not None:
            bench.write("log", content)
        check("status", bench.run("--restore", "j", "-o", "log").status, 0)
        check("the first bytes", bench.path("log").read_bytes()[:7], b"Log of ")


def overwrites_no_file_that_appears_late(start):
    """Checks that a run doesn't overwrite a file that appears under the log's name during the run.

    An empty file and an old log are overwritten.
    """
    bench = start(data=with_fmap(random_image("late"), 0x100, [(0, 65536, b"all")]), rate=60_000)
    for content, is_log in (b"other bytes\n" * 9, False), (b"", True), (b"Log of flashnor-serprog 0.9\n", True):
        bench.path("log").unlink(missing_ok=True)
        bench.server.begin({})
        process = bench.start(["-r", "out", "--fmap", "-i", "all", "-o", "log"])
        while len(bench.server.log) < bench.first() + 4:
            time.sleep(0.01)
        check("the log before", bench.path("log").exists(), False)
        bench.write("log", content)
        got = bench.finish(process)
        check("the exit status", got.status, 0 if is_log else 1)
        if is_log:
            check("the log", bench.path("log").read_bytes()[:28], b"Log of flashnor-serprog 1.0\n")
        else:
            check("the lines", got.err, ["File fault 4: log.", reference.IS_NO_LOG])
            bench.check_file("log", content)


CASES = [prints_the_systems_reason, prints_why_names_cannot_be_compared, notices_a_lost_journal,
         keeps_the_log_of_a_session,
         overwrites_no_file_that_appears_late, removes_an_unsealed_journal, keeps_the_file_of_another_program,
         says_a_line_a_minute, quotes_names, quotes_names_after_error_12, quotes_the_device,
         counts_what_it_reads_again, says_how_long_a_change_takes, shows_locks, advises_on_locks, fits_narrow_terminals]
