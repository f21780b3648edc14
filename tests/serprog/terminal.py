"""These cases test the progress on a terminal: one line is rewritten, and other lines are printed in between."""
import os
import re
import signal
from concurrent.futures import ThreadPoolExecutor

import reference
from bench import LONGEST, WAITING, Differs, check, read_all
from options import SECTOR, images

# A run does four things at a terminal: it draws the progress line, clears it, ends it, or prints a whole line.
DRAWN = re.compile(rb"\r([ -~]+)\x1b\[K")
CLEARED = re.compile(rb"\r\x1b\[K")
ENDED = re.compile(rb"\r\n")
WHOLE = re.compile(rb"([ -~]+)\r\n")

# This is the form of the progress line. During a step, the line has at most 39 characters, and a percentage if the
# total is known. At the end of a step, it says how long the step took.
TIME = r"\d+:[0-5]\d"
RATE = r"(?:, (?:\d\d?\.\d|\d{3,}) KiB/s)?"
UNIT = "(IDs?|sectors?|erases?|pages?|status writes?)"
STEP = re.compile(
    r"(identify|scan|erase|program|protect|read back|compare): (?:"
    rf"(?P<share>\d+) %{RATE}, (?:{TIME} left|{TIME} so far)"
    rf"|(?P<all>100) %, (?P<last>\d+) of (?P<total>\d+) {UNIT}{RATE}, took {TIME}"
    rf"|(?P<done>\d+) {UNIT}, (?:at most {TIME} left|{TIME} so far)"
    rf"|(?P<count>\d+) {UNIT}{RATE}, took {TIME})")
COLUMNS = 39

# The program prints this line after 256 polls that show BUSY.
BUSY_CHIP = "The chip shows BUSY. If no erase is running, it has no contact or no supply: press Ctrl-C, and check both. " \
    "(The run gives up after 400 seconds.)"


def untimed(lines):
    """Returns the lines with M:SS for each time, R for each rate, and T for the estimate of a change."""
    found = [re.sub(r"\d+(\.\d)? KiB/s", "R", re.sub(r"\d+:[0-5]\d\b", "M:SS", it)) for it in lines]
    return [re.sub("takes (less than a second|about M:SS at the chip's typical times( and R)?)", "takes T", it)
            for it in found]


class Screen:
    """This class parses what a run printed to a terminal: the texts of the rewritten line, and the lines that stay.

    It raises `Differs` if a text is too long (unless it says how long the step took), if a line doesn't begin at the
    left margin, or if an empty line was printed.
    """

    def __init__(self, printed, is_cut=False, columns=COLUMNS):
        self.drawn, self.lines, self.rest, at, is_open = [], [], b"", 0, False
        while at < len(printed):
            if found := DRAWN.match(printed, at):
                self.drawn.append(found[1].decode())
                is_open = True
            elif is_open and (found := CLEARED.match(printed, at)):
                is_open = False
            elif is_open and (found := ENDED.match(printed, at)):
                self.lines.append(self.drawn[-1])
                is_open = False
            elif not is_open and (found := WHOLE.match(printed, at)):
                self.lines.append(found[1].decode())
            else:
                self.rest = printed[at:]
                break
            at = found.end()
        if self.rest and not (is_cut and re.fullmatch(rb"\r?[ -~]*(\x1b\[?)?", self.rest)):
            raise Differs("this is neither the line nor begins at the start of one:", repr(self.rest[:200]))
        if is_open and not is_cut:
            raise Differs("the line was not ended:", self.drawn[-1])
        check("the first drawing", self.drawn[:1] in ([], [WAITING]), True)
        self.drawn = self.drawn[1:]
        for text in self.drawn:
            found = STEP.fullmatch(text)
            check(f"the form of {text!r}", bool(found), True)
            check(f"columns of {text!r}", ", took " in text or len(text) <= columns, True)
            number = found["total"] or found["done"] or found["count"]
            noun = re.search(f"{UNIT}(?=, )", text.partition(": ")[2])
            check(f"the number of {text!r}", noun and noun[1].endswith("s"), number and int(number) != 1)

    def shares(self, name):
        """Returns the percentages that were drawn for this step."""
        return [int(found["share"] or found["all"]) for found in map(STEP.fullmatch, self.drawn)
                if found[1] == name and (found["share"] or found["all"])]

    def last(self, name):
        """Returns the last of this step's lines that stay, without its rate and time."""
        return [it for it in self.lines if it.startswith(f"{name}: ")][-1].partition(", ")[0]

    def check_steps(self, *names):
        """Checks that exactly these steps have percentages. Those of each step must never fall, and end at 100."""
        known = {found[1] for found in map(STEP.fullmatch, self.drawn) if found["share"] or found["all"]}
        check("steps with a percentage", sorted(known), sorted(names))
        for name in names:
            shares = self.shares(name)
            check(f"percentages of {name}, which don't fall", shares, sorted(shares))
            check(f"the last percentage of {name}", shares[-1], 100)

    def others(self):
        """Returns the lines that stay, except those of steps, in the form of `untimed`."""
        return untimed(it for it in self.lines if not STEP.fullmatch(it))


def run(bench, *words, events=None, both=False):
    """Runs the program with standard error at a terminal.

    Returns its exit status, what it printed to the terminal, and the lines of standard output. With `both`, standard
    output is the terminal, too.
    """
    terminal, slave = os.openpty()
    bench.server.begin(events or {})
    streams = {"err": slave, "out": slave} if both else {"err": slave}
    process = bench.start(words, **streams)
    os.close(slave)
    with ThreadPoolExecutor(1) as pool:
        shown = pool.submit(read_all, terminal)
        out, _ = process.communicate(timeout=LONGEST)
    return process.returncode, shown.result(), (out or b"").decode().splitlines()


def lines_of_a_write(bench, sectors, erases, *rest):
    journal = 25 + sectors * 4100 + 36
    return [f"Sectors to change: {sectors}. Erases: {erases}. Bytes of journal: {journal}.", "The change takes T.",
            reference.sealed("j"), *rest]


def rewrites_a_line(start):
    """Checks that the progress is one line that is rewritten, and that the percentages of a step rise to 100."""
    old, new = images("rewrites_a_line")
    bench = start(data=old)
    bench.write("new", new)
    status, printed, out = run(bench, "-w", "new", "--journal", "j")
    check("status", (status, len(out)), (0, 2))
    screen = Screen(printed)
    check("the lines", screen.others(), lines_of_a_write(bench, 4, 3, "The change took M:SS."))
    screen.check_steps("scan", "erase", "compare")
    check("scans", screen.lines[0].startswith("scan: 100 %, 16 of 16 sectors, "), True)
    pages = out[-1].split("programs ")[1].partition(",")[0]
    check("last counts", (screen.last("program"), screen.last("read back")),
          (f"program: {pages} pages", "read back: 5 sectors"))
    bench.check_chip(new)
    status, printed, _ = run(bench, "--restore", "j")
    screen = Screen(printed)
    check("status", status, 0)
    check("the lines", screen.others(), [
        "Sectors to change: 4. Erases: 4.", "The change takes T.", "The chip is changed from here on.",
        "The change took M:SS."])
    screen.check_steps("scan", "erase", "compare")
    bench.check_chip(old)
    # A restore with -N reads no sector before it erases, so no rate is known for an estimate.
    status, printed, _ = run(bench, "--restore", "j", "-N")
    screen = Screen(printed)
    check("the lines", screen.others(), [
        "Sectors to change: 4. Erases: 4.", "The change takes T.", "The chip is changed from here on.",
        "The change took M:SS."])
    screen.check_steps("erase")
    status, printed, _ = run(bench, "--restore", "j", "--quick")
    screen = Screen(printed)
    check("the lines", screen.others(), ["Sectors to change: 0. Erases: 0."])
    screen.check_steps("scan", "compare")


def says_that_the_chip_is_busy(start):
    """Checks that the program prints a line about contact and supply after 256 polls that show BUSY.

    The chip is lost until the last of these polls, and each byte that the program receives meanwhile is 03h.
    """
    for polls, lines in (255, []), (256, [BUSY_CHIP]), (399, [BUSY_CHIP]):
        bench = start()
        bench.server.traits.lost = (1, bench.first() - 1 + polls, 0x03)
        bench.expect_at_terminal(lines=[*lines, "identify"])
    bench = start()
    bench.server.traits.lost = (1, bench.first() + 298, 0x03)
    check("the exit status", bench.run("-o", "log").status, 0)
    check("a line of the log", BUSY_CHIP in bench.path("log").read_text(), True)


def rewrites_it_ten_times_a_second(start):
    """Checks that a long job draws the line in its scan, erases, programs and comparison.

    During the erases, the line is drawn 8 to 40 times.
    """
    old = bytearray(b"\x5a" * (1 << 23))
    bench = start("W25Q64FV", data=bytes(old), scale=1.0, rate=6_000_000)
    for number in range(0, 34 * 32, 32):
        old[number * SECTOR] = 0xA5
    bench.write("new", bytes(old))
    status, printed, _ = run(bench, "-w", "new", "--journal", "j")
    screen = Screen(printed)
    check("status", status, 0)
    check("the lines", screen.others(), lines_of_a_write(bench, 34, 34, "The change took M:SS."))
    screen.check_steps("scan", "erase", "compare")
    # The 34 erases of 45 ms take about 1.5 seconds.
    shares = screen.shares("erase")
    check(f"drawings of the erases: {len(shares)} in {shares}", 8 <= len(shares) <= 40, True)
    check("drawings of the scan", 5 <= len(screen.shares("scan")) <= 400, True)
    check("programs are drawn", any(re.fullmatch(rf"program: \d+ pages?, at most {TIME} left", it)
                                    for it in screen.drawn), True)


def keeps_messages_apart(start):
    """Checks that a line after the progress begins at the left margin, even if the run fails or is killed."""
    old, new = images("keeps_messages_apart")
    bench = start(data=old)
    bench.write("new", new)
    status, printed, _ = run(bench, "-v", "new")
    check("status", status, 1)
    check("the fault", Screen(printed).lines[-1].startswith("Error 14: "), True)
    status, printed, _ = run(bench, "-v", "new", both=True)
    check("the fault", Screen(printed).lines[-1].startswith("Error 14: "), True)
    status, printed, _ = run(bench, "-r", "out", both=True)
    check("the lines", Screen(printed).others(), [
        "Found SFDP (fe1010), 65536 bytes.", "Read 65536 bytes."])
    status, printed, _ = run(bench, "--flash-size", both=True)
    check("the lines", Screen(printed).others(), ["65536"])
    # The programmer refuses one transaction of a read. Then the program is killed at one transaction of a session.
    for number in (12, 20, 30, 40):
        bench.plug()
        status, printed, _ = run(bench, "-r", f"out{number}", events={number: "nak"}, both=True)
        if status:
            check("the fault", "Error 12: stopped." in Screen(printed).lines, True)
    for number in range(8, 60, 4):
        bench.plug()
        status, printed, _ = run(bench, "-w", "new", "--journal", f"j{number}", events={number: "kill"}, both=True)
        if status == -signal.SIGKILL:
            Screen(printed, is_cut=True)


NAMES = {0x06: "write enable", 0x01: "write status", 0x02: "program", 0x20: "erase 4 KiB", 0x52: "erase 32 KiB",
         0xD8: "erase 64 KiB", 0xC7: "erase chip"}


def logged(log):
    """Returns the lines of -V, without times, for the modifying transactions in this log."""
    lines = []
    for out in (it[0] for it in log if it[0][0] in NAMES):
        at = f" at 0x{int.from_bytes(out[1:4], 'big'):06x}" if len(out) >= 4 else ""
        rest = out[1:] if out[0] == 0x01 else out[4:]
        count = f"{len(rest)} byte{'s' * (len(rest) != 1)}" if rest else ""
        lines.append(NAMES[out[0]] + (f", {count}" if out[0] == 0x01 else f" {count}{at}" if count else at))
    return lines


def with_read_back(lines):
    """Returns the lines of -V with `read back` before the write enable of the first program."""
    at = next(at for at, it in enumerate(lines) if it.startswith("program ")) - 1
    return [*lines[:at], "read back", *lines[at:]]


def logs_commands(start):
    """Checks that -V prints a line with a time for each modifying transaction and each step that reads."""
    old, new = images("logs_commands")
    bench = start(data=old)
    bench.write("new", new)
    got = bench.run("-w", "new", "--journal", "j", "-V")
    times, lines = zip(*(it.split(" ", 1) for it in got.err))
    check("status", got.status, 0)
    check("the lines", list(lines), ["identify", "scan", *with_read_back(logged(bench.server.log)), "compare"])
    check("the form of the times", all(re.fullmatch(r"\d+\.\d{3}", it) for it in times), True)
    check("the times, which don't fall", list(times), sorted(times, key=float))
    got = bench.run("--restore", "j", "-V", events={60: "nak"})
    lines = [it.split(" ", 1)[-1] for it in got.err]
    at = lines.index("stopped")
    check("the first line after the stop", got.err[at + 1], "Error 12: stopped.")
    bench.plug()
    status, printed, _ = run(bench, "--restore", "j", "-V")
    check("status", status, 0)
    lines = [it.split(" ", 1)[-1] for it in Screen(printed).lines if re.match(r"\d+\.\d{3} ", it)]
    check("the lines", lines, ["identify", "scan", *logged(bench.server.log), "read back", "compare"])
    bench = start("W25Q64FV", data=b"\xff" * (1 << 23))
    got = bench.run("--wp-range", "0,0x800000", "--journal", "k", "-V")
    check("the lines", [it.split(" ", 1)[1] for it in got.err], ["identify", *logged(bench.server.log)])
    got = bench.run("-r", "out", "-V")
    check("the lines of a read", [it.split(" ", 1)[1] for it in got.err], ["identify", "scan"])


def shows_nothing_if_asked(start):
    """Checks that --progress none prints only faults to a terminal, and that --progress plain rewrites no line."""
    old, new = images("shows_nothing_if_asked")
    bench = start(data=old)
    bench.write("new", new)
    status, printed, _ = run(bench, "-w", "new", "--journal", "j", "--progress", "none")
    check("status and lines", (status, printed), (0, b""))
    bench.write("old", old)
    _, printed, _ = run(bench, "-v", "old", "--progress", "none")
    check("the fault", len(Screen(printed).lines), 1)
    status, printed, _ = run(bench, "-r", "out", "--progress", "plain")
    screen = Screen(printed)
    check("lines that are rewritten", (status, screen.drawn), (0, []))
    check("plain lines", screen.lines[1:], ["identify", "scan: sector 1 of 16"])


CASES = [rewrites_a_line, says_that_the_chip_is_busy, rewrites_it_ten_times_a_second, keeps_messages_apart,
         logs_commands, shows_nothing_if_asked]
