"""These cases test what users type: the file name `-`, arguments with invisible characters, and flashrom's options."""
from bench import check
from chip import NAMES, PARTS
from maps import with_descriptor, with_fmap
from options import FREE, SIZE
import reference


# -L lists these supply voltages (Winbond datasheets, operating ranges). The key is the end of the chip's name.
SUPPLY = {"FV": "2.7 to 3.6 V", "-M": "2.7 to 3.6 V", "FW": "1.65 to 1.95 V"}


def usage(*lines):
    """Returns the lines of usage fault 1. `lines` is the message of the argument parser."""
    usage_lines = ["Usage: flashnor-serprog [OPTIONS]", "", "For more information, try '--help'."]
    return [*lines, "", *usage_lines, "Usage fault 1."]


def refuses_dash(start):
    """Checks that the file name `-` is usage fault 5 for each option with a file, and that `./-` names a file."""
    bench = start(data=FREE)
    bench.write("new", FREE)
    for words, option in (
            (("-r", "-"), "-r"), (("--read=-",), "-r"), (("-v", "-"), "-v"), (("-w", "-", "--journal", "j"), "-w"),
            (("--restore", "-"), "--restore"), (("--backup", "-"), "--backup"),
            (("--check-journal", "-"), "--check-journal"),
            (("--check-journal", "j", "--extract-image", "-"), "--extract-image"),
            (("-w", "new", "--journal", "-"), "--journal"), (("-r", "out", "-l", "-", "-i", "a"), "-l"),
            (("-r", "out", "-l", "new", "-i", "a,b:-"), "-i"),
            (("-r", "out", "--fmap-file", "-", "-i", "a"), "--fmap-file"),
            (("-r", "out", "--ifd-file", "-", "-i", "a"), "--ifd-file"), (("-r", "out", "-o", "-"), "-o")):
        bench.expect(*words, err=[f"error: '-' is no file for {option}; for a file with this name give ./-",
                                  "Usage fault 5."])
        bench.check_nothing_sent()
        for name in "-", "out", "j":
            bench.check_absent(name)
    bench.expect("-r", "./-", out=[reference.found("TINY64"), f"Read {SIZE} bytes."])
    bench.check_file("-", FREE)
    # A longer name that begins or ends with a hyphen is an ordinary file name.
    bench.expect("-r", "a-", out=[reference.found("TINY64"), f"Read {SIZE} bytes."])
    bench.expect("--read=-b", out=[reference.found("TINY64"), f"Read {SIZE} bytes."])
    bench.check_file("-b", FREE)


def finds_dash_in_its_turn(start):
    """Checks that usage fault 4 precedes fault 5 of the file name `-`, and that faults 6 and 8 come after fault 5."""
    bench = start()
    for words, *lines in (
            (("-r", "-", "-E"), "error: -r and -E cannot be used together", "Usage fault 4."),
            (("-r", "-", "--progress", "all"), "error: invalid value of --progress: 'all'; give auto, plain or none",
             "Usage fault 5."),
            (("-w", "-"), "error: '-' is no file for -w; for a file with this name give ./-", "Usage fault 5."),
            (("-r", "-", "--quick"), "error: '-' is no file for -r; for a file with this name give ./-",
             "Usage fault 5.")):
        bench.expect(*words, err=lines)
        bench.check_nothing_sent()


def escapes_arguments(start):
    """Checks that an argument in a usage fault is escaped, so that it can't add a line or send an escape sequence."""
    bench = start()
    for argument, shown in (
            ("x\x1b[31mR\x07", r"x\x1b[31mR\x07"), ("a\nUsage fault 9.", r"a\x0aUsage fault 9."),
            ("\x9b2J", r"\xc2\x9b2J"),
            ("--a\u202eb", r"--a\xe2\x80\xaeb"), ("\u2066a\u2069", r"\xe2\x81\xa6a\xe2\x81\xa9"),
            ("x' found\n\n  tip: y", r"x' found\x0a\x0a  tip: y"), ("x\n\nUsage: y", r"x\x0a\x0aUsage: y"),
            ("\u202a\u202d\u2067", r"\xe2\x80\xaa\xe2\x80\xad\xe2\x81\xa7"), ("a\u2027é\u206a", "a\u2027é\u206a")):
        got = bench.run(argument)
        check("standard error", "\n".join(got.err), "\n".join(usage(f"error: unexpected argument '{shown}' found")))
        check("status", (got.out, got.status), ([], 1))
        bench.check_nothing_sent()
    bench.expect("--unlock=a\n\nb\x1b", err=usage(
        r"error: unexpected value 'a\x0a\x0ab\x1b' for '--unlock' found; no more were expected"))
    bench.expect("-r", "none/\u202ex", err=reference.file_fault(2, r"none/\xe2\x80\xaex", "no directory"))


def gives_tips(start):
    """Checks that options of flashrom or flashnor, and -A, are refused with a tip, and --reed without one."""
    bench = start()
    for option, tip in (
            ("-x", "-r FILE with -i NAME:FILE reads regions into files of their own"),
            ("--extract", "-r FILE with -i NAME:FILE reads regions into files of their own"),
            ("-f", "no check can be left out; --unlock lifts protection, -n and -N skip comparisons"),
            ("-A", "-h lists all options; -N is the one that leaves out the comparison of the whole chip"),
            ("--wp-region", "--wp-range START,LENGTH takes the addresses of the region"),
            ("--flash-contents", "leave this option out: the chip itself is read before it is written"),
            ("--get-size", "--flash-size prints the size of the chip"),
            ("--rehearse", "only flashnor can rehearse, on an emulated chip")):
        bench.expect("-V", option, err=usage(f"error: unexpected argument '{option}' found", "", f"  tip: {tip}"))
        bench.check_nothing_sent()
    bench.expect("--reed", err=usage("error: unexpected argument '--reed' found"))
    bench.expect("-c", "a", "-c", "b", err=usage("error: the argument '--chip <NAME>' cannot be used multiple times"))


def other_names(row):
    """Returns the lines of -L with the other names of a chip. A name with a slash has its own line."""
    names = NAMES.get(row, ())
    lines = [", ".join(it for it in names if "/" not in it)] * bool(names) + [it for it in names if "/" in it]
    starts = "    or ", "    "
    return [f"{begin}{line}{',' * (line != lines[-1])}" for begin, line in zip(starts, lines)]


def lists_the_chips(start):
    """Checks that -L prints the chips known by their ID, with or without -p, and sends nothing."""
    bench = start()
    rows = {it.id.hex(): f"{name:11} {it.id.hex()}  {it.size >> 20:2} MiB  {SUPPLY[name[-2:]]}"
            for name, it in PARTS.items() if it.has_row}
    wanted = [line for it in sorted(rows) for line in (rows[it], *other_names(rows[it].split()[0]))]
    wanted.append("SFDP        any other chip whose SFDP offers erases of 4 KiB, from 64 KiB to 16 MiB")
    for words in ("-L",), ("--list-supported",), ("-L", "-c", "SFDP"):
        got = bench.finish(bench.start_words([bench.program, *words]))
        bench.compare(got, wanted, [])
        bench.expect(*words, out=wanted)
        bench.check_nothing_sent()
    for fault, words, why in (
            (4, "-L -E", "-L and -E cannot be used together"),
            (4, "-L --check-journal j", "-L and --check-journal cannot be used together"),
            (8, "-L -n", "-n needs -w or -E"), (6, "-L --journal j", "--journal needs -w, -E or --wp-range")):
        bench.expect(*words.split(), err=[f"error: {why}", f"Usage fault {fault}."])


def takes_repeated_flags(start):
    """Checks that -V may be repeated, as in flashrom, and that --progress may be given without a mode. Neither changes
    the chip."""
    bench = start()
    before = bytes(bench.chip.data)
    once = [it.split(" ", 1)[-1] for it in bench.run("-V").err]
    check("lines of -V", bool(once), True)
    for words in ("-VV",), ("-V", "--verbose"), ("-VVV", "-V"):
        got = bench.run(*words)
        check("lines", ([it.split(" ", 1)[-1] for it in got.err], got.out, got.status),
              (once, [reference.found("TINY64")], 0))
        bench.check_chip(before)
    bench.expect(out=[reference.found("TINY64")])
    for words in ("--progress",), ("--progress", "-c", "SFDP"), ("-c", "SFDP", "--progress"):
        bench.expect(*words, out=[reference.found("TINY64")])
    bench.expect("--progress", "all", err=[
        "error: invalid value of --progress: 'all'; give auto, plain or none", "Usage fault 5."])


def takes_maps_of_larger_chips(start):
    """Checks that a region of an FMAP or flash descriptor may be outside the chip, unless -i names this region.

    If -i names such a region, the run ends with error 5.
    """
    fmap = with_fmap(FREE, 0x2000, [
        (0x1000, 0x1000, b"A"), (SIZE, 1, b"B"), (SIZE - 1, 2, b"C"), (0xFFFFFFFD, 2, b"D")])
    descriptor = with_descriptor(FREE, [(0, 0), (16, 31), (1, 1), (2, 16), (0x7FFF, 0x7FFF)])
    for image, option, own, inside, others in (
            (fmap, "--fmap-file", "--fmap", "A", {"B": 0x10000, "C": 0x10000, "D": 0xFFFFFFFE}),
            (descriptor, "--ifd-file", "--ifd", "me", {"bios": 0x1FFFF, "gbe": 0x10FFF, "pd": 0x7FFFFFF})):
        bench = start(data=image)
        bench.write("before", image)
        bench.write("short", image[:0x4000])
        wanted = b"\xff" * 0x1000 + image[0x1000:0x2000] + b"\xff" * (SIZE - 0x2000)
        for layout in (option, "before"), (option, "short"), (own,):
            got = bench.run("-r", "out", *layout, "-i", inside)
            check("the run", (got.out, got.status), ([reference.found("TINY64"), f"Read {SIZE} bytes."], 0))
            bench.check_file("out", wanted)
            bench.path("out").unlink()
            for name, end in others.items():
                for words in (("-r", "out"), ("-v", "before"), ("-w", "before", "--journal", "j"),
                              ("-E", "--journal", "j")):
                    got = bench.run(*words, *layout, "-i", f"{inside},{name}")
                    check("the fault", (got.err[:2], got.out, got.status), (
                        ["Error 5: region outside the chip.",
                         f"The chip has {SIZE} bytes, and the region {name} ends at 0x{end:06x}."], [], 1))
                    for made in "out", "j":
                        bench.path(made).unlink(missing_ok=True)
                    bench.check_chip(image)


def takes_blanks_in_layouts(start):
    """Checks that a layout may have blanks around START:END and NAME, as in flashrom, if both are on one line."""
    old = bytes(range(256)) * (SIZE // 256)
    bench = start(data=old)
    bench.write("layout", b"\t0:fff\ta \r\n \x0b 3000:3fff  b\x0c\r\n\r\n \t\n5001:5002\tc")
    wanted = bytearray(b"\xff" * SIZE)
    for first, end in (0, 0x1000), (0x3000, 0x4000), (0x5001, 0x5003):
        wanted[first:end] = old[first:end]
    bench.expect("-r", "out", "-l", "layout", "-i", "a,b,c", out=[reference.found("TINY64"), f"Read {SIZE} bytes."])
    bench.check_file("out", wanted)
    for line, number, why in (
            (b"0 :fff x", 2, "an address is not 1 to 8 hexadecimal digits, without blanks"),
            (b"0: fff x", 2, "an address is not 1 to 8 hexadecimal digits, without blanks"),
            (b"0:fff", 1, "there is no colon, or no space (a TAB is none) between END and NAME"),
            (b"0:fff\tx\ty", 4,
             "the name is not 1 to 32 visible ASCII characters (a CR is none) other than , and :")):
        bench.write("wrong", b" \t\r\n8000:8fff\tc\r\n" + line + b"\t\r\n")
        bench.expect("-r", "next", "-l", "wrong", "-i", "c",
                     err=[f"error: {why}", f"Layout fault {number} at line 3.", "The regions are in the file wrong."])
        bench.check_absent("next")


CASES = [refuses_dash, finds_dash_in_its_turn, escapes_arguments, gives_tips, lists_the_chips, takes_repeated_flags,
         takes_maps_of_larger_chips, takes_blanks_in_layouts]
