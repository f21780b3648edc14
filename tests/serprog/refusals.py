"""These cases test --unlock, --restore, refused sessions and restores, usage faults, and the help."""

import reference
from bench import check
from chip import SECTOR
from options import FREE, SIZE, images

LARGE = 1 << 23
FOUND = "Found W25Q64FV (ef4017), 8388608 bytes."
LAST = LARGE // SECTOR - 1
LAYOUT = b"7ff000:7fffff last\n0:fff first\n"


def large_images():
    """Returns two images of a W25Q64FV that differ only in the last byte: FFh in the first and 00h in the second."""
    return b"\xff" * LARGE, b"\xff" * (LARGE - 1) + b"\0"


def unlocks(start):
    """Checks that --unlock clears the protection bits before the change, and sets them again after the last program."""
    old, new = large_images()
    bench = start("W25Q64FV", data=old, status=b"\x04\0")
    bench.write("new", new)
    bench.write("layout", LAYOUT)
    bench.expect("-w", "new", "--unlock", "-l", "layout", "-i", "last", "--journal", "j", out=[
        FOUND, "Done: touched 1, erases 0, programs 1, transactions 16."])
    bench.check_chip(new, b"\x04\0")
    bench.check_file("j", reference.journal("W25Q64FV", old, [LAST], b"\x04\0"))
    last = [reference.read_sector(LAST)]
    plan = reference.identify("W25Q64FV") + last + reference.write_status(b"\0\0") + last \
        + reference.operation(bytes.fromhex("027fffff00")) + reference.write_status(b"\x04\0") + last
    bench.check_frames(reference.whole_run("W25Q64FV", plan, True, True))


def unlocks_further_chips(start):
    """Checks that --unlock changes a protected sector of a W25Q32FV, and that a restore lifts the protection by itself.

    Without --unlock, the session ends with error 10.
    """
    size = 1 << 22
    old, new = b"\xff" * size, b"\xff" * (size - 1) + b"\0"
    found, last = "Found W25Q32FV (ef4016), 4194304 bytes.", size // SECTOR - 1
    bench = start("W25Q32FV", data=old, status=b"\x04\0")
    bench.write("new", new)
    bench.write("layout", b"3ff000:3fffff last\n")
    job = ("-w", "new", "-l", "layout", "-i", "last", "--journal", "j")
    bench.expect(*job, err=[
        "Error 10: protected at 0x3ff000.",
        "Include only regions that aren't protected, or use --unlock."])
    bench.check_chip(old, b"\x04\0")
    bench.remove_journal()
    bench.expect(*job, "--unlock", out=[found, "Done: touched 1, erases 0, programs 1, transactions 16."])
    bench.check_chip(new, b"\x04\0")
    bench.check_file("j", reference.journal("W25Q32FV", old, [last], b"\x04\0"))
    bench.expect("--restore", "j", out=[found, "Done: touched 1, erases 1, programs 0, transactions 14."])
    bench.check_chip(old, b"\x04\0")


def refuses_protected(start):
    """Checks that a change of a protected sector without --unlock is error 10, and changes nothing."""
    old, new = large_images()
    bench = start("W25Q64FV", data=old, status=b"\x04\0")
    bench.write("new", new)
    bench.write("layout", LAYOUT)
    bench.expect("-w", "new", "-l", "layout", "-i", "last", "--journal", "j", err=[
        *reference.protected(0x7FF000, b"\x04\0")])
    bench.check_absent("j")
    plan = reference.identify("W25Q64FV") + [reference.read_sector(LAST)]
    bench.check_frames(reference.whole_run("W25Q64FV", reference.read_whole("W25Q64FV") + plan))
    bench.check_chip(old, b"\x04\0")


def refuses_locked(start):
    """Checks that --unlock and --wp-range end with error 9 if SRP0 or SRP1 locks the status."""
    old, new = large_images()
    for status in b"\x84\0", b"\x04\x01":
        bench = start("W25Q64FV", data=old, status=status)
        bench.write("new", new)
        bench.write("layout", LAYOUT)
        bench.expect("-w", "new", "--unlock", "-l", "layout", "-i", "last", "--journal", "j",
                     err=reference.locked(status))
        bench.expect("--wp-range", "0,0", "--journal", "k", err=reference.locked(status))
        bench.check_chip(old, status)


def restores(start):
    """Checks that --restore rewrites each saved sector, even if the sector has its saved bytes already.

    Except with -N, the restore reads the other sectors before and after.
    """
    old, new = images("restores")
    bench = start(data=new)
    bench.write("j", reference.journal("TINY64", old, (1, 2, 7, 15)))
    plan = reference.restore("TINY64", old, (1, 2, 7, 15))
    # The second restore finds the original chip.
    for _ in range(2):
        bench.expect("--restore", "j", out=[reference.found("TINY64"), reference.report(plan, 4)])
        bench.check_chip(old)
        bench.check_frames(reference.whole_restore("TINY64", plan, (1, 2, 7, 15)))
    bench.chip.data[:] = new
    bench.expect("--restore", "j", "-N", out=[reference.found("TINY64"), reference.report(plan, 4)])
    bench.check_chip(old)
    bench.check_frames(plan)
    bench.check_file("j", reference.journal("TINY64", old, (1, 2, 7, 15)))


def restores_the_named_chip(start):
    """Checks that --restore with -c compares the chip's name before it restores, and that another name is error 3."""
    old, new = images("restores_the_named_chip")
    bench = start(data=new)
    bench.write("j", reference.journal("TINY64", old, (1, 2, 7, 15)))
    bench.expect("--restore", "j", "-c", "W25Q64FV", err=reference.OTHER_NAME)
    bench.check_frames(reference.probe("TINY64"))
    plan = reference.restore("TINY64", old, (1, 2, 7, 15))
    bench.expect("--restore", "j", "-c", "SFDP", out=[reference.found("TINY64"), reference.report(plan, 4)])
    bench.check_frames(reference.whole_restore("TINY64", plan, (1, 2, 7, 15)))
    bench.check_chip(old)
    bench.expect("--restore", "j", "-N", "-c", "SFDP", out=[reference.found("TINY64"), reference.report(plan, 4)])
    bench.check_frames(reference.probe("TINY64") + plan)


def restores_no_other(start):
    """Checks that --restore refuses a damaged journal (error 15), and journals that don't fit the chip.

    The errors are 16 for another ID and size, 20 for another unique ID, and 17 for another SRP0.
    """
    old, new = images("restores_no_other")
    unique = bytes.fromhex("d1d2d3d4d5d6d7d8")
    bench = start(data=new, unique=unique)
    whole = reference.journal("TINY64", old, [1], unique=unique)
    bench.write("short", whole[:-1])
    bench.write("large", reference.journal("W25Q64FV", bytes(LARGE), []))
    bench.write("device", reference.journal("TINY64", old, [1], unique=bytes(8)))
    bench.write("status", reference.journal("TINY64", old, [1], b"\x80\0", unique))
    bench.expect("--restore", "short", err=reference.UNSEALED)
    bench.check_nothing_sent()
    for words in (), ("-N",), ("--quick",):
        bench.expect("--restore", "large", *words, err=[
            "Error 16: another chip than the journal's.",
            "The journal is of W25Q64FV (ef4017) with 8388608 bytes. The chip is SFDP (fe1010)."])
        bench.expect("--restore", "device", *words, err=[
            "Error 20: another unit than the journal's.",
            "Unique ID in the journal: 0000000000000000. Unique ID of the chip: d1d2d3d4d5d6d7d8. " + reference.OTHER_UNIT])
        bench.expect("--restore", "status", *words, err=[
            "Error 17: status differs from the journal's.",
            "Status in the journal: 80 00 SRP0. Status of the chip: 00 00." + reference.WRITE_IMAGE])
    bench.check_chip(new)


def keeps_old_journals(start):
    """Checks that neither -w nor -r overwrites an existing journal: the run ends with file fault 4."""
    old, new = images("keeps_old_journals")
    bench = start(data=old)
    bench.write("new", new)
    for content in b"", reference.journal("TINY64", new, [1]):
        bench.write("j", content)
        bench.expect("-w", "new", "--journal", "j", err=reference.file_fault(4, "j"))
        bench.check_file("j", content)
        bench.check_nothing_sent()
    bench.expect("-r", "j", err=["File fault 4: j.", reference.IS_JOURNAL])
    bench.check_file("j", content)


def refuses_images(start):
    """Checks that an image of another length is error 4, and that a missing image is file fault 1. The chip isn't
    changed."""
    old, new = images("refuses_images")
    bench = start(data=old)
    bench.write("short", new[:-1])
    error = "Error 4: image of 65535 bytes, chip of 65536 bytes."
    bench.expect("-w", "short", "--journal", "j", err=[error])
    bench.check_absent("j")
    bench.expect("-v", "short", err=[error])
    bench.expect("-w", "none", "--journal", "k", err=reference.file_fault(1, "none", "missing"))
    bench.check_nothing_sent()
    bench.check_absent("k")
    bench.check_chip(old)


def refuses_regions(start):
    """Checks that a wrong layout is a layout fault, and that a region outside the chip is error 5.

    The chip isn't changed. Without -N, errors 4 and 5 occur before the whole chip is read. With -N the session returns
    them, and the run removes its journal.
    """
    bench = start(data=bytes(SIZE))
    bench.write("layout", b"0:fff a\n10000:10fff b\n")
    bench.write("wrong", b"0:fff a\n2000:1000 b\n")
    bench.write("short", bytes(SIZE - 1))
    for words, *errors in ((("-E",), "Error 5: region outside the chip.",
                            f"The chip has {SIZE} bytes, and the region b ends at 0x010fff."),
                           (("-w", "short"), f"Error 4: image of {SIZE - 1} bytes, chip of {SIZE} bytes.",
                            reference.WHOLE_IMAGE)):
        words = (*words, "-l", "layout", "-i", "b", "--journal", "j")
        bench.expect(*words, err=errors)
        bench.check_frames(reference.probe("TINY64"))
        bench.check_absent("j")
        bench.expect(*words, "-N", err=errors)
        bench.check_absent("j")
    # If several regions are given, the line names the region that ends last.
    bench.write("more", b"0:fff a\n10000:10fff b\n20000:23fff c\nf000:100ff d\n")
    for names, name, end in (("a,b", "b", 0x10FFF), ("c,a,b", "c", 0x23FFF), ("b:part,d", "b", 0x10FFF),
                             ("d", "d", 0x100FF)):
        bench.expect("-r", "out", "-l", "more", "-i", names,
                     err=["Error 5: region outside the chip.",
                          f"The chip has {SIZE} bytes, and the region {name} ends at 0x{end:06x}."])
    bench.expect("-E", "-l", "wrong", "-i", "a", "--journal", "k",
                 err=["error: the end is below the start", "Layout fault 3 at line 2.",
                      "The regions are in the file wrong."])
    bench.check_nothing_sent()
    bench.expect("-E", "-l", "layout", "-i", "c", "--journal", "k",
                 err=["error: the layout has no region 'c'", "Layout fault 8.", "Regions in the file layout: a, b."])
    bench.check_absent("k")
    bench.check_chip(bytes(SIZE))


def needs_a_chip(start):
    """Checks that a missing chip is error 1, and that a chip without a known ID and without SFDP is error 2."""
    bench = start(data=FREE)
    bench.chip.transfer = lambda out, replies: (b"\0" if out[:1] == b"\x05" else b"\xff") * replies
    bench.expect(err=reference.NO_CHIP)
    bench.expect("-E", "--journal", "j", err=reference.NO_CHIP)
    bench.chip.transfer = lambda out, replies: (b"\x01\x02\x03" if out == b"\x9f" else b"\0" * replies)
    bench.expect(err=reference.unknown_chip(b"\x01\x02\x03"))


def waits_for_the_chip(start):
    """Checks that a session and a restore wait while the chip is busy, with the durations of the datasheet.

    The restore also waits for an erase that is in progress when it starts.
    """
    old, new = images("waits_for_the_chip")
    bench = start(data=old, scale=1.0)
    bench.write("new", new)
    got = bench.run("-w", "new", "--journal", "j")
    check("the last word", (got.status, got.err, got.out[:1]), (0, [], [reference.found("TINY64")]))
    bench.chip.wait()
    bench.check_chip(new)
    # An erase of a saved sector is in progress when the restore starts, as after a session that was killed.
    bench.chip.transfer(b"\x06", 0)
    bench.chip.transfer(bytes.fromhex("20002000"), 0)
    check("the erase is in progress", bench.chip.is_busy(), True)
    got = bench.run("--restore", "j")
    check("the restore", (got.status, got.err, got.out[:1]), (0, [], [reference.found("TINY64")]))
    bench.chip.wait()
    bench.check_chip(old)
    check("transactions that the busy chip ignored", bench.chip.ignored, 0)


def uses_small_programmers(start):
    """Checks sessions with programmers that have low limits or no limits, or that lack optional serprog commands.

    With these limits the program splits no page program (260 bytes) and no read of a sector (4,096 bytes).
    """
    old, new = images("uses_small_programmers")
    for traits in ({"longest_write": 260, "longest_read": 4096}, {"longest_write": 0, "longest_read": 0},
                   {"lacks": (0x08, 0x11, 0x12), "buffer": 267}, {"lacks": (0x03, 0x04, 0x05, 0x08, 0x14, 0x15)}):
        bench = start(data=old, **traits)
        bench.write("new", new)
        plan = reference.session("TINY64", old, new)
        bench.expect("-w", "new", "--journal", "j", out=[reference.found("TINY64"), reference.done(plan, old, new)])
        bench.check_chip(new)
        bench.check_frames(reference.whole_run("TINY64", plan, True))


def fills_no_buffer(start):
    """Checks that a write enable and a page program are written together to the port if the serial buffer holds both.

    The page program must have 32 data bytes or more. Otherwise, and before any other command, the write enable is
    written alone.
    """
    old = bytes(SECTOR) + b"\xff" * (SIZE - SECTOR)
    new = bytearray(b"\x01" + old[1:SECTOR] + bytes(range(255)) * 2 + b"\xff" * (SIZE - SECTOR - 510))
    # The first of these page programs has 31 data bytes, too few to be written together with its write enable. The
    # second has 32, which are enough.
    new[2 * SECTOR : 2 * SECTOR + 31], new[3 * SECTOR : 3 * SECTOR + 32] = b"\x5a" * 31, b"\x5a" * 32
    new = bytes(new)
    plan = reference.session("TINY64", old, new)
    for buffer in 65535, 283, 282, 274, 64, 18, 15, 8, 0:
        bench = start(data=old, latency=0.002, buffer=buffer, lacks=() if buffer else (0x04,))
        bench.write("new", new)
        bench.expect("-w", "new", "--journal", "j", out=[reference.found("TINY64"), reference.done(plan, old, new)])
        wire = reference.whole_run("TINY64", plan, True)
        wanted = reference.writes(bench.carried(wire), buffer)
        check(f"bytes of each write, with a buffer of {buffer}", bench.server.ways[-len(wanted) :], wanted)
        bench.check_frames(wire)
        bench.check_chip(new)


def takes_stale_bytes(start):
    """Checks that bytes which an earlier client left unread don't disturb a run."""
    for stale in b"\x06", b"\x15\x06" * 20, bytes(range(256)) * 8:
        bench = start(stale=stale)
        bench.expect(out=[reference.found("TINY64")])


EMPTY = "a setting in -p is empty; give serprog:dev=PATH, with commas only between settings"
# These settings, after `serprog:` in -p, are usage fault 3. The value is the message in the line before the fault.
WRONG_SETTINGS = {
    "": EMPTY, "dev=": "invalid value in -p: 'dev='", "dev=DEV,": EMPTY,
    "dev=DEV,dev=DEV": "repeated key in -p: 'dev=DEV'",
    "dev=DEV,image=x": "unknown key in -p: 'image=x'; the keys are dev, spispeed and cs",
    "dev=DEV,Dev=x": "unknown key in -p: 'Dev=x'; the keys are dev, spispeed and cs",
    "dev=DEV,dev": "repeated key in -p: 'dev=DEV'", "dev": "invalid value in -p: 'dev'",
    **{f"dev=DEV,spispeed={text}": f"invalid value in -p: 'spispeed={text}'; "
       "give hertz in decimal, 1 to 4294967295, or for example 500k or 16M"
       for text in ("0", "0x100", "1e6", "4294967296", "", "k", "M", "0M", "1kk", "1Mk", "k1", "1.5M", "1 M", "1G",
                    "-1k", "1MHz", "4295M", "4294968k", "18446744073709551615M", "100000000000000000000k", "1M\u212a")},
    "dev=DEV,spispeed=1,spispeed=2": "repeated key in -p: 'spispeed=1'",
    **{f"dev=DEV,{text}": f"invalid value in -p: '{text}'; give a number from 0 to 255"
       for text in ("cs=256", "cs=", "cs", "cs=1k")},
    "dev=DEV,cs=1,cs=2": "repeated key in -p: 'cs=1'",
    "cs=1,image=x,cs=2": "repeated key in -p: 'cs=1'", "spispeed=1": "the value of -p lacks dev="}
WRONG_PROGRAMMERS = {
    "dummy:emulate=TINY64": "the value of -p does not begin with 'serprog:'",
    "serprog": "the value of -p does not begin with 'serprog:'"}
WRONG_ARGUMENTS = (
    (4, "-E --flash-size", "--flash-size and -E cannot be used together"),
    (5, "--wp-range 1 --journal j", "invalid value of --wp-range: '1'; give START,LENGTH, each decimal or 0x.."),
    (6, "-E", "-E needs --journal"),
    (6, "--flash-size --journal j", "--journal needs -w, -E or --wp-range"), (7, "-r out -l layout", "-l needs -i"),
    (7, "--wp-status -l layout -i a", "-l and -i need -r, -v, -w or -E"), (8, "-r out -n", "-n needs -w or -E"),
    (8, "-v x --unlock", "--unlock needs -w or -E"))


def refuses_arguments(start):
    """Checks that wrong arguments are usage faults, and that nothing is sent."""
    bench = start()
    settings = {f"serprog:{text}": why for text, why in WRONG_SETTINGS.items()}
    for text, why in {**settings, **WRONG_PROGRAMMERS}.items():
        got = bench.finish(bench.start_words([bench.program, "-p", bench.device(text)]))
        bench.compare(got, [], [bench.device(f"error: {why}"), "Usage fault 3."])
    for fault, words, why in WRONG_ARGUMENTS:
        bench.expect(*words.split(), err=[f"error: {why}", f"Usage fault {fault}."])
    got = bench.finish(bench.start_words([bench.program, "--flash-size"]))
    bench.compare(got, [], ["error: the option -p is missing", "Usage fault 2."])
    for words in ["--rehearse", "1"], ["--none"]:
        got = bench.run(*words)
        check("the last line", (got.out, got.err[-1:], got.status), ([], ["Usage fault 1."], 1))
    bench.check_nothing_sent()


def helps_with_the_device(start):
    """Checks that ip= and a baud rate, which flashrom accepts, are refused with a line that names the alternative."""
    bench = start()
    got = bench.finish(bench.start_words([bench.program, "-p", "serprog:ip=127.0.0.1:2000"]))
    bench.compare(got, [], ["error: ip= is not supported; give a device: -p serprog:dev=PATH", "Usage fault 3."])
    got = bench.run(keys=":115200")
    stty = bench.device("stty -F DEV 115200 raw -echo clocal -hupcl min 0 time 50")
    bench.compare(got, [], [f"error: dev= takes no baud rate; set it with stty: {stty}", "Usage fault 3."])
    bench.check_nothing_sent()


def prints_help(start):
    """Checks that -h prints the options on standard output, and that nothing is sent."""
    bench = start()
    got = bench.finish(bench.start_words([bench.program, "-h"]))
    check("exit status and standard error", (got.status, got.err), (0, []))
    help_text = "\n".join(got.out)
    options = "-p -c -r -w -v -E --flash-size --wp-status --wp-list --wp-range --restore -l -i -n --unlock --journal " \
        "--backup -N --quick"
    check("options that the help lacks", [it for it in options.split() if it not in help_text], [])
    check("the line of -i", [it.split(";")[1:] for it in got.out if "--include" in it], [[" with a layout"]])
    bench.check_nothing_sent()


CASES = [unlocks, unlocks_further_chips, refuses_protected, refuses_locked, restores, restores_the_named_chip,
         restores_no_other, keeps_old_journals, refuses_images, refuses_regions, needs_a_chip, waits_for_the_chip,
         uses_small_programmers, fills_no_buffer, takes_stale_bytes, refuses_arguments, helps_with_the_device,
         prints_help]
