"""Cases of --fmap and --ifd, which take regions from the FMAP or the Intel flash descriptor on the chip.

The image that is written contains neither, so a run that took its regions from the image would fail.
"""
import termios

import ports
import reference
import terminal
from bench import WAITING, check
from chip import READ_DATA
from maps import with_descriptor, with_fmap
from options import FREE, SIZE
from regions import random_image

AREAS = [(0, 0x1000, b"RO"), (0x1001, 0x2FFF, b"RW_A"), (0x4000, 1, b"ID")]
ENTRIES = [(0, 0), (8, 15), (1, 7)]
ENABLE = b"\x06"


def reads_regions_of_the_chips_fmap(start):
    """-r --fmap writes only the bytes of the named areas to its file, with the FMAP at each of three addresses.

    All other bytes of the file are FFh. -i NAME:FILE also writes the bytes of the area to FILE.
    """
    for at in 0, 0x7123, SIZE - 0x200:
        old = with_fmap(random_image("fmap"), at, AREAS)
        bench = start(data=old)
        bench.expect("-r", "out", "--fmap", "-i", "RW_A:a,ID", out=[reference.found("TINY64"), "Read 65536 bytes."])
        bench.check_file("out", b"\xff" * 0x1001 + old[0x1001:0x4001] + b"\xff" * (SIZE - 0x4001))
        bench.check_file("a", old[0x1001:0x4000])
        bench.check_chip(old)


def writes_regions_of_the_chips_descriptor(start):
    """-w --ifd changes only the named region of the chip's descriptor, and a restore undoes the change.

    -v --ifd compares only the named region.
    """
    old, new = with_descriptor(random_image("old"), ENTRIES), random_image("new")
    bench = start(data=old)
    bench.write("new", new)
    got = bench.run("-w", "new", "--journal", "j", "--ifd", "-i", "bios")
    check("the run", (got.out[0], got.err, got.status), (reference.found("TINY64"), [], 0))
    bench.check_chip(old[:0x8000] + new[0x8000:])
    bench.expect("-v", "new", "--ifd", "-i", "bios", out=[reference.found("TINY64"), "Verified."])
    got = bench.run("-v", "new", "--ifd", "-i", "me")
    check("the run", (got.out, got.err[0][:9], got.status), ([], "Error 14:", 1))
    got = bench.run("--restore", "j")
    check("the restore", (got.err, got.status), ([], 0))
    bench.check_chip(old)


def erases_a_region_of_the_chips_fmap(start):
    """-E --fmap erases the bytes of the named area and no others, even if the FMAP itself is in the area."""
    old = with_fmap(random_image("erase"), 0x1234, AREAS)
    bench = start(data=old)
    got = bench.run("-E", "--journal", "j", "--fmap", "-i", "RW_A")
    check("the run", (got.err, got.status), ([], 0))
    bench.check_chip(old[:0x1001] + b"\xff" * 0x2FFF + old[0x4000:])
    got = bench.run("--restore", "j")
    check("the restore", (got.err, got.status), ([], 0))
    bench.check_chip(old)


def takes_a_region_from_its_file(start):
    """-w --fmap -i NAME:FILE writes the bytes of FILE. If FILE has the wrong length, the run ends with file fault 3."""
    old = with_fmap(random_image("file"), 0x7123, AREAS)
    bench = start(data=old)
    bench.write("new", random_image("new"))
    bench.write("a", random_image("a")[:0x2FFF])
    got = bench.run("-w", "new", "--journal", "j", "--fmap", "-i", "RW_A:a")
    check("the run", (got.err, got.status), ([], 0))
    wanted = old[:0x1001] + random_image("a")[:0x2FFF] + old[0x4000:]
    bench.check_chip(wanted)
    bench.write("a", b"short")
    got = bench.run("-w", "new", "--journal", "k", "--fmap", "-i", "RW_A:a")
    check("the fault", (got.err, got.status), (["File fault 3: a.", "It has 5 bytes, and its region has 12287."], 1))
    bench.check_absent("k")
    bench.check_chip(wanted)


def reads_only_the_descriptor(start):
    """-r --ifd begins each read of data in the first 4 KiB of the chip, for the descriptor, or in the named region."""
    old = with_descriptor(random_image("old"), ENTRIES)
    bench = start(data=old)
    bench.expect("-r", "out", "--ifd", "-i", "bios", out=[reference.found("TINY64"), "Read 65536 bytes."])
    bench.check_file("out", b"\xff" * 0x8000 + old[0x8000:])
    # The program connects twice, and makes trial reads each time.
    trials = reference.trials(old)
    addresses = [int.from_bytes(out[1:4], "big") for out, reply in bench.server.log
                 if out[0] == READ_DATA and (out, len(reply)) not in trials]
    check("addresses between descriptor and region", [at for at in addresses if 0x1000 <= at < 0x8000], [])
    check("whether the descriptor was read", any(at < 0x1000 for at in addresses), True)


def refuses_a_chip_without_a_map(start):
    """With --fmap or --ifd, a run on a chip without FMAP or descriptor ends with map fault 1.

    The run sends no write enable, and creates no file.
    """
    bench = start(data=FREE)
    bench.write("new", random_image("new"))
    for words in (("-r", "out"), ("-w", "new", "--journal", "j"), ("-E", "--journal", "j"), ("-v", "new")):
        for option, table in ("--fmap", "FMAP"), ("--ifd", "flash descriptor"):
            got = bench.run(*words, option, "-i", "a", "-o", "log")
            bench.compare(got, [], [f"error: there is no {table} on the chip", "Map fault 1."])
            check("write enables", [out for out, _ in bench.server.log if out == ENABLE], [])
            for name in "out", "j", "log":
                bench.check_absent(name)
            bench.check_chip(FREE)


def refuses_names_that_the_chip_lacks(start):
    """If -i names no region of the chip's FMAP, the run ends with layout fault 8, and creates no file."""
    bench = start(data=with_fmap(FREE, 0x100, AREAS))
    got = bench.run("-r", "out", "--fmap", "-i", "RW_B:b")
    names = ", ".join(name.decode() for _, _, name in AREAS)
    bench.compare(got, [], [
        "error: the layout has no region 'RW_B'", "Layout fault 8.", f"Regions on the chip: {names}."])
    bench.check_absent("out")
    bench.check_absent("b")


def looks_for_the_name_first(start):
    """If -c names another chip, a run with --fmap ends with error 3. It reads no data except in the trial reads."""
    bench = start(data=with_fmap(FREE, 0x100, AREAS))
    got = bench.run("-r", "out", "--fmap", "-i", "RO", "-c", "W25Q64FV")
    check("the run", ([it[:8] for it in got.err if it.startswith("Error")], got.status), (["Error 3:"], 1))
    check("reads after the trials", [out for out, _ in bench.server.log[bench.first() - 1 :] if out[0] == READ_DATA], [])
    bench.check_absent("out")


def notices_a_wrong_bit_in_the_map(start):
    """A wrong bit in one read of the FMAP doesn't change what is written, because the program reads each block twice.

    The run either succeeds with the right area, or leaves the chip unchanged.
    """
    old, new = with_fmap(random_image("old"), 0x40, AREAS), random_image("new")
    wanted = old[:0x1001] + new[0x1001:0x4000] + old[0x4000:]
    words = ("-w", "new", "--journal", "j", "--fmap", "-i", "RW_A")
    # These are bytes in the entry of RW_A: two of its offset, one of its size, and the first one of its name.
    first = 0x40 + 56 + 42
    for byte in (first, first + 1, first + 5, first + 8):
        for number in reads_of(start, old, new, words):
            bench = start(data=old, wrong_bits={number: (byte, 4)})
            bench.write("new", new)
            got = bench.run(*words)
            found = bytes(bench.chip.data)
            check(f"the chip after status {got.status}", found in ((wanted,) if got.status == 0 else (old,)), True)


def reads_of(start, old, new, words):
    """Returns the numbers of the reads at address 0 before the first write enable, without the trial reads."""
    bench = start(data=old)
    bench.write("new", new)
    bench.run(*words)
    numbers, trials = [], reference.trials(old)
    for number, (out, reply) in enumerate(bench.server.log, 1):
        if out == ENABLE:
            break
        if out == reference.command(READ_DATA, 0) and (out, len(reply)) not in trials:
            numbers.append(number)
    check("at least two reads of the map", len(numbers) >= 2, True)
    return numbers


def looks_at_the_files_first(start):
    """If the image is missing (file fault 1) or the journal exists (file fault 4), a run with --fmap sends nothing."""
    bench = start(data=with_fmap(FREE, 0x100, AREAS))
    bench.write("new", random_image("new"))
    bench.write("old", b"")
    for words, number, name in (("-w", "missing", "--journal", "j"), 1, "missing"), (("-v", "missing"), 1, "missing"), \
            (("-w", "new", "--journal", "old"), 4, "old"):
        cause = "missing" if name == "missing" else None
        bench.expect(*words, "--fmap", "-i", "RO", err=reference.file_fault(number, name, cause))
        bench.check_nothing_sent()
        bench.check_absent("j")


def uses_no_layout_of_a_port_that_changes_bytes(start):
    """If the port changes 0Dh to 0Ah, a run with --fmap ends with programmer fault 13, and creates no file."""
    old = with_fmap(random_image("port"), 0x100, AREAS)
    bench = start(data=old)
    bench.write("new", random_image("new"))
    ports.set_flags(bench, received=termios.ICRNL)
    for words in ("-r", "out"), ("-v", "new"), ("-w", "new", "--journal", "j"):
        got = bench.run(*words, "--fmap", "-i", "RO")
        bench.compare(got, [], [ports.changes_received("0Dh", "0Ah")])
        bench.check_absent("out")
        bench.check_absent("j")
    bench.check_chip(old)


def waits_for_the_programmer_once(start):
    """At a terminal, a run with --fmap prints `WAITING` once, and a line that it reads the layout from the chip."""
    bench = start(data=with_fmap(random_image("wait"), 0x100, AREAS))
    status, printed, out = terminal.run(bench, "-r", "out", "--fmap", "-i", "RO")
    check("the run", (status, len(out)), (0, 2))
    check("the line that waits", printed.count(WAITING.encode()), 1)
    check("the lines", terminal.Screen(printed).others(), ["Reading the layout from the chip."])


def takes_one_map(start):
    """--fmap or --ifd with a second layout, without -i, or without -r, -v, -w or -E ends with usage fault 7."""
    bench = start(data=FREE)
    for words, why in (
            ("-r out --fmap --ifd -i c", "--fmap and --ifd cannot be used together"),
            ("-r out -l a --fmap -i c", "-l and --fmap cannot be used together"),
            ("-r out --fmap-file a --ifd -i c", "--fmap-file and --ifd cannot be used together"),
            ("-r out --fmap", "--fmap needs -i"), ("-r out --ifd", "--ifd needs -i"),
            ("--fmap -i b", "--fmap and -i need -r, -v, -w or -E"),
            ("--restore j --ifd -i b", "--ifd and -i need -r, -v, -w or -E")):
        bench.expect(*words.split(), err=[f"error: {why}", "Usage fault 7."])
        bench.check_nothing_sent()


CASES = [reads_regions_of_the_chips_fmap, writes_regions_of_the_chips_descriptor, erases_a_region_of_the_chips_fmap,
         takes_a_region_from_its_file, reads_only_the_descriptor, refuses_a_chip_without_a_map,
         refuses_names_that_the_chip_lacks, looks_for_the_name_first, notices_a_wrong_bit_in_the_map,
         looks_at_the_files_first, uses_no_layout_of_a_port_that_changes_bytes, waits_for_the_programmer_once,
         takes_one_map]
