"""These cases test regions with their own files (-i NAME:FILE).

-r writes the bytes of a region to its file, and -w and -v take the bytes of a region from its file. flashrom's manual
page describes the form of -i. The cases cut the expected bytes out of the images.
"""
import os
import random

import reference
from bench import LONGEST, check
from maps import with_descriptor, with_fmap
from options import FREE, SIZE

LAYOUT = b"0:fff boot\n1000:2fff data\n2800:37ff over\n4001:4001 id\n8000:ffff main\n"
SPANS = {"boot": (0, 0xFFF), "data": (0x1000, 0x2FFF), "over": (0x2800, 0x37FF), "id": (0x4001, 0x4001),
         "main": (0x8000, 0xFFFF)}
NO_REGION = "Regions in the file layout: boot, data, over, id, main."


def random_image(seed):
    return random.Random(seed).randbytes(SIZE)


def cut(data, name):
    """Returns the bytes of a region of LAYOUT."""
    first, last = SPANS[name]
    return data[first : last + 1]


def put(data, name, content):
    """Returns the data with `content` at the first address of a region of LAYOUT."""
    first, _ = SPANS[name]
    return data[:first] + content + data[first + len(content) :]


def only(data, *names):
    """Returns the data with FFh at all addresses outside these regions."""
    result = FREE
    for name in names:
        result = put(result, name, cut(data, name))
    return result


def begin(start, data, **traits):
    bench = start(data=data, **traits)
    bench.write("layout", LAYOUT)
    return bench


def reads_regions_into_files(start):
    """Checks that -r writes exactly the bytes of a region to its file, and truncates a longer file.

    A region doesn't need a file of its own.
    """
    old = random_image("read")
    bench = begin(start, old)
    bench.write("data.bin", b"x" * SIZE)
    bench.expect("-r", "out", "-l", "layout", "-i", "data:data.bin,main,id:id.bin",
                 out=[reference.found("TINY64"), "Read 65536 bytes."])
    bench.check_file("out", only(old, "data", "main", "id"))
    bench.check_file("data.bin", cut(old, "data"))
    bench.check_file("id.bin", cut(old, "id"))
    # Regions may overlap, a region may be named twice, and a file name may contain a colon.
    bench.expect("-r", "out", "-l", "layout", "-i", "data:a,over:b:c,data:d",
                 out=[reference.found("TINY64"), "Read 65536 bytes."])
    for name, region in ("a", "data"), ("b:c", "over"), ("d", "data"):
        bench.check_file(name, cut(old, region))
    bench.check_file("out", only(old, "data", "over"))


def takes_several_options(start):
    """Checks that several -i, by any of the option's names, include all their regions, like one -i with commas."""
    old = random_image("several")
    for words in (
            ("-i", "data:a,main,id:b"), ("-i", "data:a", "-i", "main", "-i", "id:b"),
            ("-idata:a", "--include", "main,id:b"), ("--image=data:a", "-Vi", "main", "--include=id:b"),
            ("--image", "data:a,main", "-c", "SFDP", "--image", "id:b")):
        bench = begin(start, old)
        got = bench.run(*words, "-r", "out", "-l", "layout")
        check("the run", (got.out, got.status), ([reference.found("TINY64"), f"Read {SIZE} bytes."], 0))
        bench.check_file("out", only(old, "data", "main", "id"))
        bench.check_file("a", cut(old, "data"))
        bench.check_file("b", cut(old, "id"))
    # If regions overlap, the file of the later option is used. A wrong region is found in each option, and the
    # file `-` in the second one.
    bench = begin(start, old)
    bench.write("first", b"\x01" * 0x2000)
    bench.write("second", b"\x02" * 0x1000)
    bench.write("image", FREE)
    got = bench.run("-w", "image", "--journal", "j", "-l", "layout", "-i", "data:first", "--image", "over:second")
    check("the run", (got.err, got.status), ([], 0))
    bench.check_chip(put(put(old, "data", b"\x01" * 0x2000), "over", b"\x02" * 0x1000))
    for words in ("-i", "data", "-i", "none"), ("-i", "none", "--image", "data"), ("-i", "none,data"):
        bench.expect("-r", "out", "-l", "layout", *words,
                     err=["error: the layout has no region 'none'", "Layout fault 8.", NO_REGION])
    bench.expect("-r", "out", "-l", "layout", "-i", "data", "--image", "id:-",
                 err=["error: '-' is no file for -i; for a file with this name give ./-", "Usage fault 5."])


def writes_a_region_from_a_file(start):
    """Checks that -w takes a region's bytes from its file, and the bytes of other included regions from the image."""
    old, new, other = (random_image(seed) for seed in ("old", "new", "other"))
    bench = begin(start, old)
    bench.write("new", new)
    bench.write("part", cut(other, "main"))
    got = bench.run("-w", "new", "--journal", "j", "-l", "layout", "-i", "data,main:part")
    check("the run", (got.err, got.status), ([], 0))
    wanted = put(put(old, "data", cut(new, "data")), "main", cut(other, "main"))
    bench.check_chip(wanted)
    bench.check_file("new", new)
    bench.check_file("part", cut(other, "main"))
    got = bench.run("--restore", "j")
    check("the restore", (got.err, got.status), ([], 0))
    bench.check_chip(old)


def lets_the_later_file_win(start):
    """Checks that if two regions with files overlap, the file that -i names later is used for their common bytes."""
    old, one, other = (random_image(seed) for seed in ("old", "one", "other"))
    for names, wanted in (
            ("data:one,over:other", put(put(old, "data", cut(one, "data")), "over", cut(other, "over"))),
            ("over:other,data:one", put(put(old, "over", cut(other, "over")), "data", cut(one, "data")))):
        bench = begin(start, old)
        bench.write("image", old)
        bench.write("one", cut(one, "data"))
        bench.write("other", cut(other, "over"))
        got = bench.run("-w", "image", "--journal", "j", "-l", "layout", "-i", names)
        check("the run", (got.err, got.status), ([], 0))
        bench.check_chip(wanted)


def verifies_a_region_against_a_file(start):
    """Checks that -v compares a region with its file, and the other regions with the image.

    One wrong byte in the file is error 14.
    """
    old = random_image("verify")
    bench = begin(start, old)
    image = put(old, "data", b"\0" * 0x2000)
    bench.write("image", image)
    bench.write("same", cut(old, "data"))
    bench.expect("-v", "image", "-l", "layout", "-i", "boot,data:same",
                 out=[reference.found("TINY64"), "Verified."])
    for at in 0, 0x1234, 0x1FFF:
        other = bytearray(cut(old, "data"))
        other[at] ^= 1
        bench.write("other", other)
        got = bench.run("-v", "image", "-l", "layout", "-i", "boot,data:other")
        check("the run", (got.out, got.err[:1], got.status),
              ([], [f"Error 14: bytes differ at 0x{0x1000 + at:06x}."], 1))


def refuses_other_lengths(start):
    """Checks that a file that isn't as long as its region is file fault 3 with both lengths. Nothing may be sent."""
    old = random_image("lengths")
    bench = begin(start, old)
    bench.write("image", old)
    for length in 0, 1, 0xFFF, 0x1001, SIZE:
        bench.write("part", b"x" * length)
        for words in ("-v", "image"), ("-w", "image", "--journal", "j"):
            bench.expect(*words, "-l", "layout", "-i", "main,boot:part",
                         err=["File fault 3: part.", f"It has {length} bytes, and its region has 4096."])
            bench.check_nothing_sent()
            bench.check_absent("j")
    bench.write("short", old[:0xFFFF])
    bench.write("part", cut(old, "main"))
    bench.expect("-v", "short", "-l", "layout", "-i", "boot,main:part",
                 err=["File fault 3: short.", "It ends before the end of the region 'main'."])
    bench.check_nothing_sent()


def refuses_files_that_cannot_be_used(start):
    """Checks that a missing file, an empty file name, a file with -E, and an unknown region are refused.

    Nothing may be sent.
    """
    old = random_image("missing")
    bench = begin(start, old)
    bench.write("image", old)
    bench.write("part", cut(old, "boot"))
    for words in ("-v", "image"), ("-w", "image", "--journal", "j"):
        bench.expect(*words, "-l", "layout", "-i", "boot:none", err=reference.file_fault(1, "none", "missing"))
        bench.check_nothing_sent()
    for words in ("-r", "out"), ("-v", "image"), ("-w", "image", "--journal", "j"):
        bench.expect(*words, "-l", "layout", "-i", "main,boot:",
                     err=["error: the file name of the region 'boot' is empty", "Usage fault 7."])
        bench.check_nothing_sent()
        for names, unknown in ("boot:part,bios:part", "bios"), ("bios,boot:part", "bios"), ("main,:part", ""):
            bench.expect(*words, "-l", "layout", "-i", names,
                         err=[f"error: the layout has no region '{unknown}'", "Layout fault 8.", NO_REGION])
            bench.check_nothing_sent()
        bench.check_absent("out")
        bench.check_absent("j")
    bench.expect("-E", "--journal", "j", "-l", "layout", "-i", "main,boot:part",
                 err=["error: -E takes no files: give -i NAME, not -i NAME:FILE", "Usage fault 7."])
    bench.check_nothing_sent()
    bench.check_absent("j")
    bench.check_file("part", cut(old, "boot"))
    bench.check_chip(old)


def gives_each_file_of_a_read_one_role(start):
    """Checks that with -r the file of a region can't be another file of the run: that is file fault 5.

    The other file may be the output, the layout, the device, or the file of another region.
    """
    old = random_image("roles")
    bench = begin(start, old)
    for names, wrong in (("boot:out", "out"), ("boot:./out", "./out"), ("boot:layout", "layout"),
                         ("boot:a,main:a", "a"), ("boot:a,main:./a", "./a"), ("boot:dev", "dev")):
        bench.expect("-r", "out", "-l", "layout", "-i", names, err=reference.file_fault(5, wrong))
        bench.check_nothing_sent()
        bench.check_absent("out")
        bench.check_absent("a")
    bench.check_file("layout", LAYOUT)
    bench.write("a", b"before")
    bench.path("b").symlink_to("a")
    bench.expect("-r", "out", "-l", "layout", "-i", "boot:a,main:b", err=reference.file_fault(5, "b"))
    bench.check_nothing_sent()
    bench.check_file("a", b"before")


def keeps_the_files_of_a_write_apart(start):
    """Checks that with -w the file of a region can't be the journal or the device. Two regions may have one file."""
    old, new = random_image("old"), random_image("new")
    bench = begin(start, old)
    bench.write("image", old)
    for names, wrong in ("boot:j", "j"), ("boot:dev", "dev"):
        bench.expect("-w", "image", "--journal", "j", "-l", "layout", "-i", names, err=reference.file_fault(5, wrong))
        bench.check_nothing_sent()
        bench.check_absent("j")
    part = new[:0x1000]
    bench.write("part", part)
    bench.write("layout", b"0:fff boot\n1000:1fff data\n")
    got = bench.run("-w", "image", "--journal", "j", "-l", "layout", "-i", "boot:part,data:part")
    check("the run", (got.err, got.status), ([], 0))
    bench.check_chip(part + part + old[0x2000:])


def keeps_a_journal(start):
    """Checks that -r doesn't overwrite a journal that is given as a region's file.

    The run ends with file fault 4 before anything is sent.
    """
    old, new = random_image("old"), random_image("new")
    bench = begin(start, old)
    bench.write("new", new)
    got = bench.run("-w", "new", "--journal", "j", "-l", "layout", "-i", "boot")
    check("the run", (got.err, got.status), ([], 0))
    journal = bench.path("j").read_bytes()
    bench.expect("-r", "out", "-l", "layout", "-i", "boot:j",
                 err=["File fault 4: j.", "It is a journal, which is never overwritten: choose a new name."])
    bench.check_nothing_sent()
    bench.check_file("j", journal)
    bench.check_absent("out")
    bench.write("old", b"NORUNDO1")
    bench.expect("-r", "out", "-l", "layout", "-i", "boot:old",
                 err=["File fault 4: old.", "It is a journal, which is never overwritten: choose a new name."])
    bench.check_file("old", b"NORUNDO1")


def reports_a_file_that_cannot_be_written(start):
    """Checks that a region's file that can't be written is file fault 2 with its name. The output is complete then.

    A region's file that is a directory is file fault 1, and nothing is sent.
    """
    old = random_image("full")
    bench = begin(start, old)
    bench.path("full").symlink_to("/dev/full")
    bench.expect("-r", "out", "-l", "layout", "-i", "main:main.bin,boot:full", 
                 err=reference.file_fault(2, "full", "full"))
    bench.check_file("out", only(old, "main", "boot"))
    bench.check_file("main.bin", cut(old, "main"))
    bench.expect("-r", "out", "-l", "layout", "-i", "boot:none/part",
                 err=reference.file_fault(2, "none/part", "no directory"))
    bench.path("folder").mkdir()
    bench.expect("-r", "out", "-l", "layout", "-i", "boot:folder", err=reference.file_fault(1, "folder", "directory"))
    bench.check_nothing_sent()


def needs_a_regular_output(start):
    """Checks that the output of -r must be a regular file if a region has its own file.

    The program copies the region's bytes from the output.
    """
    bench = begin(start, random_image("output"))
    os.mkfifo(bench.path("fifo"))
    for output in "/dev/null", "fifo":
        bench.expect("-r", output, "-l", "layout", "-i", "main,boot:part", err=[
            f"File fault 1: {output}.",
            "The file of -r must be a regular file, because the files of regions are copied from it."])
        bench.check_nothing_sent()
        bench.check_absent("part")
    bench.expect("-r", "/dev/null", "-l", "layout", "-i", "boot", out=[
        reference.found("TINY64"), "Read 65536 bytes."])


def takes_regions_of_maps(start):
    """Checks that regions of an FMAP and of a flash descriptor can have their own files, too."""
    old = with_fmap(random_image("fmap"), 0x7123, [(0, 0x1000, b"RO"), (0x1001, 0x2FFF, b"RW_A")])
    bench = start(data=old)
    bench.write("map", old)
    bench.expect("-r", "out", "--fmap-file", "map", "-i", "RW_A:a,RO:b",
                 out=[reference.found("TINY64"), "Read 65536 bytes."])
    bench.check_file("a", old[0x1001:0x4000])
    bench.check_file("b", old[:0x1000])
    old = with_descriptor(random_image("ifd"), [(0, 0), (8, 15), (1, 7)])
    new = random_image("new")
    bench = start(data=old)
    bench.write("map", old)
    bench.write("me.bin", new[0x1000:0x8000])
    got = bench.run("-w", "map", "--journal", "j", "--ifd-file", "map", "-i", "bios,me:me.bin")
    check("the run", (got.err, got.status), ([], 0))
    bench.check_chip(old[:0x1000] + new[0x1000:0x8000] + old[0x8000:])


def keeps_the_files_if_a_read_stops(start):
    """Checks that no region's file is created or truncated if -r stops before it has read all sectors."""
    old = random_image("stop")
    bench = begin(start, old)
    bench.write("a", b"before")
    for at in (bench.first() + it for it in (4, 5, 7, 9)):
        got = bench.run("-r", "out", "-l", "layout", "-i", "boot:a,main:b", events={at: "nak"})
        check("the run", (got.out, got.err[:1], got.status), ([], ["Error 12: stopped."], 1))
        bench.check_file("a", b"before")
        bench.check_absent("b")


def keeps_printed_files(start):
    """Checks that a region's file can't be the file to which standard output is redirected."""
    bench = begin(start, random_image("printed"))
    bench.server.begin({})
    with open(bench.path("print"), "wb") as printed:
        process = bench.start(("-r", "out", "-l", "layout", "-i", "boot:print"), out=printed)
        _, err = process.communicate(timeout=LONGEST)
    check("the run", (err.decode().splitlines(), process.returncode), (reference.file_fault(5, "print", "printed"), 1))
    bench.check_nothing_sent()


def finds_links_to_new_files(start):
    """Checks that a region's file may not be a link to another file of the run, even to one that the run creates.

    The run ends with file fault 5 before it writes to the link.
    """
    old = random_image("links")
    bench = begin(start, old)
    bench.path("link").symlink_to("out")
    bench.expect("-r", "out", "-l", "layout", "-i", "boot:link", err=reference.file_fault(5, "link"))
    bench.check_file("out", only(old, "boot"))
    bench.path("second").symlink_to("first")
    bench.expect("-r", "next", "-l", "layout", "-i", "boot:first,main:second", err=reference.file_fault(5, "second"))
    bench.check_file("next", only(old, "boot", "main"))
    bench.check_file("first", cut(old, "boot"))
    bench.path("third").symlink_to("log")
    bench.expect("-r", "last", "-o", "log", "-l", "layout", "-i", "boot:third", err=reference.file_fault(5, "third"))
    bench.check_file("last", only(old, "boot"))
    bench.expect("-r", "none", "-o", "own", "-l", "layout", "-i", "boot:own", err=reference.file_fault(5, "own"))
    bench.check_nothing_sent()
    bench.check_absent("none")
    bench.check_absent("own")


CASES = [reads_regions_into_files, takes_several_options, writes_a_region_from_a_file, lets_the_later_file_win,
         verifies_a_region_against_a_file, refuses_other_lengths, refuses_files_that_cannot_be_used,
         gives_each_file_of_a_read_one_role, keeps_the_files_of_a_write_apart, keeps_a_journal,
         reports_a_file_that_cannot_be_written, needs_a_regular_output, takes_regions_of_maps,
         keeps_the_files_if_a_read_stops, keeps_printed_files, finds_links_to_new_files]
