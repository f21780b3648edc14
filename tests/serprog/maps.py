"""Cases of --fmap-file and --ifd-file, which take regions from the FMAP or the flash descriptor of an image file.

The formats are those of flashmap's fmap.h, and of the SPI programming guides of Intel's chipsets.
"""
import random
import struct

import reference
from bench import check
from options import FREE, SIZE

MISSING = "error: there is no {} in the file"


def fmap(areas, size=SIZE):
    """Returns an FMAP with these areas. Each area is an offset, a size and a name."""
    found = struct.pack("<8sBBQI32sH", b"__FMAP__", 1, 1, 0, size, b"FLASH", len(areas))
    return found + b"".join(struct.pack("<II32sH", *area, 0) for area in areas)


def with_fmap(data, at, areas):
    data = bytearray(data)
    table = fmap(areas)
    data[at : at + len(table)] = table
    return bytes(data)


def with_descriptor(data, entries):
    """Returns the image with a flash descriptor in its first 4 KiB.

    `entries` are the base and the limit of each region, in units of 4 KiB.
    """
    data = bytearray(data)
    data[:0x1000] = b"\xff" * 0x1000
    data[0x10:0x1C] = bytes.fromhex("5aa5f00f 03000400 08021045")
    for index, (base, limit) in enumerate(entries):
        data[0x40 + 4 * index : 0x44 + 4 * index] = struct.pack("<HH", base, limit)
    return bytes(data)


def random_image(seed):
    return random.Random(seed).randbytes(SIZE)


def reads_regions_of_an_fmap(start):
    """-r with --fmap-file and -i writes only the bytes of the named areas to its file, and FFh for all other bytes."""
    old = with_fmap(random_image("fmap"), 0x7123, [(0, 0x1000, b"RO"), (0x1001, 0x2FFF, b"RW_A"), (0x4000, 1, b"ID")])
    bench = start(data=old)
    bench.write("before", old)
    for names, first, last in ("RW_A", 0x1001, 0x3FFF), ("RW_A,ID", 0x1001, 0x4000), ("ID", 0x4000, 0x4000):
        bench.expect("-r", "out", "--fmap-file", "before", "-i", names,
                     out=[reference.found("TINY64"), "Read 65536 bytes."])
        bench.check_file("out", b"\xff" * first + old[first : last + 1] + b"\xff" * (SIZE - 1 - last))


def writes_regions_of_a_descriptor(start):
    """-w with --ifd-file and -i changes only the named regions of the descriptor.

    Base and limit are numbers of 4 KiB units, and a region contains both units.
    """
    old = with_descriptor(random_image("old"), [(0, 0), (8, 15), (1, 7)])
    new = random_image("new")
    bench = start(data=old)
    bench.write("before", old)
    bench.write("new", new)
    wanted = old[:0x8000] + new[0x8000:]
    got = bench.run("-w", "new", "--journal", "j", "--ifd-file", "before", "-i", "bios")
    check("the run", (got.out[0], got.err, got.status), (reference.found("TINY64"), [], 0))
    bench.check_chip(wanted)
    got = bench.run("-w", "new", "--journal", "k", "--ifd-file", "before", "-i", "fd,me")
    check("the run", (got.err, got.status), ([], 0))
    bench.check_chip(new)


def refuses_wrong_maps(start):
    """If the image has no valid map, the run ends with a map fault and the name of the file, and sends nothing."""
    bench = start(data=FREE)
    whole = with_fmap(FREE, 0x100, [(0, SIZE, b"ALL")])
    table, descriptor = "FMAP", "flash descriptor"
    lacks = MISSING.format(table)
    for option, image, lines in (
            ("--fmap-file", FREE, [lacks, "Map fault 1."]), ("--fmap-file", b"", [lacks, "Map fault 1."]),
            ("--fmap-file", fmap([(0, 1, b"A"), (1, 1, b"B")])[:-1],
             ["error: the FMAP in the file is cut off", "Map fault 2."]),
            ("--fmap-file", with_fmap(FREE, 0, [(0, SIZE, b"A"), (0xFFFFFFFF, 1, b"B")]),
             ["error: region 2 of the FMAP in the file ends above 4 GiB", "Map fault 3."]),
            ("--fmap-file", with_fmap(FREE, 0, [(0, 1, b"A,B")]),
             ["error: the FMAP in the file has a region without a valid name", "Map fault 4."]),
            ("--fmap-file", with_fmap(FREE, 0, [(0, 1, b"A"), (1, 1, b"A")]),
             ["error: the FMAP in the file has two regions with one name", "Map fault 5."]),
            ("--fmap-file", with_fmap(FREE, 0, [(it, 1, b"A%d" % it) for it in range(65)]),
             ["error: the FMAP in the file has more than 64 regions", "Map fault 6."]),
            ("--ifd-file", whole, [MISSING.format(descriptor), "Map fault 1."]),
            ("--ifd-file", whole[:4095], ["error: the flash descriptor in the file is cut off", "Map fault 2."])):
        bench.write("before", image)
        bench.expect("-r", "out", option, "before", "-i", "a", err=[*lines, "The regions are in the file before."])
        bench.check_nothing_sent()
        bench.check_absent("out")


def names_the_regions_that_exist(start):
    """After layout fault 8, a line lists the names of the layout's regions.

    The list ends after the name with which it has at least 200 bytes. The line then gives the number of other regions.
    """
    bench = start(data=FREE)
    many = [b"REGION_%02d" % it for it in range(64)]
    shown = ", ".join(it.decode() for it in many[: -(-200 // len("REGION_00, "))])
    for option, image, names in (
            ("--fmap-file", with_fmap(FREE, 0x100, [(0, SIZE, b"ALL")]), "ALL."),
            ("--fmap-file", with_fmap(FREE, 0x100, [(0, 1, b"RO"), (1, 1, b"A"), (9, 1, b"B")]), "RO, A, B."),
            ("--fmap-file", with_fmap(FREE, 0, [(it, 1, name) for it, name in enumerate(many)]),
             f"{shown} and {64 - len(shown.split(', '))} more."),
            ("--fmap-file", with_fmap(FREE, 0x100, []), "none."),
            ("--ifd-file", with_descriptor(FREE, [(0, 0), (8, 15), (1, 7)]), "fd, bios, me."),
            ("-l", b"0:fff ab\n1000:1fff c\n", "ab, c.")):
        bench.write("before", image)
        bench.expect("-r", "out", option, "before", "-i", "a", err=[
            "error: the layout has no region 'a'", "Layout fault 8.", f"Regions in the file before: {names}"])
        bench.check_nothing_sent()
        bench.check_absent("out")


def takes_one_layout(start):
    """Two layouts, a layout without -i or an operation, or -i without a layout end the run with usage fault 7."""
    bench = start(data=FREE)
    for words, why in (
            ("-r out -l a --fmap-file b -i c", "-l and --fmap-file cannot be used together"),
            ("-r out -l a --ifd-file b -i c", "-l and --ifd-file cannot be used together"),
            ("-r out --fmap-file a --ifd-file b", "--fmap-file and --ifd-file cannot be used together"),
            ("-r out -l a --fmap-file b --ifd-file c -i d", "-l and --ifd-file cannot be used together"),
            ("-r out --fmap-file a", "--fmap-file needs -i"), ("-r out --ifd-file a", "--ifd-file needs -i"),
            ("--ifd-file a -i b", "--ifd-file and -i need -r, -v, -w or -E"),
            ("-r out -i b", "-i needs -l, --fmap, --fmap-file, --ifd or --ifd-file")):
        bench.expect(*words.split(), err=[f"error: {why}", "Usage fault 7."])
        bench.check_nothing_sent()


def keeps_the_image_apart(start):
    """If the image with the map is also the output of -r, the run ends with file fault 5. The image stays unchanged."""
    old = with_fmap(random_image("apart"), 0, [(0, SIZE, b"ALL")])
    bench = start(data=old)
    bench.write("before", old)
    bench.expect("-r", "before", "--fmap-file", "before", "-i", "ALL", err=reference.file_fault(5, "before"))
    bench.check_file("before", old)
    bench.check_nothing_sent()


CASES = [reads_regions_of_an_fmap, writes_regions_of_a_descriptor, refuses_wrong_maps, names_the_regions_that_exist,
         takes_one_layout, keeps_the_image_apart]
