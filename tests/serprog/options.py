"""These cases test options: what the program prints and sends, and what the chip and the files hold afterwards.

The numbers of transactions are those of reference.py, or are counted by hand: on TINY64 the engine sends 5 transactions
for a probe, 7 for an identification, and 16 for a scan of the whole chip.
"""
import random

import reference
from bench import check
from chip import ERASES, FURTHER, NAMES, PARTS, SECTOR, protected_range

SIZE = 65536
FREE = b"\xff" * SIZE
ALL = range(16)
LAYOUT = b"0:fff first\n8000:ffff upper\n1001:1001 byte\n"


def images(seed, numbers=(1, 2, 7, 15)):
    """Returns two images of TINY64 that differ in these sectors.

    Sector 1 of the first image is blank, so a change of this sector needs no erase. Any other change needs one.
    """
    chance = random.Random(seed)
    old = bytearray(chance.randbytes(SIZE))
    old[SECTOR : 2 * SECTOR] = b"\xff" * SECTOR
    new = bytearray(old)
    for number in numbers:
        at = number * SECTOR
        new[at + 100 : at + 700] = chance.randbytes(600)
    return bytes(old), bytes(new)


def identifies(start):
    """Checks that a run without an operation identifies TINY64 by its SFDP, and the other two chips by their IDs."""
    for part in "TINY64", "W25Q64FV", "W25Q128FV":
        bench = start(part)
        bench.expect(out=[reference.found(part)])
        bench.check_frames(reference.probe(part))


def identifies_further_chips(start):
    """Checks that the program identifies each chip in FURTHER by its ID, and that -c accepts the name of this chip.

    A run with -c and the name of another chip ends with error 3.
    """
    for part in FURTHER:
        bench = start(part)
        bench.expect("-c", part, out=[reference.found(part)])
        bench.check_frames(reference.probe(part))
    bench.expect("-c", "W25Q32FV", err=[
        reference.OTHER_NAME[0], "-c names W25Q32FV. The connected chip is W25Q128JV-M (ef7018)."])
    bench.check_frames(reference.probe(part))


def sets_the_clock(start):
    """Checks that spispeed= sets the clock with S_SPI_FREQ before the first transaction, and that nothing else sets it.

    A number with leading zeros is decimal. (flashrom reads it as octal.) As in flashrom, k and M multiply the number by
    1,000 and 1,000,000. If the programmer sets a higher clock, the program prints a line about it.
    """
    bench = start()
    for speed, hertz in (
            ("2000000", 2_000_000), ("02000000", 2_000_000), ("00000000000002000000", 2_000_000), ("2M", 2_000_000),
            ("2m", 2_000_000), ("500k", 500_000), ("500K", 500_000), ("00000000000000000016M", 16_000_000),
            ("1k", 1000), ("4294M", 4_294_000_000), ("4294967k", 4_294_967_000), ("4294967295", 4_294_967_295)):
        bench.expect(keys=f",spispeed={speed}", out=[reference.found("TINY64")])
        clocks = [arguments for opcode, arguments in bench.server.commands if opcode == 0x14]
        check("S_SPI_FREQ", clocks, [hertz.to_bytes(4, "little")])
        bench.check_frames(reference.probe("TINY64"))
    bench.expect(out=[reference.found("TINY64")])
    check("commands 14h", [it for it in bench.server.commands if it[0] == 0x14], [])
    bench = start(replies={0x14: b"\x06" + (12_000_000).to_bytes(4, "little")})
    got = bench.run(keys=",spispeed=1000000")
    check("standard error", got.err, [reference.HIGHER_CLOCK.format(12_000_000, 1_000_000)])
    check("standard output", got.out, [reference.found("TINY64")])
    check("exit status", got.status, 0)


def selects_a_chip(start):
    """Checks that cs= selects one of the programmer's chips with S_SPI_CS."""
    bench = start(selects=3)
    bench.expect(keys=",cs=2", out=[reference.found("TINY64")])
    check("S_SPI_CS", [it for it in bench.server.commands if it[0] == 0x16], [(0x16, b"\x02")])
    bench.check_frames(reference.probe("TINY64"))
    bench.expect(keys=",spispeed=1,cs=0", out=[reference.found("TINY64")])
    check("S_SPI_CS", [it for it in bench.server.commands if it[0] == 0x16], [(0x16, b"\0")])


def keeps_to_the_protocol(start):
    """Checks that the program sends only NOP, SYNCNOP and Q_IFACE before Q_CMDMAP, and later only commands in the map.

    The program must also select SPI with S_BUSTYPE, and turn the programmer's pins on once with S_PIN_STATE.
    """
    bench = start(lacks=(0x03, 0x04), buses=0x0F)
    bench.expect(out=[reference.found("TINY64")])
    opcodes = [it[0] for it in bench.server.commands]
    at = opcodes.index(0x02)
    check("commands before Q_CMDMAP", set(opcodes[:at]), {0x00, 0x01, 0x10})
    check("the first commands", opcodes[:10], [0x00] * 10)
    check("commands that the map lacks", set(opcodes) - set(bench.server.known()), set())
    check("S_BUSTYPE", [it for it in bench.server.commands if it[0] == 0x12], [(0x12, b"\x08")])
    check("the pins", [bool(it[1][0]) for it in bench.server.commands if it[0] == 0x15], [True])


def names_the_chip(start):
    """Checks that -c accepts each name of the chip, in upper or lower case, and that any other name is error 3."""
    for part in "W25Q64FV", "W25Q128FV", *FURTHER:
        bench = start(part)
        for name in part, part.lower(), part.replace("Q", "q"), part[:5] + part[5:].lower():
            bench.expect("-c", name, out=[reference.found(part)])
        bench.check_frames(reference.probe(part))
        for name in NAMES.get(part, ()):
            bench.expect("-c", name, out=[reference.found(part)])
            bench.expect("-c", name.lower(), out=[reference.found(part)])
        there = f"The connected chip is {part} ({PARTS[part].id.hex()})."
        other = next(it for it in NAMES if it != part)
        for name in NAMES[other]:
            bench.expect("-c", name, err=[reference.OTHER_NAME[0], f"-c names {other}. {there}"])
        for name in "w25q", "W25Q64DV", "W25Q64BVX", "25Q64BV", "W25Q64BV/W25Q64CV", "W25Q32JV-.M", "W25Q16JV":
            bench.expect("--chip", name, err=[
                reference.OTHER_NAME[0],
                f"This program knows no chip with the name of -c; -L lists the names. {there}"])
    bench = start()
    for name in "SFDP", "sfdp", "Sfdp":
        bench.expect("-c", name, out=[reference.found("TINY64")])
    bench.expect("-c", "W25Q64FV", err=reference.OTHER_NAME)
    bench.expect("-c", "other", err=[
        reference.OTHER_NAME[0], "This program knows no chip with the name of -c; -L lists the names. The connected "
        "chip has the ID fe1010, and only its SFDP is known: its name for -c is SFDP."])
    bench.check_frames(reference.probe("TINY64"))


def reads(start):
    """Checks that -r writes all bytes of the chip into a file."""
    old, _ = images("reads")
    bench = start(data=old)
    bench.expect("-r", "out", out=[reference.found("TINY64"), "Read 65536 bytes."])
    bench.check_file("out", old)
    bench.check_frames(reference.read_out("TINY64", range(16)))


def reads_regions(start):
    """Checks that -r with -l and -i reads only the sectors of the included regions.

    The file has FFh at all addresses outside these regions.
    """
    old, _ = images("reads_regions")
    bench = start(data=old)
    bench.write("layout", LAYOUT)
    bench.expect("-r", "out", "-l", "layout", "-i", "byte,upper",
                 out=[reference.found("TINY64"), "Read 65536 bytes."])
    bench.check_file("out", b"\xff" * 0x1001 + old[0x1001:0x1002] + b"\xff" * 0x6FFE + old[0x8000:])
    bench.check_frames(reference.read_out("TINY64", [1, *range(8, 16)]))


def reads_inside(start):
    """Checks that no read extends past the end of the chip, and that none is longer than the programmer allows.

    A limit of 0 means that the programmer has none.
    """
    size, old = 1 << 23, random.Random("reads_inside").randbytes(1 << 23)
    for longest, sectors in (65536, 40), (65536, 3), (5000, 9), (9000, 9), (20000, 21), (0, 33):
        bench = start("W25Q64FV", data=old, longest_read=longest)
        first = size // SECTOR - sectors
        bench.write("layout", b"%x:%x last\n" % (first * SECTOR, size - 1))
        bench.expect("-r", "out", "-l", "layout", "-i", "last",
                     out=[reference.found("W25Q64FV"), f"Read {size} bytes."])
        reads = [(int.from_bytes(out[1:4], "big"), len(reply)) for out, reply in bench.server.log if out[0] == 0x03]
        check("reads past the end", [it for it in reads if sum(it) > size], [])
        check("reads that are too long", [it for it in reads if it[1] > (longest or 1 << 24)], [])
        bench.check_file("out", b"\xff" * (first * SECTOR) + old[first * SECTOR :])
        bench.check_frames(reference.read_out("W25Q64FV", range(first, size // SECTOR)))


def verifies(start):
    """Checks that -v compares the chip with an image, and that error 14 has the first address at which they differ."""
    old, new = images("verifies")
    bench = start(data=old)
    bench.write("same", old)
    bench.write("other", old[:0x1234] + bytes([old[0x1234] ^ 1]) + new[0x1235:])
    bench.expect("-v", "same", out=[reference.found("TINY64"), "Verified."])
    # The program reads each sector that equals the image once. Its five reads have 1, 2, 4, 8 and 1 sectors.
    plan = reference.probe("TINY64") + [reference.read_sector(it) for it in range(16)]
    bench.check_frames(plan)
    check("reads", sum(out[0] == 0x03 for out, _ in bench.server.log[bench.first() - 1 :]), 5)
    bench.expect("-v", "other", err=["Error 14: bytes differ at 0x001234."])
    bench.check_chip(old)


def verifies_regions(start):
    """Checks that -v with -l and -i compares only the included regions."""
    bench = start(data=FREE)
    bench.write("layout", LAYOUT)
    bench.write("image", b"\xff" * 0x1000 + b"\0" * 0x7000 + FREE[0x8000:])
    bench.expect("-v", "image", "-l", "layout", "-i", "first,upper", out=[reference.found("TINY64"), "Verified."])
    bench.expect("-v", "image", "-l", "layout", "-i", "byte", err=["Error 14: bytes differ at 0x001001."])


def writes(start):
    """Checks that -w writes an image with exactly the specified transactions.

    The journal saves the sectors that change.
    """
    for numbers in ((1, 2, 7, 15), range(16), (0,), range(8, 16)):
        old, new = images(f"writes {numbers}", numbers)
        bench = start(data=old)
        bench.write("new", new)
        plan = reference.session("TINY64", old, new)
        bench.expect("-w", "new", "--journal", "j", out=[reference.found("TINY64"), reference.done(plan, old, new)])
        bench.check_chip(new)
        bench.check_frames(reference.whole_run("TINY64", plan, True))
        bench.check_file("j", reference.journal("TINY64", old, numbers))


def writes_without_verification(start):
    """Checks that -n omits the verification and the comparison of the whole chip, and that a line reports this."""
    old, new = images("writes_without_verification")
    bench = start(data=old)
    bench.write("new", new)
    plan = reference.session("TINY64", old, new, verifies=False)
    lines = [reference.found("TINY64"), reference.done(plan, old, new), "Nothing was verified (-n)."]
    bench.expect("-w", "new", "-n", "--journal", "j", out=lines)
    bench.check_chip(new)
    bench.check_frames(reference.whole_run("TINY64", plan))


def leaves_out_the_comparison(start):
    """Checks that -N omits only the comparison of the whole chip after -w and -E.

    With -n and -N the reads that verify the changed sectors are omitted, too.
    """
    old, new = images("leaves_out_the_comparison")
    last = ["Nothing was verified (-n)."]
    for words, verifies, lines in (("-N",), True, []), (("--noverify-all",), True, []), (("-n", "-N"), False, last):
        for operation, target in (("-w", "new"), new), (("-E",), FREE):
            bench = start(data=old)
            bench.write("new", new)
            plan = reference.session("TINY64", old, target, verifies=verifies)
            bench.expect(*operation, *words, "--journal", "j",
                         out=[reference.found("TINY64"), reference.done(plan, old, target), *lines])
            bench.check_chip(target)
            bench.check_frames(reference.whole_run("TINY64", plan))


def refuses_needless_options(start):
    """Checks that an option which its operation doesn't allow is usage fault 8, and that nothing is sent.

    -N needs -w, -E or --restore, -n needs -w or -E, and --quick needs --restore.
    """
    bench = start()
    bench.write("new", FREE)
    change = "--wp-range", "0,0", "--journal", "j"
    for words in (("-N",), ("-r", "out", "-N"), ("-v", "new", "--noverify-all"), ("-N", *change), ("--quick",),
                  ("--restore", "j", "-n"), ("-w", "new", "--journal", "j", "--quick"), ("--quick", *change)):
        got = bench.run(*words)
        check(" ".join(words), (got.out, got.err[-1:], got.status), ([], ["Usage fault 8."], 1))
        bench.check_nothing_sent()
    bench.expect("-v", "new", "-N", err=["error: -N needs -w, -E or --restore", "Usage fault 8."])


def restores_quickly(start):
    """Checks that --restore --quick reads the saved sectors, and rewrites only those that differ from the journal.

    Before each restore, the sectors in `equal` have their saved bytes.
    """
    old, new = images("restores_quickly")
    bench = start(data=old)
    bench.write("new", new)
    check("the session", bench.run("-w", "new", "--journal", "j").status, 0)
    for equal in (), (2,), (1, 15), (1, 2, 7, 15):
        now = bytearray(new)
        for number in equal:
            now[number * SECTOR : (number + 1) * SECTOR] = reference.sector_of(old, number)
        bench.chip.data[:] = now
        plan = reference.session("TINY64", bytes(now), old, (1, 2, 7, 15))
        lines = [reference.found("TINY64"), reference.done(plan, now, old)]
        bench.expect("--restore", "j", "--quick", out=lines)
        bench.check_frames(reference.whole_restore("TINY64", plan, (1, 2, 7, 15)))
        bench.check_chip(old)
        bench.chip.data[:] = now
        bench.expect("--restore", "j", "--quick", "-N", out=lines)
        bench.check_frames(plan)
        bench.check_chip(old)


def writes_regions(start):
    """Checks that -w with -l and -i changes only the included regions, and keeps the other bytes of their sectors."""
    old, _ = images("writes_regions")
    image = bytes(byte ^ 0x55 for byte in old)
    new = old[:0x1001] + image[0x1001:0x1002] + old[0x1002:]
    bench = start(data=old)
    bench.write("layout", LAYOUT)
    bench.write("image", image)
    plan = reference.session("TINY64", old, new, [1])
    bench.expect("-w", "image", "-l", "layout", "-i", "byte", "--journal", "j",
                 out=[reference.found("TINY64"), reference.done(plan, old, new)])
    bench.check_chip(new)
    bench.check_frames(reference.whole_run("TINY64", plan, True, True))
    bench.check_file("j", reference.journal("TINY64", old, [1]))


def random_images(chance):
    """Returns two random images of TINY64.

    In each sector, a random range of bytes keeps its bytes, loses bits, gains bits, becomes blank, or is replaced.
    """
    old = bytearray(chance.randbytes(SIZE))
    for number in chance.sample(range(16), 6):
        old[number * SECTOR : (number + 1) * SECTOR] = b"\xff" * SECTOR
    new = bytearray(old)
    for number in range(16):
        at = number * SECTOR + chance.randrange(4000)
        length = chance.randrange(1, (number + 1) * SECTOR - at)
        was, noise = new[at : at + length], chance.randbytes(length)
        new[at : at + length] = chance.choice((
            was, was, noise, bytes(one & other for one, other in zip(was, noise)),
            bytes(one | other for one, other in zip(was, noise)), b"\xff" * length))
    return bytes(old), bytes(new)


def writes_at_random(start):
    """Checks that -w of random images sends exactly the specified transactions.

    The journal restores the original chip.
    """
    chance = random.Random("writes_at_random")
    for _ in range(6):
        old, new = random_images(chance)
        bench = start(data=old)
        bench.write("new", new)
        plan = reference.session("TINY64", old, new)
        bench.expect("-w", "new", "--journal", "j", out=[reference.found("TINY64"), reference.done(plan, old, new)])
        bench.check_frames(reference.whole_run("TINY64", plan, True))
        bench.check_chip(new)
        bench.check_file("j", reference.journal("TINY64", old, reference.touched(old, new)))
        saved = reference.touched(old, new)
        plan = reference.restore("TINY64", old, saved)
        bench.expect("--restore", "j", out=[reference.found("TINY64"), reference.done(plan, old, new)])
        bench.check_frames(reference.whole_restore("TINY64", plan, saved))
        bench.check_chip(old)


def writes_large_chips(start):
    """Checks -w on W25Q64FV and W25Q128FV with erases of 32 and 64 KiB, and a change of the chip's last byte."""
    for part in "W25Q64FV", "W25Q128FV":
        size = 1 << 23 if part == "W25Q64FV" else 1 << 24
        old = bytearray(b"\xff" * size)
        old[0x8000:0x28000] = bytes(0x20000)
        old[size - 300 :] = random.Random(part).randbytes(300)
        new = b"\xff" * 0x28000 + bytes(old[0x28000 : size - 1]) + b"\0"
        bench = start(part, data=bytes(old))
        bench.write("new", new)
        plan = reference.session(part, bytes(old), new)
        bench.expect("-w", "new", "--journal", "j", out=[reference.found(part), reference.done(plan, old, new)])
        bench.check_frames(reference.whole_run(part, plan, True))
        bench.check_chip(new)
        bench.check_file("j", reference.journal(part, bytes(old), reference.touched(old, new)))


def changes_nothing(start):
    """Checks that -w only reads a chip that already holds the image, and that the journal then saves no sector."""
    old, _ = images("changes_nothing")
    bench = start(data=old)
    bench.write("new", old)
    bench.expect("-w", "new", "--journal", "j", out=[
        "Found SFDP (fe1010), 65536 bytes.", "Done: touched 0, erases 0, programs 0, transactions 23."])
    bench.check_frames(reference.whole_run("TINY64", reference.session("TINY64", old, old), True))
    bench.check_file("j", reference.journal("TINY64", old, []))


def erases(start):
    """Checks that -E sends one chip erase (C7h) if each sector needs an erase."""
    old = bytes(SIZE)
    bench = start(data=old)
    bench.expect("-E", "--journal", "j", out=[
        "Found SFDP (fe1010), 65536 bytes.", "Done: touched 16, erases 1, programs 0, transactions 42."])
    bench.check_chip(FREE)
    bench.check_frames(reference.whole_run("TINY64", reference.session("TINY64", old, FREE), True))
    bench.check_file("j", reference.journal("TINY64", old, range(16)))


def erases_regions(start):
    """Checks that -E with -l and -i erases only the included regions, with as few erases as possible."""
    bench = start(data=bytes(SIZE))
    bench.write("layout", LAYOUT)
    new = b"\xff" * 0x1000 + b"\0" * 0x7000 + b"\xff" * 0x8000
    bench.expect("-E", "-l", "layout", "-i", "upper,first", "--journal", "j", out=[
        "Found SFDP (fe1010), 65536 bytes.", "Done: touched 9, erases 2, programs 0, transactions 31."])
    bench.check_chip(new)
    numbers = [0, *range(8, 16)]
    plan = reference.session("TINY64", bytes(SIZE), new, numbers)
    bench.check_frames(reference.whole_run("TINY64", plan, True, True))
    # The verification must read this sector again after the erase, although no other data was read in between.
    bench = start(data=bytes(SIZE))
    bench.write("layout", LAYOUT)
    bench.expect("-E", "-l", "layout", "-i", "first", "--journal", "j", out=[
        "Found SFDP (fe1010), 65536 bytes.", "Done: touched 1, erases 1, programs 0, transactions 12."])
    new = b"\xff" * SECTOR + bytes(SIZE - SECTOR)
    bench.check_frames(reference.whole_run("TINY64", reference.session("TINY64", bytes(SIZE), new, [0]), True, True))


def prints_the_size(start):
    """Checks that --flash-size prints only the size in bytes."""
    for part, size in ("TINY64", "65536"), ("W25Q64FV", "8388608"), ("W25Q128FV", "16777216"):
        bench = start(part)
        bench.expect("--flash-size", out=[size])
        bench.check_frames(reference.probe(part))


def shows_protection(start):
    """Checks that --wp-status prints the protected range, whether the status is locked, and the status bytes.

    Without known protection bits, the run ends with error 6.
    """
    bench = start("W25Q64FV")
    for status, protected, mode in (("0440", "0x000000,0x7e0000", "open"), ("8400", "0x7e0000,0x020000", "locked"),
                                    ("5800", "undefined", "open"), ("1c01", "0x000000,0x800000", "locked"),
                                    ("0000", "0x000000,0x000000", "open"), ("2401", "0x000000,0x020000", "locked")):
        bench.chip.status[:] = bytes.fromhex(status)
        bench.expect("--wp-status", out=[f"Range: {protected}", f"Mode: {mode}",
                                         reference.status_line(bytes.fromhex(status))])
        bench.check_frames(reference.probe("W25Q64FV") + [reference.READ_STATUS_2])
    bench = start("W25Q32FV", status=b"\x04\0")
    bench.expect("--wp-status", out=["Range: 0x3f0000,0x010000", "Mode: open", "Status: 0x04 0x00"])
    start().expect("--wp-status", err=reference.NO_PROTECTION)


def offered_ranges(size):
    """Returns the ranges that a chip of this size can protect, each once.

    The ranges are in ascending order of the lowest number that the protection bits form for a range (CMP, SEC, TB, BP2,
    BP1, BP0, the highest bit first).
    """
    seen = []
    for bits in range(64):
        if bits & 0x17 != 0x16:
            first, after = protected_range(bytes([(bits & 0x1F) << 2, (bits & 0x20) << 1]), size)
            it = (first, after - first) if after > first else (0, 0)
            seen += [it] * (it not in seen)
    return seen


def lists_ranges(start):
    """Checks that --wp-list prints the ranges of `offered_ranges` in their order, or error 6 if no bits are known."""
    for part, size in ("W25Q64FV", 1 << 23), ("W25Q32FV", 1 << 22):
        seen = offered_ranges(size)
        check("ranges", len(seen), 40)
        start(part).expect("--wp-list", out=[f"0x{first:06x},0x{length:06x}" for first, length in seen])
    start().expect("--wp-list", err=reference.NO_PROTECTION)


def protects(start):
    """Checks that --wp-range protects exactly the given range, and that its journal restores the protection bits.

    A range that the chip can't protect is error 8, and no journal is created.
    """
    bench = start("W25Q64FV", status=b"\x04\x40")
    bench.expect("--wp-range", "0,0x800000", "--journal", "j", out=[
        "Found W25Q64FV (ef4017), 8388608 bytes.", "Done: touched 0, erases 0, programs 0, transactions 7.",
        "Range: 0x000000,0x800000"])
    check("status bytes", bytes(bench.chip.status), b"\x1c\0")
    bench.check_file("j", reference.journal("W25Q64FV", bytes(1 << 23), [], b"\x04\x40"))
    bench.check_frames(reference.identify("W25Q64FV") + reference.write_status(b"\x1c\0"))
    done = ["Found W25Q64FV (ef4017), 8388608 bytes.", "Done: touched 0, erases 0, programs 0, transactions 7."]
    got = bench.run("--restore", "j")
    check("the restore", got, (0, done, [reference.unknown_sectors("j", reference.UNWRITTEN)]))
    check("status bytes", bytes(bench.chip.status), b"\x04\x40")
    bench.expect("--wp-range", "0x1000,0x1000", "--journal", "k",
                 err=reference.NOT_OFFERED)
    bench.check_absent("k")


def last_lines(plan):
    """Returns the lines that plain progress prints at the end of a change with this plan.

    Each step ends with a line with the number of its commands, unless its last line already had this number.
    """
    changes = [out[0] for out, _ in plan[next(at for at, it in enumerate(plan) if it[0][0] in reference.CHANGING) :]]
    counts = (("erase", sum(it in (*ERASES, 0xC7) for it in changes), 16, "erase"),
              ("program", changes.count(0x02), 256, "page"), ("read back", changes.count(0x03), 256, "sector"))
    return [counted(step, number, noun) for step, number, stride, noun in counts if number and number % stride != 1]


def counted(step, number, noun):
    """Returns the line of plain progress that a step prints after `number` commands."""
    return f"{step}: {number} {noun}{'s' * (number != 1)}"


def shows_progress(start):
    """Checks the lines of plain progress: those of each step, and one that counts the planned changes."""
    old, new = images("shows_progress")
    bench = start(data=old)
    bench.write("new", new)
    # Sector 1 is blank. The session reads this sector again and programs it without an erase, but the restore must
    # erase it.
    journal = 25 + 4 * 4100 + 36
    bench.expect_at_terminal("-w", "new", "--journal", "j", lines=[
        "identify", "scan: sector 1 of 16", f"Sectors to change: 4. Erases: 3. Bytes of journal: {journal}.",
        reference.sealed("j"), "erase: 1 erase", "read back: 1 sector",
        "program: 1 page", *last_lines(reference.session("TINY64", old, new)), "compare: sector 1 of 16"])
    bench.expect_at_terminal("-v", "new", lines=["identify", "scan: sector 1 of 16"])
    steps = ["Sectors to change: 4. Erases: 4.", "The chip is changed from here on.", "erase: 1 erase",
             "program: 1 page", "read back: 1 sector",
             *last_lines(reference.restore("TINY64", old, (1, 2, 7, 15)))]
    bench.expect_at_terminal("--restore", "j", lines=[
        "identify", "scan: sector 1 of 12", *steps, "compare: sector 1 of 12"])
    bench.check_chip(old)
    bench.expect_at_terminal("--restore", "j", "-N", lines=["identify", *steps])
    bench.expect_at_terminal("--restore", "j", "--quick", lines=[
        "identify", "scan: sector 1 of 16", "Sectors to change: 0. Erases: 0.", "compare: sector 1 of 12"])
    bench.expect_at_terminal("--restore", "j", "--quick", "-N", lines=[
        "identify", "scan: sector 1 of 4", "Sectors to change: 0. Erases: 0."])
    bench.write("old", old)
    bench.expect_at_terminal("-w", "old", "--journal", "k", lines=[
        "identify", "scan: sector 1 of 16", "Sectors to change: 0. Erases: 0. Bytes of journal: 61.",
        "compare: sector 1 of 16"])
    bench.write("layout", b"1800:2fff some\nf000:f000 byte\n")
    for words in (("-r", "out"), ("-v", "old")):
        bench.expect_at_terminal(*words, "-l", "layout", "-i", "some,byte", lines=[
            "identify", "scan: sector 1 of 3"])
    bench.expect_at_terminal("-E", "--journal", "l", "-l", "layout", "-i", "byte", lines=[
        "identify", "scan: sector 1 of 16", "scan: sector 1 of 1",
        "Sectors to change: 1. Erases: 1. Bytes of journal: 4161.",
        reference.sealed("l"), "erase: 1 erase", "program: 1 page",
        "read back: 1 sector", "program: 16 pages", "compare: sector 1 of 16"])


def shows_long_progress(start):
    """Checks that a step prints a line of plain progress at its first command and after every 256 more (16 for erases).

    Status writes are a step of their own (protect).
    """
    old = bytearray(b"\x5a" * (1 << 23))
    bench = start("W25Q64FV", data=bytes(old))
    for number in range(0, 34 * 32, 32):
        old[number * SECTOR] = 0xA5
    bench.write("new", bytes(old))
    bench.expect_at_terminal("-w", "new", "--journal", "j", lines=[
        "identify", *(f"scan: sector {n} of 2048" for n in range(1, 2048, 256)),
        f"Sectors to change: 34. Erases: 34. Bytes of journal: {25 + 34 * 4100 + 36}.",
        reference.sealed("j"), *(counted("erase", n, "erase") for n in (1, 17, 33)),
        *(counted("program", n, "page") for n in (1, 257, 513)), "read back: 1 sector",
        "erase: 34 erases", "program: 544 pages", "read back: 34 sectors",
        *(f"compare: sector {n} of 2048" for n in range(1, 2048, 256))])
    bench.expect_at_terminal("--wp-range", "0,0x800000", "--journal", "k", lines=[
        "identify", "Sectors to change: 0. Erases: 0. Bytes of journal: 61.",
        reference.sealed("k"), "protect: 1 status write"])


def shows_what_a_power_loss_means(start):
    """Checks the lines that say, before the first change, what a loss of power would do to SRP1 and QE.

    A line names SRP1 if SRP1 is set and SRP0 is clear. A line names QE if QE is set and the run will write the status.
    """
    srp1 = "Keep its power on: a loss of power clears SRP1, and a restore then ends with error 17."
    quad = "Keep its power on: a status write that is cut off may clear QE, and a restore doesn't set it again."
    old, new = images("shows_what_a_power_loss_means")
    large = b"\xff" * (1 << 23)
    words = "-E", "--journal", "j", "-l", "layout", "-i", "first"
    sealed = reference.sealed("j")
    for status, option, lines in (
            (b"\0\1", (), [srp1]), (b"\x80\1", (), []), (b"\0\2", (), []), (b"\0\2", ("--unlock",), []),
            (b"\x7c\2", ("--unlock",), [quad])):
        bench = start("W25Q64FV", data=old[:4096] + large[4096:], status=status)
        bench.write("layout", b"0:fff first\n")
        writes = ["protect: 1 status write"] * bool(status[0] & 0x7C)
        bench.expect_at_terminal(*words, *option, lines=[
            "identify", *(f"scan: sector {n} of 2048" for n in range(1, 2048, 256)), "scan: sector 1 of 1",
            "Sectors to change: 1. Erases: 1. Bytes of journal: 4161.", *lines, sealed, *writes,
            "erase: 1 erase", "read back: 1 sector",
            *(f"compare: sector {n} of 2048" for n in range(1, 2048, 256))])
    for status, lines in (b"\0\2", [quad]), (b"\0\0", []):
        bench = start("W25Q64FV", data=large, status=status)
        bench.expect_at_terminal("--wp-range", "0,0x800000", "--journal", "k", lines=[
            "identify", "Sectors to change: 0. Erases: 0. Bytes of journal: 61.", *lines, reference.sealed("k"),
            "protect: 1 status write"])
    # A restore prints the line about QE only if it writes the status.
    for status, after, lines in ((b"\0\2", b"\0\2", []), (b"\x1c\2", b"\0\2", [quad]), (b"\x20\2", b"\0\2", [quad]),
                                 (b"\0\2", b"\x1c\2", [quad])):
        bench = start("W25Q64FV", data=large, status=after)
        bench.write("j", reference.journal("W25Q64FV", large, (3,), status))
        bench.expect_at_terminal("--restore", "j", "-N", lines=[
            "identify", "Sectors to change: 1. Erases: 1.", *lines, "The chip is changed from here on.",
            *["protect: 1 status write"] * bool(after[0]), "erase: 1 erase",
            *["protect: 1 status write"] * (bool(status[0]) and not after[0]), "read back: 1 sector"])


def takes_long_names(start):
    """Checks that -c, -r, -l, -i, -v, -w, -n, -E and -h have flashrom's long names, too.

    A command with a letter and its long name ends with usage fault 1.
    """
    old, new = images("takes_long_names")
    bench = start(data=old)
    bench.write("layout", LAYOUT)
    bench.write("old", old)
    bench.write("new", new)
    found = reference.found("TINY64")
    bench.expect("--chip", "SFDP", out=[found])
    bench.expect("--read", "out", "--layout=layout", "--include", "byte,upper", out=[found, "Read 65536 bytes."])
    bench.check_file("out", b"\xff" * 0x1001 + old[0x1001:0x1002] + b"\xff" * 0x6FFE + old[0x8000:])
    bench.expect("--verify=old", out=[found, "Verified."])
    plan = reference.session("TINY64", old, new, verifies=False)
    bench.expect("--write", "new", "--noverify", "--journal", "j",
                 out=[found, reference.done(plan, old, new), "Nothing was verified (-n)."])
    bench.check_chip(new)
    bench.check_frames(reference.whole_run("TINY64", plan))
    plan = reference.session("TINY64", new, FREE)
    bench.expect("--erase", "--journal", "k", out=[found, reference.done(plan, new, FREE)])
    bench.check_chip(FREE)
    helped = bench.run("--help")
    check("the help", helped, bench.run("-h"))
    check("the help", (helped.status, helped.err, bool(helped.out)), (0, [], True))
    for words in ("-r", "out", "--read", "out"), ("-c", "SFDP", "--chip", "SFDP"), ("--programmer", "serprog:dev=p"):
        got = bench.run(*words)
        check(" ".join(words), (got.out, got.err[-1:], got.status), ([], ["Usage fault 1."], 1))
        bench.check_nothing_sent()


def prints_the_version(start):
    """Checks that -R and --version print the program's name and version without -p, and ignore later arguments."""
    bench = start()
    for words in ("--version",), ("-R",), ("--version", "-p", "x"), ("-R", "-r"), ("--version", "--help"):
        bench.server.begin({})
        got = bench.finish(bench.start_words([str(bench.program), *words]))
        bench.compare(got, ["flashnor-serprog 1.0"], [])
        bench.check_nothing_sent()


def prints_the_name(start):
    """Checks that --flash-name prints only the chip's name, and that -c accepts this name."""
    for part, name in ("TINY64", "SFDP"), ("W25Q64FV", "W25Q64FV"), ("W25Q128FV", "W25Q128FV"):
        bench = start(part)
        bench.expect("--flash-name", "-c", name, out=[name])
        bench.check_frames(reference.probe(part))
    bench.expect("--flash-name", "-c", "W25Q64FV", err=[
        reference.OTHER_NAME[0], "-c names W25Q64FV. The connected chip is W25Q128FV (ef4018)."])
    bench.expect("--flash-name", "--flash-size", err=[
        "error: --flash-size and --flash-name cannot be used together", "Usage fault 4."])


def takes_modes_of_progress(start):
    """Checks that --progress accepts auto, plain and none, and that any other mode is usage fault 5."""
    bench = start()
    for mode in "auto", "plain", "none":
        got = bench.run("--progress", mode)
        check("lines", (got.out, got.status), ([reference.found("TINY64")], 0))
    for mode in "", "Auto", "plain ", "all":
        bench.expect("--progress", mode, err=[
            f"error: invalid value of --progress: '{mode}'; give auto, plain or none", "Usage fault 5."])
        bench.check_nothing_sent()


def needs_its_output(start):
    """Checks that a run whose standard output is full does its job, reports file fault 2, and has exit status 1."""
    old, new = images("needs_its_output")
    bench = start(data=old)
    bench.write("new", new)
    for words in ("-r", "out"), ("-w", "new", "--journal", "j"), ("-h",):
        check("status and faults", bench.run_unprinted(*words),
              (1, ["File fault 2: standard output.", reference.CAUSES["full"]]))
    bench.check_file("out", old)
    bench.check_chip(new)


CASES = [identifies, identifies_further_chips, sets_the_clock, selects_a_chip, keeps_to_the_protocol, names_the_chip,
         reads, reads_regions, reads_inside, verifies, verifies_regions, writes, writes_without_verification,
         leaves_out_the_comparison, refuses_needless_options, restores_quickly, writes_regions, writes_at_random,
         writes_large_chips, changes_nothing, erases, erases_regions, prints_the_size, shows_protection, lists_ranges,
         protects, shows_progress, shows_long_progress, shows_what_a_power_loss_means, takes_long_names,
         prints_the_version, prints_the_name, takes_modes_of_progress, needs_its_output]
