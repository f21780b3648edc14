"""These cases test the file j.sectors, in which a session with the journal j saves sums of sectors before its change.

A disturbed address erases or programs a sector that the journal doesn't save. The session then names this sector, and a
restore ends with chip fault 5 instead of "Done". The expected bytes and addresses are those of the chip's model
(chip.py).
"""
import hashlib
import random
import shutil
import subprocess
from pathlib import Path

import reference
from bench import check
from chip import ERASES, SECTOR
from losses import sealed_after, session_wire
from options import ALL, images
from wire import begins

# The sessions of most cases change these sectors. In sector 1 bits only change from 1 to 0.
CHANGED = (1, 2, 7, 15)
# This library records the program's calls on files.
CUT = Path(__file__).parents[1] / "kill/cut.c"
# The serprog frame of a 4 KiB erase begins with these bytes.
ERASE = bytes.fromhex("13 040000 000000 20")


def places(numbers):
    """Returns how a printed line names these sectors: the addresses of at most four, and the number of the others."""
    text = ", ".join(f"0x{number * SECTOR:06x}" for number in numbers[:4])
    more = f" and {len(numbers) - 4} more" if len(numbers) > 4 else ""
    return f"the sector{'s' * (len(numbers) > 1)} at {text}{more}"


def strays(numbers):
    """Returns the last line of a session that has changed these sectors, although its journal doesn't save them."""
    return (f"Also changed, though the journal doesn't save it: {places(numbers)}. A disturbed address on the wire has "
            "probably erased or programmed it. After the restore, restore it from a backup.")


def differs(numbers):
    """Returns the line of a restore after which these sectors differ from the chip before the session."""
    return (f"Chip fault 5: the journal was restored, but the chip differs from before the session in {places(numbers)}. "
            "The journal doesn't save this. If a later session that you accepted or the running board (NVRAM, UEFI "
            "variables) has written there, it is right: don't restore it. Otherwise a disturbed address on the wire has "
            "probably changed it: restore it from a backup.")


def disturbed(start, seed, wrong, numbers=CHANGED):
    """Runs a session with a wrong address bit in the transactions from the first to the last of `wrong`.

    Returns the bench (with a backup of the original chip in the file `whole`), the original chip's bytes, and the
    result of the session.
    """
    old, new = images(seed, numbers)
    bench = start(data=old)
    bench.write("new", new)
    bench.write("whole", reference.journal("TINY64", old, ALL))
    bench.server.traits.wrong_address = (*wrong, 14)
    got = bench.run("-w", "new", "--journal", "j")
    bench.server.traits.wrong_address = ()
    bench.check_file("j.sectors", reference.sums("TINY64", old, ALL))
    return bench, old, got


def first_of(seed, opcode):
    """Returns the number of the first transaction of a session that has this opcode."""
    return next(at for at, (out, _) in enumerate(session_wire(*images(seed, CHANGED)), 1) if out[0] == opcode)


def changed_in(bench, old):
    """Returns the sectors of the chip that differ from the original chip."""
    return [it for it in ALL if reference.sector_of(bench.chip.data, it) != reference.sector_of(old, it)]


def names_the_other_sector(start):
    """Checks that the session and each restore name the wrong sector if one erase or program had a wrong address bit.

    After a restore from a backup, a restore from the journal ends with "Done".
    """
    for opcode in 0x20, 0x02:
        number = first_of("names_the_other_sector", opcode)
        for words in (), ("--quick",):
            bench, old, got = disturbed(start, "names_the_other_sector", (number, number))
            others = [it for it in changed_in(bench, old) if it not in CHANGED]
            check("sectors that the journal doesn't save", len(others), 1)
            begins(f"the session, {opcode:02x}h", got, ["Error 14: bytes differ at "])
            check("its last line", got.err[2:], [strays(others)])
            for _ in range(2):
                bench.expect("--restore", "j", *words, err=[differs(others)])
            check("what the restore left", changed_in(bench, old), others)
            check("the backup", bench.run("--restore", "whole", "--quick").status, 0)
            bench.check_chip(old)
            got = bench.run("--restore", "j", *words)
            check("a restore of a chip as before", (got.out[1][:5], got.err, got.status), ("Done:", [], 0))


def names_all_other_sectors(start):
    """Checks that a session and its restore name all wrong sectors if an address bit was wrong during the whole change.

    If there are more than four, only the first four are named, and the others are counted.
    """
    for numbers in (2, 7, 15), (2, 4, 7, 9, 11, 14):
        wire = session_wire(*images("names_all_other_sectors", numbers))
        first = next(at for at, (out, _) in enumerate(wire, 1) if out[0] in reference.CHANGING)
        wrong = first, reference.compares_from(wire, first) - 1
        bench, old, got = disturbed(start, "names_all_other_sectors", wrong, numbers)
        others = [it for it in changed_in(bench, old) if it not in numbers]
        check("other sectors", others, sorted(it ^ 4 for it in numbers))
        begins("the session", got, ["Chip fault 4: the chip differs from its target at "])
        check("its last line", got.err[1:], [strays(others)])
        bench.expect("--restore", "j", err=[differs(others)])
        bench.chip.data[12 * SECTOR] ^= 1
        bench.expect("--restore", "j", "--quick", err=[differs(sorted([*others, 12]))])


def disturbed_at_the_end(bench, old, new):
    """Runs a session in the last 192 KiB of a chip, and once more with a wrong address bit in its only 4 KiB erase.

    Returns the result of the second run.
    """
    bench.remembers = False
    bench.write("new", new)
    bench.write("layout", b"fd0000:ffffff end\n")
    job = ("-w", "new", "-l", "layout", "-i", "end", "-N", "--journal", "j")
    check("without a wrong bit", bench.run(*job).status, 0)
    erases = [(at, out[0]) for at, (out, _) in enumerate(bench.server.log, 1) if out[0] in ERASES]
    check("erases", [it for _, it in erases], [0xD8, 0x52, 0x20])
    bench.chip.data[:] = old
    bench.remove_journal()
    number = erases[-1][0]
    bench.server.traits.wrong_address = (number, number, 14)
    got = bench.run(*job)
    bench.server.traits.wrong_address = ()
    return got


def names_the_last_sector(start):
    """Checks that a session names the last sector of a chip of 16 MiB, which a disturbed 4 KiB erase has hit.

    The session also has erases of 64 and 32 KiB, whose sectors must not be named.
    """
    size = 1 << 24
    old = b"\xff" * (size - 0x30000) + random.Random("names_the_last_sector").randbytes(0x30000)
    new = bytearray(old)
    for begin, length in (0xFD0000, 0x10000), (0xFE8000, 0x8000), (0xFFB000, SECTOR):
        new[begin : begin + length] = b"\xff" * length
    last = size // SECTOR - 1
    bench = start("W25Q128FV", data=old)
    got = disturbed_at_the_end(bench, old, bytes(new))
    check("the last sector", bytes(bench.chip.data[-SECTOR:]), b"\xff" * SECTOR)
    begins("the session", got, ["Error 14: bytes differ at 0xffb"])
    check("its last line", got.err[2:], [strays([last])])
    bench.expect("--restore", "j", "--quick", err=[differs([last])])


def says_what_it_cannot_know(start):
    """Checks that a restore ends with "Done" and a line with a reason if j.sectors is missing or wrong.

    A restore with -N, and a restore from a backup, don't need the file.
    """
    number = first_of("says_what_it_cannot_know", 0x20)
    bench, old, _ = disturbed(start, "says_what_it_cannot_know", (number, number))
    right = bench.path("j.sectors").read_bytes()
    files = [right[:at] + bytes([right[at] ^ 1]) + right[at + 1 :] for at in (0, 7, 8, 11, 19, 24, 40, 5000, len(right) - 1)]
    wrong = [(None, "is missing"), *((it, "is damaged") for it in (*files, b"", right[:-1], right + b"\0"))]
    new = bench.path("new").read_bytes()
    others = (new, b"\1" * 8), (old, b"\1" * 8), (new, bytes(8))
    wrong += [(reference.sums("TINY64", data, ALL, unique), "belongs to another journal") for data, unique in others]
    wrong.append((reference.sums("TINY64", old, set(ALL) - {7}), "belongs to another journal"))
    for words in (), ("--quick",):
        for content, why in wrong:
            if content is None:
                bench.path("j.sectors").unlink()
            else:
                bench.write("j.sectors", content)
            bench.server.begin({})
            status, out, err = bench.finish(bench.start(("--restore", "j", *words)))
            check(f"Done, {why}", (status, out[1][:5]), (0, "Done:"))
            if content is not None:
                check("the line", err, [reference.unknown_sectors("j", why)])
            check("with -N", bench.run("--restore", "j", "-N", *words)[2], [])
        bench.write("j.sectors", right)
    check("a backup", bench.run("--restore", "whole").err, [])


def reports_an_unreadable_file(start):
    """Checks that a restore ends with "Done" and a line with the reason if a directory has the name j.sectors."""
    old, new = images("reports_an_unreadable_file", CHANGED)
    bench = start(data=old)
    bench.write("new", new)
    check("the session", bench.run("-w", "new", "--journal", "j").status, 0)
    bench.path("j.sectors").unlink()
    bench.path("j.sectors").mkdir()
    for words in (), ("--quick",):
        status, out, err = bench.run("--restore", "j", *words)
        check("Done", (status, out[1][:5]), (0, "Done:"))
        check("the line", err, [reference.unknown_sectors("j", "is damaged")])


def names_what_wp_range_leaves_open(start):
    """Checks that a restore from a journal of --wp-range says that it can't know whether sectors have changed.

    --wp-range reads no sector, so it writes no j.sectors.
    """
    bench = start("W25Q64FV")
    check("the session", bench.run("--wp-range", "0,0x800000", "--journal", "j").status, 0)
    bench.check_absent("j.sectors")
    for words in (), ("--quick",):
        status, out, err = bench.run("--restore", "j", *words)
        check("Done", (status, out[1][:5]), (0, "Done:"))
        check("the line", err, [reference.unknown_sectors("j", reference.UNWRITTEN)])
        check("with -N", bench.run("--restore", "j", "-N", *words)[2], [])


def compares_whole_sums(start):
    """Checks that a sum which differs in only one of its eight bytes is chip fault 5."""
    old, new = images("compares_whole_sums", CHANGED)
    bench = start(data=new)
    bench.write("j", reference.journal("TINY64", old, CHANGED))
    body = reference.sums("TINY64", old, ALL)[:-32]
    for other in 0, 12:
        for at in range(8):
            # j.sectors has a header of 19 bytes, and an entry of 9 bytes for each sector: 01h and the sum.
            place = 19 + 9 * other + 1 + at
            wrong = body[:place] + bytes([body[place] ^ 0x10]) + body[place + 1 :]
            bench.write("j.sectors", wrong + hashlib.sha256(wrong).digest())
            bench.expect("--restore", "j", "--quick", err=[differs([other])])


def notes_included_sectors(start):
    """Checks that j.sectors has a sum for each sector that the session read.

    With regions and -N these are the sectors with included addresses, and otherwise all sectors.
    """
    old, new = images("notes_included_sectors", CHANGED)
    for words, known in ((), ALL), (("-N",), range(1, 9)):
        bench = start(data=old)
        bench.write("new", new)
        bench.write("layout", b"1000:8fff some\n")
        check("the session", bench.run("-w", "new", "-l", "layout", "-i", "some", "--journal", "j", *words).status, 0)
        bench.check_file("j.sectors", reference.sums("TINY64", old, known))
        check("the restore", bench.run("--restore", "j").err, [])
        bench.chip.data[4 * SECTOR] ^= 1
        bench.chip.data[12 * SECTOR] ^= 1
        bench.expect("--restore", "j", err=[differs([it for it in (4, 12) if it in known])])


def keeps_an_old_file(start):
    """Checks that an existing j.sectors isn't overwritten: the session ends with file fault 4 and sends nothing.

    If the journal exists too, the file fault names the journal.
    """
    old, new = images("keeps_an_old_file", CHANGED)
    bench = start(data=old)
    bench.write("new", new)
    bench.write("j.sectors", b"old")
    words = ("-w", "new", "--journal", "j")
    bench.expect(*words, err=reference.file_fault(4, "j.sectors"))
    bench.check_nothing_sent()
    bench.check_absent("j")
    bench.write("j", b"old")
    bench.expect(*words, err=reference.file_fault(4, "j"))
    bench.check_file("j.sectors", b"old")
    bench.check_chip(old)


def goes_on_without_the_file(start):
    """Checks that a session goes on if it can't write j.sectors, and prints a line about this."""
    old, new = images("goes_on_without_the_file", CHANGED)
    bench = start(data=old)
    bench.write("new", new)
    name = "j" * 250
    got = bench.run("-w", "new", "--journal", name)
    check("the line", got.err, [f"{name}.sectors can't be written, so a restore won't find out whether another sector was "
                                "damaged. The journal is sealed."])
    check("the status", got.status, 0)
    bench.check_chip(new)


def writes_it_before_the_change(start):
    """Checks that j.sectors is complete before the change. A session without a change doesn't write this file."""
    old, new = images("writes_it_before_the_change", CHANGED)
    wire = session_wire(old, new)
    sealed = sealed_after(wire)
    for number in sealed, sealed + 1:
        bench = start(data=old)
        bench.write("new", new)
        bench.run("-w", "new", "--journal", "j", events={number: "kill"})
        if number > sealed:
            bench.check_file("j.sectors", reference.sums("TINY64", old, ALL))
        else:
            bench.check_absent("j.sectors")
    bench = start(data=new)
    bench.write("new", new)
    check("no change", bench.run("-w", "new", "--journal", "j").status, 0)
    bench.check_absent("j.sectors")


def syncs_it_before_the_change(start):
    """Checks that j.sectors and its directory are synced before the first erase is sent."""
    if not shutil.which("cc"):
        print("skipped: syncs_it_before_the_change, since there is no C compiler (cc)")
        return
    old, new = images("syncs_it_before_the_change", CHANGED)
    bench = start(data=old)
    bench.write("new", new)
    library, record = bench.path("cut.so"), bench.path("record")
    subprocess.run(["cc", "-std=c11", "-O1", "-shared", "-fPIC", "-o", library, CUT], check=True)
    bench.environment = {"LD_PRELOAD": str(library), "RECORD": str(record), "CALL": "0"}
    check("the session", bench.run("-w", "new", "--journal", "j").status, 0)
    events = events_of(record.read_bytes())
    erase = next(at for at, (what, _, data) in enumerate(events) if what == "write" and ERASE in data)
    mine = [it for it in events[:erase] if it[1] == "j.sectors"]
    check("calls on the file", [what for what, _, _ in mine], ["make", "write", "sync"])
    check("its bytes", mine[1][2], reference.sums("TINY64", old, ALL))
    made = events.index(("make", "j.sectors", b""))
    check("a sync of the directory", ("sync", ".", b"") in events[made:erase], True)


def events_of(record):
    """Returns the file events that cut.c recorded: the kind, the file's name and the bytes of each event."""
    found, at = [], 0
    while at < len(record):
        end = record.index(b"\n", at)
        what, _, size, name = record[at:end].decode().split(" ", 3)
        at = end + 1 + int(size)
        found.append((what, name, record[end + 1 : at]))
    return found


CASES = [names_the_other_sector, names_all_other_sectors, names_the_last_sector, says_what_it_cannot_know,
         reports_an_unreadable_file, names_what_wp_range_leaves_open, compares_whole_sums, notes_included_sectors,
         keeps_an_old_file, goes_on_without_the_file, writes_it_before_the_change, syncs_it_before_the_change]
