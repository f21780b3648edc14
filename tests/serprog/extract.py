"""Cases of options that use the image in a backup: --extract-image, -v with a backup, and --replaced-chip."""
import hashlib

import reference
from bench import check
from chip import SECTOR
from journals import RESTORE, UNIQUE, describe
from manual import SETTING, block_with, blocks, run_in_shell
from options import ALL, images
from wire import check_unchanged

OTHER = bytes.fromhex("d1d2d3d4d5d6d7d8")
PART = ["Backup fault 1: j.", "This journal saves 3 of 16 sectors. Give one that saves the whole chip (--backup)."]
DAMAGED = ["error: the journal is damaged", "Error 15: journal fault 7.",
           "Bytes of it have changed since it was sealed. Look for another copy."]
NOTHING = [0, 5, 15]
REPLACES = "The backup replaces all that this chip holds, whatever the chip's unique ID is (--replaced-chip)."


def old_format(part, data, status=b"\0\0"):
    """Returns a journal in format 1, which has no unique ID, that saves the whole chip."""
    journal = reference.journal(part, data, range(len(data) // SECTOR), status)
    body = b"NORUNDO1" + journal[8:11] + journal[19:-32]
    return body + hashlib.sha256(body).digest()


def extracts_the_image(start):
    """--extract-image writes the chip's bytes from a backup of either format to a file.

    --check-journal, which it needs, prints the description of the backup before.
    """
    old, _ = images("extracts_the_image")
    bench = start(data=old, unique=UNIQUE)
    check("the backup", bench.run("--backup", "whole").status, 0)
    before = bench.path("whole").read_bytes()
    lines = ["Journal of SFDP (fe1010), 65536 bytes.", "Unique ID: d16288504b2f1a07.",
             "Saves 16 of 16 sectors, from 0x000000 to 0x00ffff.", "Status: 00 00.", "Sealed and undamaged.",
             RESTORE[:-1] + "whole", "Wrote the image of this chip, 65536 bytes: image"]
    for present in None, b"", b"other bytes" * SECTOR:
        if present is not None:
            bench.write("image", present)
        bench.compare(describe(bench, "whole", "--extract-image", "image"), lines, [])
        bench.check_file("image", old)
    bench.check_file("whole", before)
    bench.write("j", old_format("TINY64", old))
    check("lines", describe(bench, "j", "--extract-image", "b c").out[-1], f"{lines[-1][:-5]}b c")
    bench.check_file("b c", old)
    large = bytes(range(255, -1, -1)) * 32768
    bench.write("large", reference.journal("W25Q64FV", large, range(2048)))
    check("exit status", describe(bench, "large", "--extract-image", "image").status, 0)
    bench.check_file("image", large)


def refuses_part_of_a_chip(start):
    """--extract-image from a partial journal ends with backup fault 1, and from a damaged one with error 15.

    No file is created or changed.
    """
    old, _ = images("refuses_part_of_a_chip")
    bench = start(data=old)
    bench.write("image", b"as before")
    for saved in (0, 5, 15), (0, 1, 2), (13, 14, 15):
        bench.write("j", reference.journal("TINY64", old, saved))
        for name in "image", "new":
            bench.compare(describe(bench, "j", "--extract-image", name), [], PART)
    for lacks in 0, 7, 15:
        bench.write("j", reference.journal("TINY64", old, [it for it in ALL if it != lacks]))
        bench.compare(describe(bench, "j", "--extract-image", "new"), [], [PART[0], PART[1].replace("3 of", "15 of")])
    whole = reference.journal("TINY64", old, ALL)
    bench.write("j", whole[:40] + bytes([whole[40] ^ 1]) + whole[41:])
    bench.compare(describe(bench, "j", "--extract-image", "new"), [], DAMAGED)
    bench.compare(describe(bench, "none", "--extract-image", "new"), [], reference.file_fault(1, "none", "missing"))
    bench.check_file("image", b"as before")
    bench.check_absent("new")


def keeps_journals(start):
    """--extract-image overwrites no journal, even if a link names it. Without --check-journal it is usage fault 8."""
    old, _ = images("keeps_journals")
    bench = start(data=old)
    whole = reference.journal("TINY64", old, ALL)
    for name in "whole", "j1":
        bench.write(name, whole)
    bench.path("link").symlink_to("whole")
    bench.path("hard").hardlink_to(bench.path("whole"))
    fault = [*reference.file_fault(4, "j1")]
    bench.compare(describe(bench, "whole", "--extract-image", "j1"), [], fault)
    for name in "whole", "./whole", "link", "hard":
        bench.compare(describe(bench, "whole", "--extract-image", name), [], reference.file_fault(5, name))
    bench.compare(describe(bench, "whole", "--extract-image", "none/image"), [],
                  reference.file_fault(2, "none/image", "no directory"))
    for name in "whole", "j1":
        bench.check_file(name, whole)
    needs = ["error: --extract-image needs --check-journal", "Usage fault 8."]
    for words in ("-r", "new"), ("--restore", "whole"), ("-w", "whole", "--journal", "k"), ():
        bench.expect("--extract-image", "new", *words, err=needs)
        bench.check_nothing_sent()
    bench.check_absent("new")


def verifies_with_a_backup(start):
    """-v compares the chip with the image in a backup: all of it, or one region, or a region with its own file."""
    old, new = images("verifies_with_a_backup")
    bench = start(data=old, unique=UNIQUE)
    check("the backup", bench.run("--backup", "whole").status, 0)
    bench.write("first", old_format("TINY64", old))
    found = reference.found("TINY64")
    for name in "whole", "first":
        bench.expect("-v", name, out=[found, "Verified."])
        check_unchanged(bench, old, b"\0\0")
    bench.chip.data[5 * SECTOR + 17] ^= 4
    at = f"0x{5 * SECTOR + 17:06x}"
    got = bench.run("-v", "whole")
    check("the error", [got.status, got.err[0]], [1, f"Error 14: bytes differ at {at}."])
    bench.write("layout", b"0000:4fff one\n5000:5fff two\n")
    bench.expect("-v", "whole", "-l", "layout", "-i", "one", out=[found, "Verified."])
    check("with the region", bench.run("-v", "whole", "-l", "layout", "-i", "two").status, 1)
    bench.write("two", bytes(bench.chip.data[5 * SECTOR : 6 * SECTOR]))
    bench.expect("-v", "whole", "-l", "layout", "-i", "two:two", out=[found, "Verified."])
    bench.check_file("whole", reference.journal("TINY64", old, ALL, unique=UNIQUE))


def verifies_with_nothing_less(start):
    """-v with a partial journal ends with backup fault 1, and with an invalid one with error 15. Nothing is sent.

    A file that doesn't begin as a journal is an image.
    """
    old, _ = images("verifies_with_nothing_less")
    bench = start(data=old)
    bench.write("j", reference.journal("TINY64", old, NOTHING))
    bench.expect("-v", "j", err=PART)
    bench.check_nothing_sent()
    whole = reference.journal("TINY64", old, ALL)
    for content, fault in (b"NORUNDO2" + old[8:], 3), (b"NORUNDO3" + whole[8:], 2), (whole[:-1], 1), (whole + b"\0", 6):
        bench.write("j", content)
        got = bench.run("-v", "j")
        check("the fault", [got.status, got.err[1]], [1, f"Error 15: journal fault {fault}."])
        bench.check_nothing_sent()
    # This file doesn't begin with NORUNDO, so it is an image.
    image = b"NORUND\0\0" + old[8:]
    bench.write("image", image)
    bench.chip.data[:] = image
    bench.expect("-v", "image", out=[reference.found("TINY64"), "Verified."])
    # The image in a backup of another chip has the wrong length, so the run ends with error 4.
    bench.write("large", reference.journal("W25Q64FV", bytes(1 << 23), range(2048)))
    check("the error", bench.run("-v", "large").err[0][:8], "Error 4:")


def restores_a_replaced_chip(start):
    """--replaced-chip restores a backup on another device of its type, with its protection bits.

    Without this option the restore ends with error 20, because the unique IDs differ.
    """
    size = 1 << 23
    old = bytes(range(256)) * 32 + b"\xff" * (size - 16384) + bytes(range(255, -1, -1)) * 32
    for words in ("--quick",), ("--quick", "-N"), ():
        bench = start("W25Q64FV", data=old, status=b"\x04\0", unique=UNIQUE)
        check("the backup", bench.run("--backup", "whole").status, 0)
        whole = bench.path("whole").read_bytes()
        blank = b"\xff" * SECTOR + bytes(2 * SECTOR) + b"\xff" * (size - 3 * SECTOR)
        other = start("W25Q64FV", data=blank, unique=OTHER)
        other.write("whole", whole)
        got = other.run("--restore", "whole", *words)
        check("without the option", [got.status, got.err[0]], [1, "Error 20: another unit than the journal's."])
        check_unchanged(other, blank, b"\0\0")
        got = other.run("--restore", "whole", "--replaced-chip", *words)
        check("the restore", [got.status, got.err, got.out[-1][:5]], [0, [REPLACES], "Done:"])
        other.check_chip(old, b"\x04\0")
        other.check_file("whole", whole)


def guards_the_replaced_chip(start):
    """--replaced-chip needs --restore and an undamaged backup of the whole chip. Otherwise nothing is sent.

    If the backup's chip type or SRP0 differs, the restore ends with error 16 or 17, and changes nothing.
    """
    old, new = images("guards_the_replaced_chip")
    bench = start(data=new, unique=OTHER)
    for saved, lines in (NOTHING, PART), ([it for it in ALL if it != 9], [PART[0], PART[1].replace("3 of", "15 of")]):
        bench.write("j", reference.journal("TINY64", old, saved, unique=UNIQUE))
        bench.expect("--restore", "j", "--replaced-chip", err=lines)
        bench.check_nothing_sent()
    whole = reference.journal("TINY64", old, ALL, unique=UNIQUE)
    bench.write("j", whole[:-1] + bytes([whole[-1] ^ 1]))
    bench.expect("--restore", "j", "--replaced-chip", err=DAMAGED)
    bench.check_nothing_sent()
    bench.write("j", whole)
    for words in ("-v", "j"), ("-w", "j", "--journal", "k"), ("-r", "k"), ():
        bench.expect("--replaced-chip", *words, err=["error: --replaced-chip needs --restore", "Usage fault 8."])
        bench.check_nothing_sent()
    for content, word in (reference.journal("W25Q64FV", bytes(1 << 23), range(2048), unique=UNIQUE), "Error 16:"), \
            (reference.journal("TINY64", old, ALL, b"\x80\0", UNIQUE), "Error 17:"):
        bench.write("j", content)
        got = bench.run("--restore", "j", "--replaced-chip")
        check("the error", [got.status, got.err[1][:9]], [1, word])
        check_unchanged(bench, new, b"\0\0")
    check("files", bench.path("k").exists(), False)


def follows_the_page(start):
    """The manual page's commands for a replaced chip restore a backup on it, or write the image of the backup to it."""
    old, new = images("follows_the_page")
    bench = start(data=new, unique=OTHER)
    bench.write("whole.journal", reference.journal("TINY64", old, ALL, unique=UNIQUE))
    lines = run_in_shell(bench, block_with("--replaced-chip"), {"P": SETTING})
    check("first words", [it.partition(" ")[0] for it in lines], ["Found", "Read", "The", "Found", "Done:"])
    bench.check_chip(old)
    bench.check_file("new.journal", reference.journal("TINY64", new, ALL, unique=OTHER))
    bench.chip.data[:] = new
    lines = run_in_shell(bench, block_with("--extract-image"), {"P": SETTING})
    check("first words", [it.partition(" ")[0] for it in lines[-3:]], ["Wrote", "Found", "Done:"])
    bench.check_chip(old)
    bench.check_file("old.bin", old)


def rescues_without_an_image(start):
    """With a backup in place of an image, the manual page's commands detect and repair damage to an unsaved sector."""
    old, new = images("rescues_without_an_image")
    bench = start(data=old)
    bench.write("new.bin", new)
    check("the backup", bench.run("--backup", "whole.journal").status, 0)
    check("the session", bench.run("-w", "new.bin", "--journal", "j1").status, 0)
    bench.chip.data[5 * SECTOR : 6 * SECTOR] = b"\xff" * SECTOR
    four = block_with("--restore j1\n#").replace("before.bin", "whole.journal")
    lines = run_in_shell(bench, four, {"P": SETTING})
    check("first words", [it.partition(":")[0] for it in lines], ["Chip fault 5", "Error 14"])
    own = [it for it in blocks() if it.strip() == "flashnor-serprog -p $P --restore whole.journal --quick"]
    check("blocks", len(own), 1)
    lines = run_in_shell(bench, own[0], {"P": SETTING})
    check("first words", [it.partition(" ")[0] for it in lines], ["Found", "Done:"])
    bench.check_chip(old)
    bench.expect("-v", "whole.journal", out=[reference.found("TINY64"), "Verified."])


CASES = [extracts_the_image, refuses_part_of_a_chip, keeps_journals, verifies_with_a_backup, verifies_with_nothing_less,
         restores_a_replaced_chip, guards_the_replaced_chip, follows_the_page, rescues_without_an_image]
