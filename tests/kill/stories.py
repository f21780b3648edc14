"""Defines the stories of lost.py. A story is an emulated chip in files, with successive runs on it."""
import collections
import random

SIZE = 65536
SECTOR = 4096
DONE = "Done: "
STOPPED = "Error 12: stopped."

# A Content has the bytes of a chip's image and status. Each of them is None if its file doesn't exist, or if the chip
# has no such file.
Content = collections.namedtuple("Content", "image status")

# A Step is a run. `words` are its arguments after -p, `keys` is added to the value of -p, and `journal` is its
# journal's file. `before` has the chip's contents before the session (for a restore: the session that it undoes), and
# `wanted` those after the run, unless it is stopped. The output of the run must contain `end`.
Step = collections.namedtuple("Step", "words keys journal before wanted end")

# A Story has a chip, the contents of its files at the start, and its runs. If `old` is given, another program has
# written or deleted the chip's files before the last run, but synced nothing, so the disk still has the contents `old`.
Story = collections.namedtuple("Story", "name chip start old steps")


class Chip:
    """An emulated chip whose bytes and status are in files."""

    def __init__(self, part, image, status):
        self.image, self.status = image, status
        self.programmer = f"dummy:emulate={part}"
        for key, name in ("image", image), ("status", status):
            if name:
                self.programmer += f",{key}={name}"

    def names(self):
        return [name for name in (self.image, self.status) if name]

    def length(self, name):
        return SIZE if name == self.image else 2

    def files(self, content):
        """Returns the files of a chip with this content, by their names."""
        pairs = zip((self.image, self.status), content)
        return {name: given for name, given in pairs if name and given is not None}

    def difference(self, files, content):
        """Returns a text that says how these files differ from those of a chip with this content, or an empty string. A
        file that is None in the content may also be that of an erased chip. BUSY, WEL and SUS are not compared, because
        they may be set after a stop."""
        found = []
        if self.image:
            wanted, image = content.image or b"\xff" * SIZE, files.get(self.image)
            if image is None and content.image is not None:
                found.append(f"{self.image} isn't there")
            elif image is not None and len(image) != len(wanted):
                found.append(f"{self.image} has {len(image)} bytes")
            elif image is not None and image != wanted:
                at = next(at for at, (one, other) in enumerate(zip(image, wanted)) if one != other)
                found.append(f"{self.image} has another byte at 0x{at:06x}")
        wanted, status = content.status or b"\0\0", files.get(self.status)
        if status is None and content.status is not None:
            found.append(f"{self.status} isn't there")
        elif status is not None and (len(status) != 2 or kept_bits(status) != kept_bits(wanted)):
            found.append(f"{self.status} has {status.hex() or 'nothing'}")
        return " and ".join(found)


def kept_bits(status):
    return status[0] & 0xFC, status[1] & 0x7F


def images(seed):
    """Returns images by their names. `one`, `two` and `other` differ in each block of the disk (512 bytes). `three`
    differs from `two`, and `few` from an erased chip, only in three sectors."""
    chance = random.Random(f"{seed} images")
    found = {name: chance.randbytes(SIZE) for name in ("one", "two", "other")}
    for name, same in ("three", found["two"]), ("few", b"\xff" * SIZE):
        image = bytearray(same)
        for sector in 2, 7, 15:
            image[sector * SECTOR : (sector + 1) * SECTOR] = chance.randbytes(SECTOR)
        found[name] = bytes(image)
    return found


def stories(seed):
    """Returns all stories. Each session of a story has a journal with a new name, because `runs_of` deletes a journal
    that is no longer needed."""
    found = {name: Content(image, b"\0\0") for name, image in images(seed).items()}
    one, two, other = found["one"], found["two"], found["other"]
    none, erased = Content(None, None), Content(b"\xff" * SIZE, b"\0\0")
    clear, guarding = Content(None, b"\0\0"), Content(None, b"\4\0")
    tiny, apart = Chip("TINY64", "image", "status"), Chip("TINY64", "chip/image", "chip/status")
    bits = Chip("W25Q64FV", None, "status")

    def session(words, journal, before, wanted):
        return Step([*words.split(), "--journal", journal], "", journal, before, wanted, DONE)

    def write(name, journal, before):
        return session(f"-w ../{name}", journal, before, found[name])

    def undo(step, before=None):
        before = before or step.before
        return Step(["--restore", step.journal], "", step.journal, before, before, DONE)

    def stopped(step, transactions):
        keys = f",power=5A,stop={transactions}"
        return step._replace(keys=keys, end=STOPPED)

    first, second = write("two", "first", one), write("three", "second", two)
    made, kept = write("few", "journal", none), write("few", "kept/journal", none)
    erase = session("-E", "journal", two, erased)
    guard = session("--wp-range 0x7e0000,0x20000", "journal", clear, guarding)
    return [
        Story("two_sessions", tiny, one, None, [first, second, undo(second)]),
        Story("undone", tiny, one, None, [first, undo(first), write("three", "second", one)]),
        Story("copied", tiny, two, other, [second]),
        Story("copied_back", tiny, two, other, [stopped(second, 90), undo(second)]),
        Story("deleted", apart, none, other, [kept]),
        Story("no_files", tiny, none, None, [made, write("three", "second", found["few"])]),
        Story("no_files_undone", tiny, none, None, [made, undo(made)]),
        Story("power_lost", tiny, one, None, [stopped(first, 150), stopped(undo(first), 100), undo(first)]),
        Story("erase", tiny, two, None, [erase, undo(erase)]),
        Story("folders", apart, none, None, [kept, undo(kept)]),
        Story("protect", bits, clear, None, [guard, undo(guard)]),
        Story("protect_new", bits, none, None, [guard._replace(before=none), undo(guard, none)]),
    ]
