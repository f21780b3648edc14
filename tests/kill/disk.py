"""Computes the contents that a disk may have after a host crash.

Changes may reach the disk in any order. Until a file is synced, each of its blocks may be as it was at the last sync or
after any later change, and so may its length. If the length grew but a block wasn't written, the disk has zeros there.
Until a directory is synced, each name in it may be as it was at the last sync or after any later change: it may refer
to an older file, to a newer one, or to none.
"""
import os

BLOCK = 512


def block_of(content, number):
    """Returns the block of `content` with this number, filled up with zeros."""
    return bytes(content[number * BLOCK : (number + 1) * BLOCK]).ljust(BLOCK, b"\0")


class File:
    """A file: the bytes that programs see (`seen`) and those at the last sync (`synced`), and the lengths and changed
    blocks that the disk may have."""

    def __init__(self, content=b""):
        self.seen = bytearray(content)
        self.sync()

    def sync(self):
        self.synced = bytes(self.seen)
        self.lengths = [len(self.seen)]
        self.blocks = {}

    def changed(self, begin, end):
        """Adds the current contents of the blocks with the bytes from `begin` to `end` (not included) to the contents
        that these blocks may have, and the current length to the lengths that the file may have."""
        if len(self.seen) != self.lengths[-1]:
            self.lengths.append(len(self.seen))
        for number in range(begin // BLOCK, -(-end // BLOCK)):
            found = self.blocks.setdefault(number, [block_of(self.synced, number)])
            if block_of(self.seen, number) != found[-1]:
                found.append(block_of(self.seen, number))

    def write(self, at, content):
        begin = min(at, len(self.seen))
        self.seen.extend(bytes(at - begin))
        self.seen[at : at + len(content)] = content
        self.changed(begin, at + len(content))

    def set_length(self, length):
        begin, end = sorted((length, len(self.seen)))
        self.seen = self.seen[:length].ljust(length, b"\0")
        self.changed(begin, end)

    def left(self, pick):
        """Returns the bytes that a host crash leaves in the file. `pick` chooses one of the possible lengths, and one
        of the possible contents of each block."""
        length = pick(self.lengths)
        content = bytearray(self.synced[:length].ljust(length, b"\0"))
        for number, found in self.blocks.items():
            content[number * BLOCK : (number + 1) * BLOCK] = pick(found)
        return bytes(content[:length])


class Disk:
    """A disk with files. Each name has the list of files to which it may refer after a crash; None stands for no file.
    Programs see the last entry."""

    def __init__(self):
        self.names = {}

    def put(self, name, content):
        """Makes this name refer to a durable file with this content."""
        self.names[name] = [File(content)]

    def make(self, name):
        self.names.setdefault(name, [None]).append(File())

    def remove(self, name):
        self.names.setdefault(name, [None]).append(None)

    def file(self, name):
        return self.names.get(name, [None])[-1]

    def sync(self, name):
        """Syncs the file of this name or, if there is no such file, the directory."""
        if self.file(name):
            self.file(name).sync()
            return
        for found, files in self.names.items():
            if (os.path.dirname(found) or ".") == name:
                del files[:-1]

    def change(self, what, name, at, content):
        """Makes a change that cut.c recorded."""
        name = os.path.normpath(name)
        if what == "make":
            self.make(name)
        elif what == "sync":
            self.sync(name)
        elif what == "length":
            self.file(name).set_length(at)
        elif what == "write":
            self.file(name).write(at, content)
        else:
            raise ValueError(f"no change that is known: {what} {name}")

    def seen(self):
        """Returns the bytes of each existing file, as programs see them."""
        return {name: bytes(files[-1].seen) for name, files in self.names.items() if files[-1]}

    def left(self, picks):
        """Returns the files that a host crash leaves, by their names. `picks` makes the function `pick` for each
        name."""
        left = {}
        for name, files in sorted(self.names.items()):
            pick = picks()
            file = pick(files)
            if file:
                left[name] = file.left(pick)
        return left


def read_record(path):
    """Returns the records that cut.c wrote. Each has the kind of change, the file's name, the position, and the
    bytes."""
    with open(path, "rb") as it:
        text = it.read()
    records, at = [], 0
    while at < len(text):
        end = text.index(b"\n", at)
        what, place, size, name = os.fsdecode(text[at:end]).split(" ", 3)
        at = end + 1 + int(size)
        records.append((what, name, int(place), text[end + 1 : at]))
    return records


def first(options):
    return options[0]


def last(options):
    return options[-1]


def picks_of(number, chance):
    """Returns the function `picks` (see `Disk.left`) of the crash with this number. In crash 0, the disk has nothing
    that wasn't synced, and in crash 1 everything. In other crashes, chance decides for each name how much of its latest
    contents the disk has."""
    if number < 2:
        return lambda: (first, last)[number]

    def picks():
        share = chance.choice((0, 0.03, 0.2, 0.5, 0.8, 0.97, 1))
        return lambda options: options[-1] if chance.random() < share else chance.choice(options[:-1] or options)

    return picks
