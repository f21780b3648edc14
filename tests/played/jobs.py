"""The jobs that are played: a chip, files, arguments, and the chip that the arguments ask for."""
import random
from dataclasses import dataclass, field

from chips import TINY64, W25Q64FV, Chip

SECTOR = 4096


@dataclass(frozen=True)
class Job:
    chip: Chip
    words: list
    # the chip after a run with exit status 0
    target: Chip
    files: dict = field(default_factory=dict)


def content(seed, size, erased=()):
    """Returns random bytes, with FFh in the sectors with these numbers."""
    draw = random.Random(seed)
    made = bytearray(draw.randbytes(size))
    for number in erased:
        made[number * SECTOR:(number + 1) * SECTOR] = b"\xFF" * SECTOR
    return bytes(made)


def changed(old, changes):
    made = bytearray(old)
    for at, new in changes.items():
        made[at:at + len(new)] = new
    return bytes(made)


def job(old, words, new, status=(0, 0), after=None, files=None):
    return Job(Chip(old, status), words, Chip(new, after or status), files or {})


def small_write():
    old = content(1, TINY64, erased=(3, 4))
    new = changed(old, {0x10FE: b"\xFF\x00\xFF\x55", 0x3010: bytes(600), 0x8000: content(2, 40), 0xFFF0: bytes(16)})
    return job(old, ["-w", "new", "--journal", "j"], new, files={"new": new})


def small_region():
    old = content(3, TINY64)
    layout = b"0x2100:0x31ff part\n0x3200:0xffff rest\n"
    new = changed(old, {0x2100: content(4, 0x1100)})
    image = changed(content(5, TINY64), {0x2100: new[0x2100:0x3200]})
    return job(old, ["-w", "new", "-l", "layout", "-i", "part", "--journal", "j"], new,
               files={"new": image, "layout": layout})


def small_erase():
    old = content(6, TINY64, erased=range(2, 15))
    return job(old, ["-E", "--journal", "j"], b"\xFF" * TINY64)


def large_unlock():
    # Status 1 = 04h protects the last 128 KiB of a W25Q64FV (datasheet, Status Register Memory Protection, CMP = 0).
    old = content(7, W25Q64FV)
    new = changed(old, {0x7E0800: bytes(300), 0x000010: b"\x00"})
    return job(old, ["-w", "new", "--unlock", "--journal", "j"], new, status=(0x04, 0x02), files={"new": new})


def large_range():
    # BP2 to BP0 = 001 with TB = 0 protect the last 128 KiB: status 1 = 04h.
    old = content(8, W25Q64FV)
    return job(old, ["--wp-range", "0x7e0000,0x20000", "--journal", "j"], old, after=(0x04, 0x00))


JOBS = {it.__name__: it for it in (small_write, small_region, small_erase, large_unlock, large_range)}
