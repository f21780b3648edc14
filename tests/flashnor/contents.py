"""Makes the bytes of a file from the notation of a case (tests/flashnor/cases/README.md)."""
import hashlib
import re

SECTOR = 4096


def hexadecimal(digits):
    """Returns the bytes of these hexadecimal digits."""
    return bytes.fromhex(digits)


def records(first, last, saved):
    """Returns the records that a journal has for the sectors `first` to `last` of a chip with the bytes `saved`."""
    if not first <= last < len(saved) // SECTOR:
        raise ValueError(f"sectors {first} to {last} aren't within {len(saved)} bytes")
    return b"".join(k.to_bytes(4, "little") + saved[SECTOR * k:SECTOR * (k + 1)] for k in range(first, last + 1))


def part(text, before, read):
    """Returns the bytes of one part of a content, before `put` replaces some of them. `before` has the bytes of the
    earlier parts, and `read` returns those of another file by its name."""
    if found := re.fullmatch(r"(\d+) times (.+)", text):
        return part(found[2], before, read) * int(found[1])
    if found := re.fullmatch(r"(\d+) of each byte", text):
        return b"".join(bytes([value]) * int(found[1]) for value in range(256))
    if found := re.fullmatch(r"(\d+) random ([a-z0-9]+)", text):
        return hashlib.shake_128(found[2].encode()).digest(int(found[1]))
    if found := re.fullmatch(r"records (\d+) to (\d+) of (.+)", text):
        return records(int(found[1]), int(found[2]), read(found[3]))
    if found := re.fullmatch(r"(\d+) of ([0-9a-f]{2})", text):
        return hexadecimal(found[2]) * int(found[1])
    if found := re.fullmatch(r"hex ([0-9a-f ]+)", text):
        return hexadecimal(found[1])
    if found := re.fullmatch(r"as (.+)", text):
        return read(found[1])
    if found := re.fullmatch(r"first (\d+) of (.+)", text):
        return read(found[2])[:int(found[1])]
    if text == "digest":
        return hashlib.sha256(before).digest()
    if text == "nothing":
        return b""
    raise ValueError(f"'{text}' is no content")


def put(text, into):
    """Replaces bytes of the part `into` as `text` says (`XX.. at 0xA`, or `XX at 0xA to 0xB`)."""
    found = re.fullmatch(r"([0-9a-f ]+) at (0x[0-9a-f]+)(?: to (0x[0-9a-f]+))?", text)
    if not found:
        raise ValueError(f"'{text}' puts no bytes")
    new, start = hexadecimal(found[1]), int(found[2], 16)
    if found[3]:
        if len(new) != 1:
            raise ValueError(f"'{text}' has more than one byte for these places")
        new *= int(found[3], 16) + 1 - start
    if not new or start + len(new) > len(into):
        raise ValueError(f"'{text}' isn't within its part")
    into[start:start + len(new)] = new


def make(content, read):
    """Returns the bytes of a content. `read` returns those of another file by its name. Raises ValueError if the
    notation is wrong, and OSError if another file can't be read."""
    made = bytearray()
    for text in content.split(" + "):
        text, *puts = text.split(", ")
        new = bytearray(part(text, made, read))
        for it in puts:
            put(it, new)
        made += new
    return bytes(made)
