#!/usr/bin/env python3
"""scripts/crates.py: checks that crates.txt lists exactly the libraries that the sources of each crate use.

The sources are the files of src/, specs/ and proofs/. A source uses a library if it has `use Rattle.LIBRARY..`, or a
path that begins with `LIBRARY::`; comments don't count. Libraries that no line of crates.txt names, such as std, are
ignored. In crates.txt, a crate must be listed below all crates that it uses. Each line must list these crates from the
lowest line of the file to the highest, and then the libraries of the kit in alphabetical order. For each wrong line the
script prints the right one, and ends with exit status 1.
"""
import re
import sys

sys.dont_write_bytecode = True  # so that Python creates no files in scripts/
import rust
import texts
from sources import CRATES

NAMED_BY_USE = re.compile(r"^[^-/\n]*\buse Rattle\.(\w+)", re.M)


def lines():
    """Returns the lines of crates.txt by their crates: each has the text before the colon, and the list of libraries
    after it."""
    rows = [row.partition("#")[0].partition(":") for row in texts.read("crates.txt").splitlines()]
    return {head.split()[0]: (head, listed.split()) for head, _, listed in rows if head.strip()}


def named_in(path):
    """Returns the names at the start of the paths in a source."""
    text = path.read_text(encoding="utf-8")
    found = set(NAMED_BY_USE.findall(text))
    if path.suffix == ".rt":
        words = ["", *(token.text for token in rust.tokens_of(text))]
        found |= {word for before, word, after in zip(words, words[1:], words[2:]) if after == "::" != before}
    return found


def used_by(crate):
    """Returns the names at the start of the paths in all sources of a crate, except the crate's own name."""
    found = set()
    for folder in "src", "specs", "proofs":
        for path in (CRATES / crate / folder).rglob("*"):
            if path.suffix in (".rt", ".antt"):
                found |= named_in(path)
    return found - {crate}


def main():
    """Compares each line of crates.txt with the sources."""
    rows = lines()
    crates = list(rows)
    libraries = sorted({name for _, listed in rows.values() for name in listed} - set(crates))
    for at, (crate, (head, listed)) in enumerate(rows.items()):
        used = used_by(crate)
        right = [name for name in [*reversed(crates), *libraries] if name in used]
        if listed != right:
            texts.differs(f"crates: crates.txt is to have '{head}: {' '.join(right)}'")
        for name in right:
            if name in crates[at:]:
                texts.differs(f"crates: crates.txt is to have {name} above {crate}, which uses it")
    print(f"crates: {sum(len(listed) for _, listed in rows.values())} dependencies of {len(rows)} crates")
    texts.finish()


if __name__ == "__main__":
    main()
