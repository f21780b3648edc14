"""scripts/agree/limits.py: checks that the numbers on the pages are those of the sources.

`limits` lists each number with the words around it on the pages, in which `#` stands for the number. At least one page
must have these words, and each page that has them must have the right number in them.
"""
import re

import rust
from texts import differs, finish, help_text, manual, read, rows, same, tokens
from sources import CRATES, source

PAGES = {
    "README": "README.md", "SPECIFICATION": "docs/SPECIFICATION.md", "DECISIONS": "docs/DECISIONS.md",
    "manual": "man/flashnor.8", "journal": "man/flashnor-journal.5",
}


def fail(path, what):
    """Ends the script, because the sources don't contain the constant or call `what`."""
    raise SystemExit(f"DIFFERS: limits: crates/{path} has no {what}")


def item(path, name):
    """Returns the tokens of the constant or function with this name in a source."""
    found = (it.tokens for it in rust.items(tokens(path)) if it.kind in ("const", "fn") and it.name == name)
    return next(found, None) or fail(path, name)


def constant(path, name):
    """Returns the value of a constant in a source: the last number in its expression or, for a shift of 1, `1 <<
    number`."""
    words = [token.text for token in item(path, name)]
    numbers = [number for word in words[words.index("=") :] if (number := rust.number_of(word)) is not None]
    return 1 << numbers[-1] if numbers[:-1] == [1] else numbers[-1]


def numeral(*start):
    """Returns the argument that follows these first arguments in a call of `read_numeral`."""
    path, call = "nor_args/src/numbers.rt", f"read_numeral({', '.join(start)},"
    return rust.number_after(tokens(path), call) or fail(path, call)


def bound(path, name):
    """Returns the value of a definition in specs/ whose value is a number."""
    return int(source(path).word(name).code[-1].split()[-1])


def limits():
    """Returns the name, the value and the words for each number."""
    chip, files, region = "nor_geometry/src/limits.rt", "nor_console/src/files.rt", "nor_layout/src/region.rt"
    sector, digest = constant(chip, "SECTOR_LEN"), constant("nor_journal/src/records.rt", "DIGEST_LEN")
    image, polls = constant(files, "MOST_IMAGE_BYTES"), constant("nor_driver/src/waits.rt", "MOST_POLLS")
    unique = rust.number_after(item("nor_args/src/numbers.rt", "read_unique"), "[u8;")
    few = re.search(r"\bfew\s*:\s*ending\.status\s*≤\s*(\d+)", (CRATES / "flashnor/specs/Run.antt").read_text("utf-8"))
    # A record begins with the number of its sector, in four bytes. The end mark takes the place of this number.
    mark = 4
    return [
        ("bytes of an image", image, r"(?:image is read up to|I is at most|its length is reported as) #"),
        ("bytes of a journal", constant(files, "MOST_JOURNAL_BYTES"), "journal up to #"),
        ("size of a layout", constant(files, "MOST_LAYOUT_BYTES"), "layout(?:'s file)? (?:has at most|of more than) #"),
        ("regions", constant(region, "REGIONS"), "(?:more than|at most) # regions"),
        ("bytes of a name", constant(region, "NAME_LEN"), "1 to # visible"),
        ("bytes of a sector", sector, r"(?:sector \(|sector\*? is |number and its |multiple of )#"),
        ("greatest sector", constant(chip, "MOST_SECTORS") - 1, "a number past #"),
        ("bytes of a record", sector + mark, "# (?:for )?each"),
        ("bytes of an empty journal", constant("nor_journal/src/head.rt", "HEADER_LEN") + mark + digest, "takes # bytes"),
        ("stops", constant("nor_args/src/stops.rt", "MOST_STOPS"), "1 to # (?:of them|numbers)"),
        ("digits of a stop", numeral("text", "10"), "1 to # decimal digits up to 18"),
        ("greatest stop", 2**64 - 1, "1 to 20 decimal digits up to #"),
        ("digits of a place", len(str(2**32 - 1)), "1 to # decimal digits up to 4"),
        ("greatest place", 2**32 - 1, "1 to 10 decimal digits up to #"),
        ("hexadecimal digits of a place", numeral("digits", "16"), "1 to # hexadecimal digits"),
        ("digits in a layout", constant("nor_layout/src/address.rt", "DIGITS"), "1 to # hexadecimal digits"),
        ("hexadecimal digits of unique", 2 * unique, r"(?:number, |ID of the chip, |unique= \| )# hexadecimal"),
        ("greatest busy", numeral("text", "10", "20"), r"(?:polls from |number from |operation, |BUSY \()0 to #"),
        ("polls", polls, "# polls in a row"),
        ("polls of an operation", polls, "BUSY is clear, at most #"),
        ("transactions of a probe", bound("nor_probe/specs/Found.antt", "most_probe"), "and at most # transactions"),
        ("transactions of an opening", bound("nor_scan/specs/Identity.antt", "most_identity"), r"# \+ s \+ 2t"),
        ("transactions of an operation", bound("nor_driver/specs/Operations.antt", "most_operation"), r"\+ #\(e \+ p"),
        ("KiB of the smallest chip", constant("nor_probe/src/sfdp.rt", "LEAST_BITS") >> 13, "from # KiB to"),
        ("MiB of the largest chip", 2 ** constant("nor_probe/src/sfdp.rt", "MOST_EXPONENT") >> 23, "KiB to # MiB"),
        ("status of a fault", int(few[1]), "tandard error, (?:with|and the) (?:exit )?status(?: is)? #"),
    ]


def compare(what, value, words, texts):
    """Compares a number with the number on each page that has these words."""
    front, back = words.split("#")
    found = [(name, number) for name, text in texts.items()
             for number in re.findall(rf"{front}\b(\d[\d,]*\b){back}", text)]
    if not found:
        differs(f"{what}: {value:,} in the sources, and no page has '{words}'")
    for name, number in found:
        if number.replace(",", "") != str(value):
            differs(f"{what}: {value:,} in the sources, {name} has {number}")
    print(f"{what}: {value:,}, {len(found)} times in {' '.join(dict(found))}")


def main():
    """Compares all numbers, and the exit statuses."""
    texts = {name: "".join(part.text for part in manual(path)) if path.startswith("man/") else read(path)
             for name, path in PAGES.items()}
    texts["help"] = help_text(None)
    texts = {name: " ".join(text.replace("`", "").split()) for name, text in texts.items()}
    numbers = limits()
    for limit in numbers:
        compare(*limit, texts)
    same("exit statuses", sources={str(status) for status in range(numbers[-1][1] + 1)},
         manual=rows(manual("man/flashnor.8"), "EXIT STATUS"))
    finish()


if __name__ == "__main__":
    main()
