"""Reads the pages and the printed lines of the programs, and compares them. Other scripts import this file."""
import collections
import re
import subprocess
import sys

import rust
from sources import CRATES, TOP

Part = collections.namedtuple("Part", "section title text")
differing = []


# ---- These functions compare texts.


def differs(message):
    """Prints a difference, and stores it, so that `finish` ends the script with status 1."""
    print(f"DIFFERS: {message}")
    differing.append(message)


def only(what, owner, known, **texts):
    """Checks that each of `texts` has entries on the subject `what`, and only entries that are in `known`, the entries
    of the text named `owner`."""
    for text, found in texts.items():
        if not found:
            differs(f"{what}: nothing found in {text}")
        for line in sorted(set(found) - set(known)):
            differs(f"{what}: {text} has '{line}', {owner} hasn't")


def same(what, **texts):
    """Checks that all texts have equal entries on the subject `what`. Returns the entries of the first text."""
    (first, known), *others = texts.items()
    if not known:
        differs(f"{what}: nothing found in {first}")
    for text, found in others:
        only(what, first, known, **{text: found})
        only(what, text, found, **{first: known})
    print(f"{what}: {len(set(known))} in {' '.join(texts)}")
    return known


def finish():
    """Ends the script: with status 1 if a difference was printed, otherwise with status 0."""
    sys.exit(len(differing) > 0)


# ---- These functions read the pages.


def read(path):
    """Returns the text of a file."""
    return (TOP / path).read_text(encoding="utf-8")


def quoted(text):
    """Returns the parts of a text that are in backticks."""
    return re.findall(r"`([^`]*)`", text)


def cells_of(page):
    """Returns the cells of all tables on a page, except the heads. Each has its line, the heads of its table's columns,
    the number of its column, and its text."""
    found, heads = [], None
    for number, line in enumerate(read(page).splitlines(), 1):
        row = [cell.strip() for cell in re.split(r"(?<!\\)\|", line)[1:-1]] if line.startswith("|") else None
        if row and heads is None:
            heads = row
        elif row and not set(line) <= set("|- "):
            found += [(number, heads, column, cell) for column, cell in enumerate(row[: len(heads)])]
        elif not row:
            heads = None
    return found


def rows_of(page, head):
    """Returns the rows of all tables of a page whose first column has the given head."""
    rows = collections.defaultdict(list)
    for number, heads, _, cell in cells_of(page):
        if heads[0] == head:
            rows[number].append(cell)
    return list(rows.values())


def manual(path):
    """Returns the sections and subsections of a manual page, without font changes."""
    text = re.sub(r"\\f[BIR]|\\%", "", read(path)).replace("\\-", "-").replace("\\(dq", '"')
    parts, section = [], ""
    for kind, title, body in re.findall(r"(?m)^\.S([HS]) (.*)\n((?:(?!\.S[HS] ).*\n)*)", text):
        section = title if kind == "H" else section
        parts.append(Part(section, title, body))
    return parts


def tags(parts, section):
    """Returns the tagged paragraphs (.TP) in a section of a manual page: each tag with its text."""
    text = "".join(part.text for part in parts if part.section == section)
    return {tag: " ".join(body.split()) for tag, body in
            re.findall(r"(?m)^\.TP.*\n(.*)\n((?:(?!\.(?:TP|PP|SS)).*\n)*)", text)}


def rows(parts, title):
    """Returns the numbered rows of the tables in a part of a manual page: each number with the next cell. A row without
    a number continues the cell above it, after a vertical tab."""
    text = "".join(part.text for part in parts if part.title.startswith(title))
    text = re.sub(r"T\{\n(.*?)\nT\}", lambda cell: cell[1].replace("\n", " "), text, flags=re.S)
    return dict(re.findall(r"(?m)^(\d+)\t([^\t\n]*)", text.replace("\n\t", "\v")))


def running(parts):
    """Returns the text of a manual page as one line, without its examples."""
    text = re.sub(r"(?ms)^\.EX$.*?^\.EE$", "", "".join(part.text for part in parts))
    return " ".join(re.sub(r"(?m)^\.\S+|T[{}]", " ", text).split())


# ---- These functions return what the program prints.


def printed():
    """Returns the text of all cases in tests/flashnor/cases, without the marks `! `. `make runs` compares the
    expected lines in it with what the program prints."""
    cases = "".join(path.read_text(encoding="utf-8") for path in sorted((TOP / "tests/flashnor/cases").glob("*.case")))
    return re.sub(r"(?m)^! ", "", cases)


def printed_by(*words):
    """Returns the standard output of a command."""
    return subprocess.run(words, cwd=TOP, capture_output=True, encoding="utf-8", check=True).stdout


def help_text(program):
    """Returns the help that the program prints. If `program` is None, returns the help in tests/flashnor/cases."""
    if program:
        return printed_by(program, "-h")
    return re.sub(r"(?m)^\| ?", "", re.search(r"(?m)^after help:\n((?:\|.*\n)*)", printed())[1])


# ---- These functions read the sources.


def tokens(path):
    """Returns the tokens of a source below crates/."""
    return rust.tokens_of((CRATES / path).read_text(encoding="utf-8"))


def strings(path):
    """Returns the string literals of a source below crates/."""
    return [token.text[1:-1] for token in tokens(path) if token.text[0] == '"']
