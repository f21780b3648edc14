"""Puts definitions into the prose of docs/STATEMENT.md for scripts/statement.py: quoted from the sources, or
described."""
import hashlib
import itertools
import re

from sources import fail
from statement_lines import lines_of

PLACE = re.compile(r"\{(quote|describe) ([^}]*)\}")


def quoted(names, words, shown):
    """Returns the lines that quote these definitions, grouped by their files. A `-` before a name leaves out its
    comments, except the one that lists the fields that are left out (`also:` on the page). A `.` leaves out only the
    comment above the definition."""
    lines, language = [], None
    for path, group in itertools.groupby(names, key=lambda name: words[name.lstrip("-.")].source.path):
        kind, sign = ("", "--") if path.endswith(".antt") else ("rust", "//")
        lines += [""] if kind == language else [*["```", ""] * (language is not None), f"```{kind}"]
        lines += [f"{sign} crates/{path}"]
        language = kind
        for name in group:
            word = words[name.lstrip("-.")]
            found = lines_of(shown[word])
            plain = [line for line in found if line.strip()[:2] not in ("--", "//") or line.startswith("  -- also, ")]
            found = [line.replace("  -- also, in the appendices: ", "  -- also: ") for line in
                     (plain if name[0] == "-" else found)]
            lines += [*(word.comment if name[0] not in "-." else []), *found, ""]
        lines.pop()
    return [*lines, "```"]


def placed(prose, shown, described):
    """Returns the lines of the prose, with definitions and descriptions at their places. A line `{quote A -B .C}` is
    replaced by the definitions A, B (without comments) and C (without the comment above it), and a line `{describe D}`
    by the description of D. Each definition and description must have exactly one place."""
    words = {word.name: word for word in shown}
    lines, left = [], {"quote": [word.name for word in shown], "describe": [*described]}
    for line in prose.splitlines():
        if not (place := PLACE.fullmatch(line)):
            lines.append(line)
            continue
        names = place[2].split()
        for name in names:
            if name.lstrip("-.") not in left[place[1]]:
                fail(f"scripts/statement_page.md has '{place[1]} {name}' once too often, or there is no such name")
            left[place[1]].remove(name.lstrip("-."))
        lines += quoted(names, words, shown) if place[1] == "quote" else [described[name] for name in names]
    if missing := [*left["quote"], *left["describe"]]:
        fail(f"scripts/statement_page.md has no place for {' '.join(sorted(missing))}")
    return lines


def with_digests(prose):
    """Returns the prose, in which each `{digest 4E 4F}` is replaced by the SHA-256 digest of these bytes, in two lines
    of sixteen bytes."""
    def digest(match):
        """Returns the digest of the bytes that a match names."""
        code = hashlib.sha256(bytes.fromhex(match[1])).hexdigest().upper()
        return code[:32] + "\n" + code[32:]
    return re.sub(r"\{digest ([0-9A-F ]+)\}", digest, prose)
