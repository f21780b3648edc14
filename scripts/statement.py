#!/usr/bin/env python3
"""scripts/statement.py [--check]: writes docs/STATEMENT.md and out/STATEMENT-FULL.md from the sources.

STATEMENT.md has the contracts of HEADLINE, with the definitions and types that these need, at the places in its prose
that scripts/statement_page.md gives. It only describes the definitions of NAMES, and leaves out fields of the records
of FIELDS. STATEMENT-FULL.md, which isn't committed, has these definitions and the whole records, and further contracts,
in appendices. In most definitions with only one equation, the signature and the equation are joined.

With --check, the script writes nothing. It compares STATEMENT.md with what it would write, prints at most 20 lines that
differ (except blank lines), and ends with exit status 1 if there is one.

The script also fails in these cases, among others:

- A name isn't found.
- SUBJECTS doesn't list the file of a definition in an appendix.
- docs/NOTATION.md doesn't explain a name of a library.
- STATEMENT.md is too long.
"""
import copy
import difflib
import functools
import itertools
import re
import sys

sys.dont_write_bytecode = True  # so that Python creates no files in scripts/
import texts
from sources import TOP, Word, fail, source
from statement_lines import count, lines_of
from statement_parts import APPENDICES, ELSEWHERE, FIELDS, HEADLINE, MOST_LINES, NAMES, NOTES, SUBJECTS
from statement_places import placed, with_digests

PAGE, FULL, NOTATION = "docs/STATEMENT.md", "out/STATEMENT-FULL.md", "docs/NOTATION.md"
PROSE = "scripts/statement_page.md"
FULL_HEAD = """# The statement: appendices

[STATEMENT.md](../docs/STATEMENT.md) has the headline and what it needs. This page has everything else on which its calls, and
the files of a run, rest: the definitions that STATEMENT.md only describes, the whole of each record of which it has
some fields, and further contracts with all their clauses. Each appendix begins with what breaks if it is wrong. A
definition is on the first of these pages and appendices that needs it. `make statement` makes this page from the
sources. It has {told}.

"""


# ---- These functions select definitions, contracts and parts of them.


def with_clauses(word, kept):
    """Returns a function with only its `requires` and the clauses whose names are in `kept` (all clauses if `kept` is
    empty)."""
    lines, names, taken, free = [], set(), True, []
    for line in word.code:
        if line.startswith("    //"):
            free.append(line)
            continue
        if clause := re.match(r"    (?:(requires)\b|ensures\*?(?: (\w+))? \{)", line):
            names.add(clause[2])
            taken = bool(clause[1]) or not kept or clause[2] in kept
        lines += [*free, line] if taken else []
        free = []
    if missing := set(kept) - names:
        fail(f"'{word.name}' has no clause {' '.join(sorted(missing))}")
    part = copy.copy(word)
    part.code = lines
    return part


def with_fields(word, kept):
    """Returns a record with only the fields whose names are in `kept`, and a comment that lists the other names."""
    lines, others, taken, free = [], [], True, []
    for line in word.code:
        if line.startswith("  --"):
            free.append(line)
            continue
        if field := re.match(r"  pub (\w+) :", line):
            taken = field[1] in kept
            others += [] if taken else [field[1]]
        lines += [*free, line] if taken else []
        free = []
    if missing := set(kept) - set(re.findall(r"(?m)^  pub (\w+) :", "\n".join(lines))):
        fail(f"'{word.name}' has no field {' '.join(sorted(missing))}")
    part = copy.copy(word)
    part.code = [*lines, f"  -- also, in the appendices: {', '.join(others)}"]
    return part


class Part:
    """Contracts and definitions, with all definitions that they need.

    The argument `done` has the definitions that an earlier part has already, `named` the names of definitions that are
    only described, and `cut` the records that are shown without some of their fields. The field `uses` has each
    contract and definition with those that it uses (except those of `named` and ELSEWHERE), and `libraries` the names
    of the language and its libraries that they use.
    """

    def __init__(self, roots, done, named=(), cut=()):
        self.contracts, self.uses, self.shown, self.named, self.libraries = [], {}, {}, set(), set()
        todo = []
        for name, place in roots.items():
            path, *clauses = place.split()
            word = source(path).words.get(name) or fail(f"{path} has no '{name}'")
            if word.kind == "fn":
                word = with_clauses(word, clauses)
                self.contracts.append(word)
            todo += [] if word in done else [word]
        while todo:
            word = todo.pop()
            shown = with_fields(word, cut[word.name].split()) if word.name in cut else word
            found = word.source.used(shown)
            self.shown[word] = shown
            self.libraries |= {use for use in found if isinstance(use, str)}
            others = {use for use in found if isinstance(use, Word) and use.name not in ELSEWHERE} - {word}
            self.named |= {use for use in others if use.name in named}
            self.uses[word] = others - self.named
            todo += [use for use in self.uses[word] if use not in self.uses and use not in done]

    def told(self, words=None):
        """Returns a text with the number of definitions, and the number of their lines without comments and blank
        lines."""
        words = list(self.uses) if words is None else words
        numbers = (len(words), "definition"), (self.lines(words), "line")
        return ", ".join(f"{number:,} {what}{'s' * (number != 1)}" for number, what in numbers)

    def lines(self, words=None):
        """Returns the number of lines of these definitions, without comments and blank lines."""
        return count(self.shown[word] for word in (self.uses if words is None else words))


# ---- These functions put the definitions in order.


@functools.cache
def ranks():
    """Returns the rank of each file of SUBJECTS: the number of its subject, and its position in this subject."""
    found = {}
    crate = ""
    for number, files in enumerate(SUBJECTS.values()):
        for at, word in enumerate(files.split()):
            crate = word[:-1] if word.endswith(":") else crate
            found[f"{crate}/{word}.{'antt' if word.startswith('specs/') else 'rt'}"] = number, at
    return found


def ready(words, uses, done):
    """Returns those of the definitions `words` that can follow the definitions in `done`, each after those that it
    uses. If possible, the definitions of a file stay together, in the order of the file."""
    taken = []
    while can := [word for word in words if word not in taken and uses[word] <= done | set(taken)]:
        same = [word for word in can if taken and word.source is taken[-1].source]
        taken.append((same or can)[0])
    return taken


def sections(uses, done):
    """Returns the definitions in groups, each with the name of its subject. Each definition comes after those that it
    uses. `done` has the definitions that are on the page already. The next group is the first subject whose definitions
    can all follow or, if there is none, the first of which some can."""
    for word in uses:
        if word.source.path not in ranks():
            fail(f"SUBJECTS of scripts/statement_parts.py hasn't {word.source.path}: add it to the subject of its "
                 f"'{word.name}'")
    left, done, found = sorted(uses, key=lambda word: (ranks()[word.source.path], word.line)), set(done), []
    while left:
        can = []
        for number, subject in enumerate(SUBJECTS):
            mine = [word for word in left if ranks()[word.source.path][0] == number]
            if taken := ready(mine, uses, done):
                can.append((len(taken) == len(mine), -number, subject, taken))
        if not can:
            fail(f"these words use one another: {' '.join(word.name for word in left)}")
        _, _, subject, taken = max(can)
        found.append((subject, taken))
        done |= set(taken)
        left = [word for word in left if word not in done]
    return found


# ---- These functions make the pages.


def show(part, words):
    """Returns the lines of the page for these definitions, grouped by their files."""
    lines = []
    for path, group in itertools.groupby(words, key=lambda word: word.source.path):
        group, title = list(group), ""
        lines += [f"`crates/{path}`: {group[0].source.head}", "", "```" + ("" if path.endswith(".antt") else "rust")]
        for word in group:
            lines += [word.part, ""] if word.part != title else []
            lines += [*word.comment, *lines_of(part.shown[word]), ""]
            title = word.part
        lines[-1:] = ["```", ""]
    return lines[:-1]


def body(part, done):
    """Returns the lines of the page for a part: its definitions by subjects, and then its contracts."""
    groups = sections({word: part.uses[word] for word in part.uses if word not in part.contracts}, done)
    groups += [("The contracts", part.contracts)] if part.contracts else []
    lines, seen = [], set()
    for subject, words in groups:
        lines += [f"### {subject}{', further' * (subject in seen)}", "", *show(part, words), ""]
        seen.add(subject)
    return lines[:-1]


def letters():
    """Returns the title of each appendix, with its letter before it."""
    return {title: f"{chr(ord('A') + at)}. {title}" for at, title in enumerate(APPENDICES)}


def link(title):
    """Returns a link to an appendix, for the list at the start of STATEMENT-FULL.md."""
    anchor = re.sub(r"[^\w -]", "", letters()[title]).lower().replace(" ", "-")
    return f"[{letters()[title]}](#{anchor})"


def names(page, appendices):
    """Returns the descriptions of the definitions that STATEMENT.md only describes, each with the letter of the
    appendix that has the definition."""
    found = sorted(word.name for word in page.named)
    if doubtful := sorted({name for name in found if found.count(name) > 1}):
        fail(f"NAMES of scripts/statement_parts.py has a name of several definitions: {' '.join(doubtful)}")
    if idle := sorted(set(NAMES) - set(found)):
        fail(f"NAMES of scripts/statement_parts.py has what STATEMENT.md doesn't use: {' '.join(idle)}")
    described, left = {}, set(page.named)
    for title, part in appendices.items():
        mine = [word for word in part.uses if word in left]
        described |= {word.name: f"- {NAMES[word.name]} ({letters()[title][0]})" for word in mine}
        left -= set(mine)
    if left:
        fail(f"no appendix has {' '.join(sorted(word.name for word in left))}")
    return described


def check_notation(used):
    """Ends the script if NOTATION.md doesn't explain a name of a library that the pages use, or explains a name of
    three or more letters that they don't use."""
    cells = [(heads[0], cell.replace("\\|", "|")) for _, heads, column, cell in texts.cells_of(NOTATION) if not column]
    known = {head: set(re.findall(r"[^\s()]+", " ".join(" ".join(texts.quoted(cell)) for which, cell in cells
                                                       if which == head))) for head in ("Sign", "Name")}
    parts = {part for name in used for part in name.split("◌") if part}
    if missing := sorted(parts - known["Sign"] - known["Name"]):
        fail(f"{NOTATION} doesn't explain {' '.join(missing)}")
    if idle := sorted(name for name in known["Name"] - parts if len(name) > 2):
        fail(f"{NOTATION} explains {' '.join(idle)}, which the pages don't have")


def check_prose(prose, lines):
    """Ends the script if a name of three or more letters after a backtick, in the prose, NAMES or NOTES, isn't on any
    of these lines (except `make`). Also ends it if a text of NAMES begins with another name than its key."""
    known = set(re.findall(r"\w+", "\n".join(lines)))
    named = re.findall(r"`([A-Za-z_]\w\w+)[` ]", "\n".join([prose, *NAMES.values(), *NOTES.values()]))
    if missing := sorted(set(named) - known - {"make"}):
        fail(f"{PROSE} or scripts/statement_parts.py names {' '.join(missing)}, which no definition has")
    if other := [name for name, text in NAMES.items() if not re.match(rf"`{name}[` ]", text)]:
        fail(f"NAMES of scripts/statement_parts.py describes another name than {' '.join(other)}")


def pages():
    """Returns the lines of both pages by their paths, and a text with their numbers of definitions and lines."""
    page = Part(HEADLINE, set(), NAMES, FIELDS)
    if page.lines() > MOST_LINES:
        fail(f"{PAGE} has {page.lines()} lines, at most {MOST_LINES} in MOST_LINES of scripts/statement_parts.py")
    done = {word for word in page.uses if page.shown[word] is word}
    appendices, full, libraries = {}, [], set(page.libraries)
    for title, (breaks, roots) in APPENDICES.items():
        part = appendices[title] = Part(roots, done)
        full += [f"## {letters()[title]}", "", f"**{breaks}**", "", *body(part, done), ""]
        full += [NOTES[title], ""] if title in NOTES else []
        done |= set(part.uses)
        libraries |= part.libraries
    check_notation(libraries)
    told = f"{sum(len(part.uses) for part in appendices.values()):,} definitions, " \
        f"{sum(part.lines() for part in appendices.values()):,} lines"
    contents = [f"- {link(title)}: {part.told()}" for title, part in appendices.items()]
    check_prose(texts.read(PROSE), [*full, *(line for word in page.uses for line in [*word.comment, *word.code])])
    prose = texts.read(PROSE).replace("{told}", page.told())
    prose = re.sub(r"\{(\w)\}", lambda at: list(letters().values())[ord(at[1]) - ord("A")][0], prose)
    lines = placed(with_digests(prose), page.shown, names(page, appendices))
    head = FULL_HEAD.format(told=f"{told} without comments and blanks")
    return {PAGE: lines, FULL: [*head.splitlines(), *contents, "", *full[:-1]]}, \
        f"{page.told()} in STATEMENT.md; {told} in STATEMENT-FULL.md"


def check(path, lines):
    """Compares a page with these lines, and prints at most 20 lines that differ. Returns the number of lines that
    differ, except blank lines."""
    old = (TOP / path).read_text(encoding="utf-8").splitlines() if (TOP / path).exists() else []
    told_apart = list(difflib.unified_diff(old, lines, lineterm="", n=0))[2:]
    others = [line for line in told_apart if line[0] in "-+" and line[1:]]
    for line in others[:20]:
        print(f"DIFFERS: statement: {path} {'has' if line[0] == '-' else 'is to have'} '{line[1:]}'")
    if others:
        print(f"DIFFERS: statement: {len(others)} lines in all; 'make statement' makes the page anew")
    return len(others)


def main():
    """Writes both pages. With --check, only compares STATEMENT.md with what it would write."""
    sys.stdout.reconfigure(encoding="utf-8")
    found, told = pages()
    print(f"statement: {told}")
    if sys.argv[1:] == ["--check"]:
        sys.exit(check(PAGE, found[PAGE]) > 0)
    for path, lines in found.items():
        (TOP / path).parent.mkdir(exist_ok=True)
        (TOP / path).write_text("\n".join(lines) + "\n", encoding="utf-8")


if __name__ == "__main__":
    main()
