#!/usr/bin/env python3
"""scripts/promises.py: checks that the tables of PROMISES, STATEMENT, TESTING, HARDWARE and README name only what
exists.

In a column `Call, clause`, a cell says which clauses state a promise. It has parts between semicolons, in these forms:

    `call`, `clause` and `clause`           `call`, `call`: `clause`, `clause`          `law`, `law`
    `call` and `call` of `Type` and `Type`: `clause`, `clause`

A call is a function with a contract. A law is a call that takes no argument and returns nothing. A definition of specs/
may take the place of a call. A clause is the name of an `ensures` of this call, or a field of a record that an
`ensures` names. In parentheses after a call or a clause are definitions that it names, fields of those that are
records, and `Definition`: `field`. If a name follows other words than a comma, `and` or `with`, it may be a new call.

In columns of tests, each name must be a test, a target of the Makefile or a case of transcripts. In all other columns,
each name in backticks must be a name in the sources. In HARDWARE and README, only tables with a column `Call, clause`
are checked. For each wrong name (in a column `Call, clause`, only for the first one in a cell), the script prints the
line where it occurs, and ends with exit status 1.
"""
import functools
import re
import sys

sys.dont_write_bytecode = True  # so that Python creates no files in scripts/
import contracts
import texts

PAGES = "docs/PROMISES.md", "docs/STATEMENT.md", "docs/TESTING.md", "docs/HARDWARE.md", "README.md"
# PROMISING has the heads of the columns that say which clauses state a promise, and TESTING those of the columns that
# name tests. TESTING.md must have a column `Test`, and each other page a column `Call, clause`.
PROMISING, TESTING = ["Call, clause"], ["Test", "Command"]
NAME = re.compile(r"[A-Za-z_]\w*(::\w+)?")
JOINING = set(", and with".split()) | {","}


class Name:
    """A name in a cell, with the parts in parentheses after it."""

    def __init__(self, text):
        self.text, self.inside = text, []


class Wrong(Exception):
    """A cell has a mistake. The message describes it."""


# ---- These functions find what a name refers to.


class Thing:
    """A function or definition: its place, its clauses by their names (each with the definitions that it names), and
    all definitions that it names directly or through others."""

    def __init__(self, place, clauses, says):
        self.place, self.clauses = place, clauses
        self.says = contracts.reached(says, True)


def add_fields(clauses, words):
    """Adds to `clauses` the fields of all records among these definitions, and among the definitions that they name in
    turn. Definitions that only a record names aren't followed."""
    for word in contracts.reached(words, False):
        for name, kind in contracts.fields(word).items():
            clauses.setdefault(name, set()).update(contracts.named_in(word.source, kind))


def thing_of_call(call):
    """Returns the `Thing` of a function."""
    clauses, says = {}, set()
    for code, clause in call.promises():
        if clause.kind == "ensures":
            words = contracts.named_in(code, clause.term)
            if clause.name:
                clauses.setdefault(clause.name, set()).update(words)
            add_fields(clauses, words)
            says |= words
    return Thing(call.place, clauses, says)


def thing_of_word(word):
    """Returns the `Thing` of a definition."""
    clauses = {}
    add_fields(clauses, {word})
    return Thing(f"crates/{word.source.path}:{word.line}", clauses, {word})


@functools.cache
def things(name):
    """Returns the functions with a contract to which a name may refer or, if there are none, the definitions. If
    functions have exactly this name, leaves out the functions of types."""
    found = [call for call in contracts.calls().get(name, ()) if call.promises()]
    found = [call for call in found if call.name == name] or found
    if found:
        return [thing_of_call(call) for call in found]
    return [thing_of_word(word) for word in contracts.words().get(name, ()) if word.source.path.endswith(".antt")]


def is_law(name):
    """Returns whether a name is that of a law."""
    return any(call.is_law() for call in contracts.calls().get(name, ()))


def is_type(name):
    """Returns whether a name is that of a type or a trait."""
    return any(word.kind in ("struct", "enum", "trait") for word in contracts.words().get(name, ()))


# ---- These functions check the cells that say which clauses state a promise.


def parts_of(cell):
    """Returns the names, punctuation marks and words of a cell. The parts in parentheses after a name become a part of
    this name."""
    levels = [[]]
    for name, mark, word in re.findall(r"`([^`]*)`|([(),;:])|([^\s`(),;:]+)", cell):
        if mark == "(":
            levels.append([])
        elif mark == ")" and levels[1:]:
            inside = levels.pop()
            if levels[-1] and isinstance(levels[-1][-1], Name):
                levels[-1][-1].inside = inside
            else:
                levels[-1] += inside
        else:
            levels[-1].append(Name(name) if name else mark or word)
    if levels[1:]:
        raise Wrong("a parenthesis isn't closed")
    return levels[0]


def split(parts, mark):
    """Splits a list of parts at each `mark`."""
    marks = [-1, *(at for at, part in enumerate(parts) if part == mark), len(parts)]
    return [parts[start + 1 : end] for start, end in zip(marks, marks[1:])]


def names_of(parts):
    """Returns those of the parts that are names."""
    return [part for part in parts if isinstance(part, Name)]


def with_types(parts):
    """Returns the parts, with each `call` of each `Type` combined to the name `Type::call`."""
    at = next((at for at, part in enumerate(parts) if part == "of"), None)
    methods, types = names_of(parts[:at]) if at else [], names_of(parts[at:]) if at else []
    if not methods or not types or not all(is_type(name.text) for name in types):
        return parts
    return [part for kind in types for name in methods for part in (Name(f"{kind.text}::{name.text}"), "of")]


def subject(name):
    """Returns the functions and definitions to which a name refers, and checks the parts in parentheses after it.
    Raises Wrong if there is no such function or definition, or if these parts are wrong."""
    if not NAME.fullmatch(name.text):
        raise Wrong(f"`{name.text}` is no name")
    found = things(name.text)
    if not found:
        raise Wrong(f"there is no call, law or definition `{name.text}`")
    if name.inside:
        first_that_holds(inside_of(thing.says, thing.clauses, name) for thing in found)
    return found


def told(found):
    """Returns a text with the places and the clauses of these functions and definitions."""
    return "; ".join(f"{thing.place} has {', '.join(thing.clauses) or 'none that has a name'}" for thing in found)


def clause(of, found, name):
    """Raises Wrong if a name isn't a clause of any `found`, or if the parts in parentheses after it are wrong for all
    of them."""
    having = [thing for thing in found if name.text in thing.clauses]
    if not having:
        raise Wrong(f"`{of}` has no clause `{name.text}`: {told(found)}")
    if name.inside:
        first_that_holds(inside_of(contracts.reached(it.clauses[name.text], True), {}, name) for it in having)


def first_that_holds(problems):
    """Raises Wrong with the first problem if each of `problems` is one. Does nothing if one of them is None."""
    if all(problems := list(problems)):
        raise Wrong(problems[0])


def inside_of(says, clauses, name):
    """Checks the parts in parentheses after `name`, which names the definitions `says` and has the clauses `clauses`.
    Returns the first mistake, or None. After a definition or call and a colon, the parts may name what this definition
    or call names, and its clauses."""
    known = {*clauses, *(word.name for word in says), *(field for word in says for field in contracts.fields(word))}
    for item in split(name.inside, ";"):
        left, *others = split(item, ":")
        right = [found.text for side in others for found in names_of(side)]
        for owner in (found.text for found in names_of(left)):
            is_call = right and any(call.promises() for call in contracts.calls().get(owner, ()))
            if owner not in known and not is_call:
                return f"`{name.text}` doesn't say `{owner}`"
            found = [thing_of_word(word) for word in says if word.name == owner] or things(owner)
            having = {it for thing in found for it in (*thing.clauses, *(word.name for word in thing.says))}
            if lacking := [it for it in right if it not in having]:
                return f"`{owner}` has no `{lacking[0]}`: {told(found)}"
    return None


def check_item(parts):
    """Raises Wrong if a part of a cell, between two semicolons, names something that doesn't exist."""
    sides = split(parts, ":")
    if len([side for side in sides if names_of(side)]) > 2:
        raise Wrong("two colons between names can't be read: put a semicolon between two promises")
    sides[0] = with_types(sides[0])
    calls, clauses = names_of(sides[0]), [name for side in sides[1:] for name in names_of(side)]
    if calls and sides[1:]:
        for call in calls:
            found = subject(call)
            for name in clauses:
                clause(call.text, found, name)
    else:
        check_phrases([part for side in sides for part in side])


def check_phrases(parts):
    """Raises Wrong if parts without a colon name something that doesn't exist."""
    of, found, joined = None, [], False
    for part in parts:
        if not isinstance(part, Name):
            joined = joined and part in JOINING
            continue
        is_clause = any(part.text in thing.clauses for thing in found)
        if not found or is_law(of) and is_law(part.text) or not (joined or is_clause):
            of, found = part.text, subject(part)
        else:
            clause(of, found, part)
        joined = True


def check_promise(cell):
    """Yields the first mistake of a cell that says which clauses state a promise."""
    try:
        for item in split(parts_of(cell), ";"):
            check_item(item)
    except Wrong as wrong:
        yield str(wrong)


# ---- These functions check the other cells.


@functools.cache
def tests():
    """Returns the names of all tests."""
    return {call.name for found in contracts.calls().values() for call in found if call.is_test}


def check_names(cell, known, what):
    """Yields a message for each name of a cell that isn't in `known`."""
    for name in texts.quoted(cell):
        if NAME.fullmatch(name) and name not in known:
            yield f"there is no {what} `{name}`"


def check_test(cell):
    """Yields the mistakes of a cell that names tests: test functions, targets of the Makefile, and cases of
    transcripts."""
    yield from check_names(cell, tests(), "test")
    goals = texts.read("Makefile")
    cases = texts.read("crates/transcripts/stdin")
    for name in texts.quoted(cell):
        if goal := re.fullmatch(r"make (\w+)", name):
            if not re.search(rf"(?m)^{goal[1]}:", goals):
                yield f"the Makefile has no goal `{goal[1]}`"
        elif " " in name and name not in cases:
            yield f"crates/transcripts/stdin has no case `{name}`"


def checked(head, cell):
    """Returns the mistakes of a cell in a column with this head."""
    if head in PROMISING:
        return check_promise(cell)
    if head in TESTING:
        return check_test(cell)
    return check_names(cell, contracts.names(), "name")


# ---- This function checks the pages.


def main():
    """Checks the tables of all pages. Prints the mistakes, and the number of texts in backticks in these tables."""
    count = 0
    for page in PAGES:
        cells = [(number, heads[column], cell, heads) for number, heads, column, cell in texts.cells_of(page)]
        if page in ("README.md", "docs/HARDWARE.md"):  # only their tables of promises are checked
            cells = [cell for cell in cells if PROMISING[0] in cell[3]]
        needed = TESTING[0] if page == "docs/TESTING.md" else PROMISING[0]
        if not any(head == needed for _, head, _, _ in cells):
            texts.differs(f"promises: {page} has no table with a column '{needed}'")
        for number, head, cell, _ in cells:
            count += len(texts.quoted(cell))
            for problem in checked(head, cell):
                texts.differs(f"promises: {page}:{number}: {problem}")
    print(f"promises: {count} names in the tables of {' '.join(PAGES)}")
    texts.finish()


if __name__ == "__main__":
    sys.stdout.reconfigure(encoding="utf-8")
    main()
