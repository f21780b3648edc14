"""Reads the contracts of the sources for scripts/promises.py and paths.py: the functions with their clauses, and the
definitions that each clause names.

A clause names the definitions that occur in its term, except in its premises. It also names what these definitions name
in turn: in their equations or, for a record with arguments, in its fields.
"""
import functools
import re

import rust
from sources import CRATES, Word, clauses_of, find, source, tokens_of

OPENING, CLOSING = "([{", ")]}"
# A premise begins after one of these tokens, or at the start of its brackets. For example, the premise of `λ x. a → b`
# is only `a`, which follows the dot.
FENCES = set("| ↦ ; = . ,".split())


class Call:
    """A function: its source and item, its name (with its type, if it has one), the trait that declares it (if any),
    whether it is a test, its place, and its clauses."""

    def __init__(self, code, item):
        self.code, self.item = code, item
        self.name = f"{item.owner}::{item.name}" if item.owner else item.name
        self.trait = f"{item.trait}::{item.name}" if item.trait else ""
        self.is_test = "#[test]" in item.attributes
        self.place = f"crates/{code.path}:{code.line_of(item.head)}"

    @functools.cached_property
    def clauses(self):
        """Returns the clauses in the function's own contract."""
        return clauses_of(self.code.text_of(self.item))[0]

    def is_law(self):
        """Returns whether the function is a law: it takes no argument and returns nothing, so only its clauses
        matter."""
        words = [token.text for token in self.item.tokens]
        at = words.index("(")
        return words[at + 1] == ")" and words[at + 2] in rust.CLAUSES

    def promises(self):
        """Returns the clauses of the function and, if it implements a trait, those in the trait. Each is a pair: the
        source and the clause."""
        found = [(self.code, clause) for clause in self.clauses]
        if self.trait and self.trait != self.name:
            found += [known for above in calls().get(self.trait, ()) for known in above.promises()]
        return found


@functools.cache
def files(folder):
    """Returns the paths, relative to crates/, of all sources in the directory `folder` of any crate."""
    paths = sorted(CRATES.glob(f"*/{folder}/**/*"))
    return [path.relative_to(CRATES).as_posix() for path in paths if path.suffix in (".rt", ".antt")]


@functools.cache
def calls():
    """Returns all functions by their names. A function of a type or trait is listed both with the name of this
    type or trait and without it."""
    found = {}
    for path in files("src"):
        code = source(path)
        for call in (Call(code, item) for item in code.items if item.kind == "fn"):
            for name in {call.name, call.name.rpartition(":")[2]}:
                found.setdefault(name, []).append(call)
    return found


@functools.cache
def words():
    """Returns all definitions, types and traits by their names."""
    found = {}
    for path in files("src") + files("specs"):
        for name, word in source(path).words.items():
            if word.kind != "fn":
                found.setdefault(name, []).append(word)
    return found


@functools.cache
def names():
    """Returns names of the sources: of functions, definitions, types, traits, clauses and mutants, and of fields and
    arguments on lines of their own."""
    found = {path.stem for path in CRATES.glob("*/must-fail/*.edit")} | set(calls()) | set(words())
    for path in files("src") + files("specs"):
        text = source(path).text
        found |= {*re.findall(r"(?m)^ +(?:pub )?(\w+'?) ?:(?!:)", text), *re.findall(r"\bensures\*? (\w+) \{", text)}
    return found


# ---- These functions find the definitions that a clause names.


def conclusion(term):
    """Returns the tokens of a term without its premises: in each pair of brackets, the tokens before a `→`, back to
    one of FENCES, are left out. Fields after a dot are left out, too."""
    levels = [[]]
    for token, is_field in tokens_of(term):
        if token in OPENING:
            levels.append([])
        elif token in CLOSING and len(levels) > 1:
            inner = levels.pop()
            levels[-1] += [found for found in inner if found]
        elif token == "→":
            while levels[-1] and levels[-1][-1] is not None:
                levels[-1].pop()
        elif token in FENCES:
            levels[-1].append(None)
        elif not is_field:
            levels[-1].append(token)
    return {token for level in levels for token in level if token}


@functools.cache
def named_in(place, term):
    """Returns the definitions that a term in the source `place` names outside its premises."""
    found = set()
    for token in sorted(conclusion(term)):
        name = place.parts.get(token, token)
        word = find(*place.uses[name]) if place.uses.get(name, ("", None))[1] else place.words.get(name)
        if isinstance(word, Word) and word.source.path.endswith(".antt"):
            found.add(word)
    return frozenset(found)


@functools.cache
def fields(word):
    """Returns the fields of a record that has arguments, each with its type. Returns none for other definitions; the
    fields of a record without arguments are values, not statements."""
    if word.kind != "record" or not re.search(rf" {re.escape(word.name)} [({{]", word.code[0]):
        return {}
    parts = re.split(r"\n(?=  pub )", "\n".join(word.code))[1:]
    return dict(re.match(r"  pub (\S+) : (.*)", part, re.S).groups() for part in parts)


@functools.cache
def says(word):
    """Returns the definitions that `word` names on the right of its equations or, if it is a record, in its fields."""
    if word.kind == "record":
        terms = list(fields(word).values())
    else:
        body = [line for line in word.code if not line.startswith("--")]
        terms = re.split(r"\n(?=[^\s)\]}])", "\n".join(body))[1:]
        terms = [term.partition(" =")[2] for term in terms]
    return frozenset(found for term in terms for found in named_in(word.source, term))


def reached(start, through_records):
    """Returns the definitions `start` and all definitions that they name in turn. The fields of records are followed
    only if `through_records` is true."""
    found, todo = set(), list(start)
    while todo:
        word = todo.pop()
        if word not in found:
            found.add(word)
            todo += says(word) if through_records or word.kind != "record" else ()
    return found
