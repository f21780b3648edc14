"""Reads definitions of specs/ and types and functions of src/, and finds what each of them uses. Other scripts import
this file.

A name is looked up as the compiler does: first among the names that the definition itself binds, then among those that
its file defines or imports by `use`.
"""
import collections
import functools
import pathlib
import re
import sys
import textwrap

import rust

TOP = pathlib.Path(__file__).resolve().parent.parent
CRATES = TOP / "crates"

TOKEN = re.compile(r'"(?:[^"\\]|\\.)*"|--[^\n]*|[(){}.;,@]|[^\s(){}.;,@"«»]+')
SYNTAX = set("= : ↦ | [ ] _ in as where Type pub unfolding".split())
NOTATION = set("→ × λ ¬ ⊥ Unit record let elim".split())
# On the left of an equation, these names are constructors. Other names of a library are variables there.
CONSTRUCTORS = set("Ok Err Some None true false [] ∷ zero suc tt".split())
# A contract of src/ can use these names without a `use`, as in Rust.
PRELUDE = set("Some None Ok Err".split())
# A line that begins with one of these characters continues the line above it.
CLOSING = " )]}"
MARKED = re.compile(r"(?:(?:pub|abbrev|unfoldable|pattern|axiom) )+(?:(record|data) )?(\S+)|(\S+) : ")
CLAUSE = re.compile(r"\b(?:(?:requires|ensures)\*?(?:\s+\w+)?|ghost\s+\w+\s*[:=])\s*\{")


def fail(message):
    """Ends the script with this message."""
    sys.exit(f"DIFFERS: statement: {message}")


# ---- These functions find the names in a term.


def tokens_of(term):
    """Returns the tokens of a term, without comments and strings. Each is a pair with True if the token is a field
    after a dot."""
    found, is_field = [], False
    for match in TOKEN.finditer(term):
        token, start, end = match.group(), *match.span()
        if token == "." and term[start - 1 : start].strip() and term[end : end + 1].strip():
            is_field = True
        elif token[:2] != "--" and token[0] != '"':
            found.append((token, is_field))
            is_field = False
    return found


def free_names(term, bound, stands_for_itself=lambda name: False):
    """Returns the free names in a term: those that neither `bound` nor the term itself binds. Each is a pair with the
    field that is selected from it, or None."""
    tokens = tokens_of(term)
    words = [token for token, _ in tokens] + [""]
    scopes, groups, binders, in_pattern, free = [set(bound)], [], None, False, []
    for at, (token, is_field) in enumerate(tokens):
        here, before, behind = scopes[-1], words[at - 1] if at else "", words[at + 1]
        if is_field and binders == len(scopes):
            binders, is_field = None, False  # the dot belongs to a λ
        if token in "({":
            end = next(i for i in range(at + 1, len(words)) if words[i] in "(){}.;,:→=")
            groups.append(words[at + 1 : end] if words[end] == ":" else [])
            scopes.append(here | set(groups[-1]))
        elif token in ")}":
            scopes.pop()
            scopes[-1].update(groups.pop())
        elif token == "λ":
            binders = len(scopes)
            free.append((token, None))
        elif token == "." and binders == len(scopes):
            binders = None
        elif token in "[|" and "↦" in words[at:]:
            in_pattern = True
        elif token == "↦":
            in_pattern = False
        elif is_field or token in ".,;@" or token[0].isdigit() or token in SYNTAX or token in here:
            continue
        elif before in ("{", ";") and behind == "=":
            continue
        elif binders == len(scopes) or before in ("let", "pub") or (in_pattern and not stands_for_itself(token)):
            here.add(token)
        else:
            free.append((token, behind if at + 1 < len(tokens) and tokens[at + 1][1] else None))
    return free


# ---- These classes and functions read the sources.


class Word:
    """A definition, type, trait or function: its source, kind, name and line, the comment above it, its lines, the
    heading above it in the file (`part`), and in src/ the text that may have a `use` of its own (`whole`)."""

    def __init__(self, source, kind, name, line, comment, part=""):
        self.source, self.kind, self.name, self.line = source, kind, name, line
        self.comment, self.code, self.part, self.whole = comment, [], part, ""


def uses_in(text):
    """Returns what the `use` lines of a text import: for each local name, the path and the name that it refers to (None
    if it stands for the path)."""
    found = {}
    for path, names in re.findall(r"\buse ([\w.]+)\.\{([^}]*)\}", text):
        for entry in re.split(r",\s*", names.strip()):
            name, _, local = entry.partition(" as ")
            found[local or name] = path, name
    for path, local in re.findall(r"\buse ([\w.]+) as (\w+)", text):
        found[local] = path, None
    return found


def find(path, name):
    """Returns the `Word` to which a path and a name refer. If the path is that of a library of the kit, returns the
    name."""
    _, crate, _, *parts = path.split(".")
    if not (CRATES / crate).is_dir():
        return name
    if parts[0] == "declared":
        *modules, kind = [part for part in parts[1:] if part != "TheVariants"]
        return source(f"{crate}/src/{'/'.join(modules)}.rt").type_of(kind)
    if not (CRATES / crate / f"specs/{'/'.join(parts)}.antt").exists():
        *parts, name = parts  # the name is a constructor of this type
    return source(f"{crate}/specs/{'/'.join(parts)}.antt").word(name)


def is_equation_of(name, line):
    """Returns whether a line begins an equation of this name. The parts of an operator's name are between its
    arguments."""
    words = line.partition(" =")[0].split()
    parts = [part for part in name.split("◌") if part]
    return all(part in words for part in parts) if "◌" in name else words[0] == name


class Source:
    """A file below crates/: its path, its text and lines, its definitions, types, traits and functions by their names,
    what its unindented `use` lines import, and the text of its header comment."""

    def __init__(self, path):
        self.path, self.words = path, {}
        self.text = (CRATES / path).read_text(encoding="utf-8")
        self.lines = self.text.splitlines()
        self.uses = uses_in("\n".join(line for line in self.lines if line[:1] != " "))
        head = re.match(r"(?:(?:--|//!) .*\n)*", self.text).group()
        self.head = " ".join(line.split(" ", 1)[1] for line in head.splitlines())

    def take_parts(self):
        """Stores the names of operators by the parts of these names."""
        names = [*self.uses, *self.words]
        self.parts = {part: name for name in names for part in name.split("◌") if part not in ("", name)}

    def known(self, name, uses):
        """Returns the `Word` to which a name in a term refers, or the name if it belongs to a library or to the
        language. Ends the script if it is none of these."""
        name = self.parts.get(name) or next((whole for whole in uses if name in whole.split("◌")), name)
        if name in uses:
            return find(*uses[name])
        if name in self.words or name in NOTATION:
            return self.words.get(name, name)
        return fail(f"{self.path} says '{name}', which is found nowhere")


class Spec(Source):
    """A file of specs/. Each definition is a line with its name and its type, followed by its equations, fields or
    constructors. A comment directly above one of these belongs to the definition. If a line belongs to no definition,
    and isn't blank, a comment, a `use`, a `mod` or an `infix`, the script ends."""

    def __init__(self, path):
        super().__init__(path)
        word, comment, part = None, [], ""
        for number, line in enumerate(self.lines, 1):
            marked = MARKED.match(line)
            if line.startswith("-- ----"):
                word, comment, part = None, [], line
            elif line.startswith("--"):
                comment = [*comment, line]
            elif not line:
                word, comment = None, []
            elif re.match(r"(pub )?(use|mod) .*[^{,]$|infix", line):
                word, comment = None, []
            elif marked:
                word = self.begin(marked, number, comment, part)
                comment = []
            elif word and (line[0] in CLOSING or is_equation_of(word.name, line)):
                word.code += [*comment, line]
                comment = []
            else:
                fail(f"crates/{path}:{number}: '{line}' belongs to no definition")
            if word and word.kind == "data" and (constructor := re.match(r"  (\S+) :", line)):
                self.words[constructor[1]] = word
        self.take_parts()

    def begin(self, marked, number, comment, part):
        """Starts a new definition with its first line."""
        kind, name = marked[1], marked[2] or marked[3]
        if name in self.words:
            fail(f"crates/{self.path}:{number}: '{name}' is defined twice")
        word = self.words[name] = Word(self, kind, name, number, comment, part)
        word.code = [marked.string]
        return word

    def word(self, name):
        """Returns what this name refers to."""
        return self.known(name, self.uses)

    def is_constructor(self, name):
        """Returns whether a name on the left of an equation is a constructor, not a variable."""
        is_ours = name in self.words and self.words[name].kind == "data"
        return is_ours or name in CONSTRUCTORS or self.uses.get(name, ("",))[0].endswith(".TheVariants")

    def used(self, word):
        """Returns what a definition uses: a `Word`, or the name if it belongs to a library or to the language."""
        free = self.names_of_record(word) if word.kind == "record" else self.names(word)
        aliases = {name for name, (_, stands_for) in self.uses.items() if stands_for is None}
        return [find(self.uses[name][0], field) if name in aliases else self.word(name) for name, field in free]

    def names(self, word):
        """Returns the free names of a definition that isn't a record. Each equation binds the variables on its left."""
        parts = []
        for line in word.code:
            if line.startswith("--"):
                continue
            if parts and line[0] in CLOSING:
                parts[-1] += "\n" + line
            else:
                parts.append(line)
        free = free_names(parts[0].split(" :", 1)[1], (), self.is_constructor)
        for equation in parts[1:]:
            left, _, right = equation.partition(" =")
            names = [name for name, is_field in tokens_of(left) if not is_field]
            fixed = [(name, None) for name in names if self.is_constructor(name)]
            fixed += re.findall(r"(\w+)\.(\w+)", left)
            free += fixed + free_names(right, set(names) - {name for name, _ in fixed}, self.is_constructor)
        return free

    def names_of_record(self, word):
        """Returns the free names of a record. Each field can use the fields before it."""
        header, *fields = re.split(r"\n(?=  pub )", "\n".join(word.code))
        header = header.split(f" {word.name}", 1)[1].rsplit(" where", 1)[0]
        bound = {name for group in re.findall(r"[({]([^(){}:]*) :", header) for name in group.split()}
        free = [("record", None)] + free_names(header, (), self.is_constructor)
        for field in fields:
            free += free_names(field, bound, self.is_constructor)
            bound.add(field.split()[1])
        return free


class Code(Source):
    """A file of src/."""

    def __init__(self, path):
        super().__init__(path)
        try:
            self.items = list(rust.items(rust.tokens_of(self.text)))
        except rust.Unread as unread:
            start, wrong = unread.args
            fail(f"crates/{path}:{self.line_of(start)}: {wrong}")
        for item in self.items:
            if item.kind in ("struct", "enum", "trait", "fn") and not item.owner:
                self.take(item, item.name)
            elif item.kind == "fn" and not item.trait and self.text.startswith("pub", item.head):
                self.take(item, f"{item.owner}::{item.name}")
        self.take_parts()

    def line_of(self, position):
        """Returns the number of the line with this position in the text, counted from 1."""
        return self.text.count("\n", 0, position) + 1

    def take(self, item, name):
        """Stores a type, a trait, or a function with its contract, and the comment above it, without the attributes of
        its parts."""
        number = self.line_of(item.head)
        comment = self.comment_above(item, number)
        word = self.words[name] = Word(self, item.kind, name, number, comment)
        word.whole = self.text_of(item)
        word.code = re.sub(r" *ghost use .*\n\n?", "", word.whole).splitlines()
        self.take_model(word)

    def take_model(self, word):
        """If contracts see a type as a value of another type (the `Value` of its `Model`), stores this `Value` in place
        of the type's fields."""
        models = [item for item in self.items if item.kind == "impl" and rust.block_of(item) == (word.name, "Model")]
        if not models or word.kind == "fn":
            return
        line, model = word.code[0], self.text_of(models[0])
        if value := re.search(r" *ghost Value = [^;]*;", model):
            word.whole = model
            fields = "{ .. }" if line.endswith("{") else "(..);"
            word.code = [f"{line[:-1]}{fields}", word.whole.splitlines()[0], value.group(), "}"]

    def comment_above(self, item, number):
        """Returns the lines of the comments directly above an item, and among its attributes."""
        start = self.line_of(item.first) - 1
        while start and self.lines[start - 1].lstrip().startswith("//"):
            start -= 1
        return [line.strip() for line in self.lines[start : number - 1] if line.lstrip().startswith("//")]

    def text_of(self, item):
        """Returns the text of an item from its first line on. For a function, leaves out the body."""
        start = self.text.rfind("\n", 0, item.head) + 1
        text = self.text[start : item.body if item.kind == "fn" else item.end].rstrip()
        kept = [line for line in text.splitlines() if item.kind == "fn" or not re.match(r" +#\[", line)]
        return textwrap.dedent("\n".join(kept))

    def type_of(self, name):
        """Returns the type or trait to which a name in Rust code refers. If it belongs to a library of the kit, returns
        the name."""
        if name in self.words:
            return self.words[name]
        mine = self.path.split("/")[0]
        for first, rest in re.findall(r"(?m)^(?:pub )?use (\w+)([^;]*);", self.text):
            crate = first if (CRATES / first).is_dir() else mine
            if re.search(rf"\b{name}\b", rest) and first != "std":
                files = sorted((CRATES / crate / "src").rglob("*.rt"))
                here = [source(file.relative_to(CRATES).as_posix()).words.get(name) for file in files]
                return next(filter(None, here), None) or source(f"{crate}/src/lib.rt").type_of(name)
        return name

    def known(self, name, uses):
        """Returns what a name in a clause refers to. A name of Rust's prelude needs no `use`."""
        return name if name in PRELUDE and name not in uses else super().known(name, uses)

    def used(self, word):
        """Returns what the clauses of an item use, and the types that the item names."""
        text = "\n".join(word.code)
        clauses, rest = clauses_of(text)
        bound = {"result", "self", "Self", *re.findall(r"(\w+):", rest), *re.findall(r"ghost (\w+)", text)}
        uses = {**self.uses, **uses_in(word.whole)}
        found = [self.known(name, uses) for clause in clauses for name, _ in free_names(clause.term, bound)]
        if word.kind == "enum":
            rest = re.sub(r"(?m)^ +\w+", "", rest)
        types = {name for name in re.findall(r"\b[A-Z]\w*", rest) if "_" not in name}  # a name with `_` is a constant
        return found + [self.type_of(name) for name in sorted(types - bound)]


Clause = collections.namedtuple("Clause", "kind name term")


def end_of_braces(text, start):
    """Returns the position after the brace that closes the one before `start`."""
    depth = 1
    while depth:
        depth += {"{": 1, "}": -1}.get(text[start], 0)
        start += 1
    return start


def clauses_of(text):
    """Returns the clauses and ghost members of an item, and its text without these and without comments."""
    text = re.sub(r"//.*", "", text)
    clauses, rest, done = [], "", 0
    while match := CLAUSE.search(text, done):
        rest, done = rest + text[done : match.start()], end_of_braces(text, match.end())
        kind, name = re.match(r"(\w+)\*?\s*(\w*)", match.group()).groups()
        clauses.append(Clause(kind, name, text[match.end() : done - 1]))
    rest += text[done:]
    if re.search(r"\b(requires|ensures)\b", rest):
        fail(f"a clause of '{text.splitlines()[0]}' can't be read")
    return clauses, rest


@functools.cache
def source(path):
    """Returns the `Source` for a path below crates/."""
    return Spec(path) if path.endswith(".antt") else Code(path)
