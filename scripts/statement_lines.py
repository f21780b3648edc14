"""Lays out definitions and functions for scripts/statement.py, more compactly than in the sources. Definitions of
specs/ lose keywords such as `pub`."""
import itertools
import re


def split_type(text):
    """Returns the arguments of a signature, and the type of its result. Each argument is a pair: the text of its part,
    which may name several arguments, and its type."""
    parts, depth, done = [], 0, 0
    for match in re.finditer(r"[({\[]|[)}\]]|\s→\s", text):
        depth += {"(": 1, "{": 1, "[": 1, ")": -1, "}": -1, "]": -1}.get(match.group(), 0)
        if not depth and "→" in match.group():
            parts, done = [*parts, text[done : match.start()].strip()], match.end()
    found = []
    for part in parts:
        named = re.fullmatch(r"\(([\w' ]+) : (.*)\)", part)
        kind = named[2] if named else re.sub(r"^\(([^()]*)\)$", r"\1", part)
        found += [(part, kind)] * (len(named[1].split()) if named else 1)
    return found, text[done:].strip()


def filled(lines, end=""):
    """Returns these lines, with `end` after the last one, as a single line if it fits into 120 columns."""
    whole = " ".join([lines[0], *(line.strip() for line in lines[1:])]) + end
    return [whole] if len(whole) <= 120 else [*lines[:-1], lines[-1] + end]


def packed(word):
    """Returns the lines of a type of src/ as the page has them. Fields that no comment separates are on one line if
    they fit."""
    lines, free = [], False
    for line in word.code:
        field = re.fullmatch(r"    (?![ }]|//).*,", line)
        if field and free and len(lines[-1]) + len(line) <= 120:
            lines[-1] += line[3:]
            continue
        free = bool(field) and not lines[-1].lstrip().startswith("//")
        lines.append(line)
    if len(lines) == 3 and lines[1].endswith(","):
        return filled([lines[0], lines[1].rstrip(","), lines[2]])
    return lines


def joined(word):
    """Returns the lines of a definition as the page has them. Keywords, and the type of a record, are left out. If a
    definition without inner comments has only one equation, whose arguments are all names, the types of the arguments
    are put next to these names."""
    code = [re.sub(r"^((abbrev|unfoldable|pub) )+|^(  )pub ", r"\3", line) for line in word.code]
    if word.kind == "record":
        head, where, fields = "\n".join(code).partition(" : Type 0 where")
        return [*filled(head.split("\n"), " where"), *fields.splitlines()[1:]] if where else code
    equation = next((at for at, line in enumerate(code) if line.startswith(f"{word.name} ") and at), None)
    if any(line.startswith("--") for line in code):  # the equation has a comment above it
        return code
    if word.kind or equation is None or sum(line.startswith(f"{word.name} ") for line in code) != 2:
        return code
    types, answer = split_type(" ".join(line.strip() for line in code[:equation]).partition(" : ")[2])
    left, _, right = "\n".join(code[equation:]).partition(" =")
    names = left.split()[1:]
    if len(names) > len(types) or not all(re.fullmatch(r"[a-z]\w*'?", name) for name in names):
        return code
    groups = [(kind, [name for _, name in group]) for kind, group in
              itertools.groupby(zip(types, names), key=lambda pair: pair[0][1])]
    head = " ".join([word.name, *(f"({' '.join(group)} : {kind})" for kind, group in groups)])
    rest = [part for part, _ in types[len(names) :]]
    if rest or answer != "Type 0":
        head += " : " + " → ".join([*rest, answer])
    head += " ="
    lines = (head + right).splitlines()
    if len(lines) == 2:
        lines = filled(lines)
    return lines if len(lines[0]) <= 120 else [head, "    " + lines[0][len(head) :].strip(), *lines[1:]]


def signed(word):
    """Returns the lines of a function as the page has them: its arguments are on one line if they fit."""
    code = "\n".join(word.code)
    if not (arguments := re.match(r"[^\n]*\(\n((?:    .*,\n)+)\)", code)):
        return word.code
    side = "    " + " ".join(line.strip() for line in arguments[1].splitlines()) + "\n"
    return code.replace(arguments[1], side, 1).splitlines() if len(side) <= 120 else word.code


def lines_of(word):
    """Returns the lines of a definition, type or function as the page has them."""
    if word.source.path.endswith(".antt"):
        return joined(word)
    if word.kind == "fn":
        return signed(word)
    return packed(word) if word.kind in ("struct", "enum") else word.code


def count(words):
    """Returns the number of lines of these definitions on the page, without comments and blank lines."""
    return sum(line.strip()[:2] not in ("", "--", "//") for word in words for line in lines_of(word))
