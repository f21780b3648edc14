"""Reads a Rattle source as tokens, which don't depend on line breaks or on the positions of comments."""
import collections
import re

# The tokens are comments, strings, characters, names (with primes in clauses) and numbers, lifetimes, `::`, arrows, and
# single marks.
TOKEN = re.compile(r'//[^\n]*|b?"(?:[^"\\]|\\.)*"|b?\'(?:[^\'\\]|\\.)\'|\w+\'*|\'\w+|::|=>|->|[^\s\w]', re.S)
Token = collections.namedtuple("Token", "text start end")
# An Item is a declaration, such as a function. `owner` is the type or trait of the block that contains it, and `trait`
# is the trait that this block implements or declares. Four fields are positions in the text: `first` of the first
# attribute or word, `head` of the first word after the attributes, `body` of the body or the semicolon, and `end` after
# the item.
Item = collections.namedtuple("Item", "kind name owner trait attributes first head body end tokens")
KINDS = "fn struct enum trait impl mod use const static type".split()
CLOSING = {"(": ")", "[": "]", "{": "}"}
CLAUSES = "requires", "ensures"


class Unread(Exception):
    """A text can't be read. The arguments are the position of the mistake, and its description."""


def tokens_of(text):
    """Returns the tokens of a text, without comments."""
    found = (Token(match.group(), *match.span()) for match in TOKEN.finditer(text))
    return [token for token in found if not token.text.startswith("//")]


def closing(tokens, at):
    """Returns the index of the token that closes the bracket at the given index."""
    opened, depth = tokens[at].text, 0
    for index in range(at, len(tokens)):
        depth += {opened: 1, CLOSING[opened]: -1}.get(tokens[index].text, 0)
        if not depth:
            return index
    raise Unread(tokens[at].start, f"this '{opened}' isn't closed")


def end_of_head(tokens, at):
    """Returns the index of the brace that opens an item's body, or of the item's semicolon. `at` is the index of a
    token in the item's head, which includes the clauses."""
    first = at
    while at < len(tokens):
        word = tokens[at].text
        if word in CLAUSES:
            # Between the keyword and the brace, there may be a star and a name.
            at = closing(tokens, next(at for at in range(at, len(tokens)) if tokens[at].text == "{"))
        elif word in "{;":
            return at
        elif word in "([":
            at = closing(tokens, at)
        at += 1
    raise Unread(tokens[first].start, "this item doesn't end")


def block_of(item):
    """Returns the type and the trait of an item `impl<..> Trait for Type`. For `impl<..> Type`, the trait is empty. For
    a trait, returns its name twice."""
    head = [token.text for token in item.tokens]
    head = head[: head.index("{")] if "{" in head else head
    names, depth, is_bound = [], 0, False
    for before, token in zip(["", *head], head):
        depth += {"<": 1, ">": -1}.get(token, 0)
        is_bound = is_bound or token == "where" or (token == ":" and not depth)
        if not depth and not is_bound and re.match(r"[A-Za-z_]", token) and token not in ("impl", "trait", "unsafe"):
            if before == "::":
                names.pop()
            names.append(token)
    if head[0] == "trait":
        return names[0], names[0]
    at = names.index("for") if "for" in names else 0
    return (names[at + 1], names[0]) if at else (names[0], "")


def items(tokens, owner="", trait=""):
    """Yields the items of a text, and those in its `impl` blocks, traits and modules, except those that begin with
    `ghost`."""
    at = 0
    while at < len(tokens):
        first, attributes = at, []
        while at < len(tokens) and tokens[at].text == "#":
            opened = at + 2 if tokens[at + 1].text == "!" else at + 1
            end = closing(tokens, opened)
            attributes.append("".join(token.text for token in tokens[at : end + 1]))
            at = end + 1
        if at == len(tokens):
            return
        head = at
        while tokens[at].text in ("pub", "(", "unsafe", "const", "ghost") and tokens[at + 1].text != ":":
            if tokens[at].text == "const" and tokens[at + 1].text != "fn":
                break
            at = closing(tokens, at) + 1 if tokens[at].text == "(" else at + 1
        kind, name = tokens[at].text, tokens[at + 1].text
        body = end_of_head(tokens, at)
        end = closing(tokens, body) if tokens[body].text == "{" else body
        if kind in KINDS and tokens[head].text != "ghost":
            item = Item(kind, name, owner, trait, attributes, tokens[first].start, tokens[head].start,
                        tokens[body].start, tokens[end].end, tokens[at : end + 1])
            yield item
            if kind in ("impl", "trait", "mod") and end > body:
                yield from items(tokens[body + 1 : end], *((owner, trait) if kind == "mod" else block_of(item)))
        at = end + 1
        while at < len(tokens) and tokens[at].text == ";":
            at += 1


def number_of(text):
    """Returns the value of a token if it is a number, and otherwise None."""
    plain = re.sub(r"_|[ui](8|16|32|64|size)$", "", text)
    return int(plain, 0) if re.fullmatch(r"\d+|0x[0-9A-Fa-f]+", plain) else None


def number_after(tokens, start):
    """Returns the first number that directly follows the tokens of the text `start`, or None."""
    words, wanted = [token.text for token in tokens], [token.text for token in tokens_of(start)]
    places = (at + len(wanted) for at in range(len(words) - len(wanted)) if words[at : at + len(wanted)] == wanted)
    return next((number for at in places if (number := number_of(words[at])) is not None), None)


def arms(tokens, kind):
    """Yields each variant of the enum `kind` in the arms of a match, with the first number or string of its arm."""
    words, pending = [token.text for token in tokens], []
    is_arm = False
    for at, word in enumerate(words):
        if words[at : at + 2] == [kind, "::"]:
            end = closing(tokens, at + 3) + 1 if words[at + 3] in CLOSING else at + 3
            if words[end] in ("=>", "|", "if"):
                pending, is_arm = ([] if is_arm else pending) + [words[at + 2]], False
        elif word == "=>":
            is_arm = bool(pending)
        elif is_arm and (word[0] == '"' or number_of(word) is not None):
            yield from ((name, word) for name in pending)
            pending, is_arm = [], False


def numbers_of_variants(tokens):
    """Returns the numbers of the variants of all enums: the numbers in the arms of matches. If the first variant has
    the number 1, also returns the numbers from 1 on, one per variant."""
    found = set()
    for item in (item for item in items(tokens) if item.kind == "enum"):
        found |= {number for _, word in arms(tokens, item.name) if (number := number_of(word)) is not None}
        words = [token.text for token in item.tokens]
        if "=" in words and number_after(item.tokens, "=") == 1:
            ends = zip(words, words[1:])
            variants = [word for word, after in ends if word.isidentifier() and after in (",", "=", "}")]
            found |= set(range(1, 1 + len(variants)))
    return found
