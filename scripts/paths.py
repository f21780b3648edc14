#!/usr/bin/env python3
"""scripts/paths.py: checks that the files and names on the pages exist.

The pages are README.md, CONTRIBUTING.md, CHANGELOG.md, docs/, the README files of tests/, the manual pages, and the
header comment (`//!`) of each file of crates/*/src. A word is checked as a path if it ends with one of ENDINGS, or
begins with a directory of FOLDERS or the name of a crate. Words that begin with `out/`, which has built files, are not
checked. In a path, `*` matches anything, and so does a word of at least four capitals such as `NAME` that isn't before
`.md`. A word such as `specs/Chip` is a file of a crate that its section's title, or its line before the word, names (of
any crate if they name none) or, in a header comment, of the comment's crate.

In header comments and on the pages of NAMING, each name in backticks must be a name in the sources, the name of a file
or directory, or a word of crates.txt. For each missing file or name, the script prints the line where it occurs, and
ends with exit status 1.
"""
import fnmatch
import functools
import os
import pathlib
import re
import sys

sys.dont_write_bytecode = True  # so that Python creates no files in scripts/
import contracts
import texts
from sources import CRATES, TOP

FOLDERS = "crates docs scripts tests man completion specs src proofs must-fail".split()
ENDINGS = "antt rt md case sh py edit bash c".split()
NAMING = "ARCHITECTURE.md", "CONTRIBUTING.md", "GLOSSARY.md"
WORD = re.compile(r"[\w*./-]*[\w*/]")


def pages():
    """Returns the paths of the pages."""
    found = [TOP / name for name in ("README.md", "CONTRIBUTING.md", "CHANGELOG.md")]
    for pattern in ("man/*", "docs/*.md", "tests/**/*.md", "crates/*/src/**/*.rt"):
        found += sorted(TOP.glob(pattern))
    return found


def lines_of(page):
    """Returns the lines of a page with their numbers. For a source, returns the lines of its header comment, without
    its examples."""
    lines = list(enumerate(page.read_text(encoding="utf-8").splitlines(), 1))
    if page.suffix != ".rt":
        return lines
    found, is_example = [], False
    for number, line in lines:
        if not line.startswith("//!"):
            return found
        if "```" in line:
            is_example = not is_example
        elif not is_example:
            found.append((number, line[3:]))
    return found


@functools.cache
def names_of_crates():
    """Returns the names of the crates."""
    return {path.name for path in CRATES.iterdir() if path.is_dir()}


def is_path(word):
    """Returns whether a word is checked as the path of a file or a directory."""
    first, _, rest = word.partition("/")
    if first == "out":
        return False
    if rest and first in names_of_crates():
        return True
    return first in FOLDERS and "/" in word or re.search(rf"\w\.({'|'.join(ENDINGS)})$", word) is not None


@functools.cache
def there():
    """Returns the paths of all files and directories of the repository, relative to its top, except those in `out`,
    `.git` and `__pycache__`."""
    found = set()
    for folder, folders, files in os.walk(TOP):
        folders[:] = [name for name in folders if name not in ("out", ".git", "__pycache__")]
        found |= {os.path.relpath(os.path.join(folder, name), TOP) for name in [*folders, *files]}
    return found


def is_there(word, folders):
    """Returns whether a word is the path of a file or a directory in one of `folders`. A name without `/` may also be
    in a directory below them. A path without a dot may lack its ending `.antt` or `.rt`."""
    name = word.rstrip("/")
    for ending in ("", ".antt", ".rt") if "." not in name else ("",):
        wanted = [os.path.normpath(os.path.join(folder, name + ending)) for folder in folders]
        if any(path in there() for path in wanted):
            return True
        if "*" in name and any(fnmatch.fnmatch(path, pattern) for pattern in wanted for path in there()):
            return True
    below = tuple(f"{folder}/" for folder in folders)
    return "/" not in word and any(path.startswith(below) and path.endswith(f"/{name}") for path in there())


def folders_for(page, crates, before):
    """Returns the directories in which a word of a page may be a path. In a header comment, these are its crate, the
    crate's specs/, the file's own directory and the top. On a page, these are the top, the page's own directory,
    crates/, scripts/, tests/, the directory of the path before the word, and the crates that were named (all crates if
    none was)."""
    own = page.parent.relative_to(TOP).as_posix()
    if page.suffix == ".rt":
        return [f"crates/{crates[0]}", f"crates/{crates[0]}/specs", own, ""]
    return ["", own, "crates", "scripts", "tests", before, *(f"crates/{name}" for name in crates or names_of_crates())]


def check(page):
    """Checks the paths on a page. Yields the line and the word for each path that doesn't exist, and None for each
    other path."""
    is_head, titled, before = page.suffix == ".rt", [], ""
    for number, line in lines_of(page):
        is_title = line.startswith("#")
        crates = [page.relative_to(CRATES).parts[0]] if is_head else [] if is_title else list(titled)
        for match in WORD.finditer(line):
            word = match.group()
            if word in names_of_crates() and not is_head:
                crates.append(word)
            if not is_path(word):
                continue
            there = is_there(re.sub(r"\b[A-Z]{4,}\b(?!\.md)", "*", word), folders_for(page, crates, before))
            yield None if there else (number, word)
            before = word.rpartition("/")[0] or before
        if is_title:
            titled = crates or titled


@functools.cache
def names():
    """Returns the names that are valid in backticks: those in the sources, of files and directories, and of
    libraries."""
    libraries = texts.read("crates.txt").replace(":", " ").split()
    return contracts.names() | {pathlib.PurePath(path).stem for path in there()} | set(libraries)


def check_names(page):
    """Checks the names in backticks on a page. Yields the line and the name for each invalid name, and None for each
    valid name."""
    for number, line in lines_of(page):
        for name in re.findall(r"`([A-Za-z_]\w*(?:::\w+)?)`", line):
            yield None if name in names() else (number, name)


def gaps():
    """Yields a message for each crate that ARCHITECTURE.md doesn't name, and for each file of crates/*/src without a
    header comment."""
    text = texts.read("docs/ARCHITECTURE.md")
    for crate in sorted(names_of_crates()):
        if f"`{crate}`" not in text:
            yield f"docs/ARCHITECTURE.md names no crate {crate}"
    for page in pages():
        if page.suffix == ".rt" and not lines_of(page):
            yield f"{page.relative_to(TOP)} has no head"


def main():
    """Checks all pages. Prints each missing path and name, the messages of `gaps`, and the numbers of paths and names
    that were checked."""
    told = {page: list(check(page)) for page in pages()}
    named = {page: list(check_names(page)) for page in told if page.suffix == ".rt" or page.name in NAMING}
    for page in told:
        for number, name in filter(None, [*told[page], *named.get(page, [])]):
            texts.differs(f"paths: {page.relative_to(TOP)}:{number}: there is no {name}")
    for gap in gaps():
        texts.differs(f"paths: {gap}")
    print(f"paths: {sum(map(len, told.values()))} in pages and heads, {sum(map(len, named.values()))} names in heads")
    texts.finish()


if __name__ == "__main__":
    sys.stdout.reconfigure(encoding="utf-8")
    main()
