"""Runs the steps of a case in a directory of its own, and compares the results."""
import os
import re
import shlex
import stat
import subprocess
from pathlib import Path

import contents
from grammar import Step

# A file with more bytes isn't read: only its length and its time are compared.
MOST_COMPARED = 32 << 20
# This pattern matches what a case gives as the content of a name that isn't a regular file: `no file`, or the text that
# `look` returns.
OTHERS = r"no file|a directory|a FIFO|a link to .+"


class Differs(Exception):
    """A comparison failed. The arguments are the expected and the actual result."""


def shown(text):
    """Returns a text with escape sequences in place of the characters that a terminal can't show."""
    return "".join(it if it.isprintable() or it == "\n" else ascii(it)[1:-1] for it in text)


def read(path):
    """Returns the bytes of a file, even if its permissions forbid reading."""
    try:
        return path.read_bytes()
    except PermissionError:
        rights = stat.S_IMODE(path.stat().st_mode)
        path.chmod(rights | stat.S_IRUSR)
        try:
            return path.read_bytes()
        finally:
            path.chmod(rights)


def look(path):
    """Returns the bytes of a file, and its permissions. For anything else, and for a file with more than MOST_COMPARED
    bytes, returns a text that describes it in place of the bytes."""
    found = path.lstat()
    rights = stat.S_IMODE(found.st_mode)
    if stat.S_ISLNK(found.st_mode):
        return f"a link to {os.readlink(path)}", rights
    if stat.S_ISDIR(found.st_mode):
        return "a directory", rights
    if stat.S_ISFIFO(found.st_mode):
        return "a FIFO", rights
    if not stat.S_ISREG(found.st_mode) or found.st_size > MOST_COMPARED:
        return f"{found.st_size} bytes, of kind {stat.S_IFMT(found.st_mode):o}, at {found.st_mtime_ns}", rights
    return read(path), rights


def all_files(folder):
    """Returns the results of `look` for all files and directories below `folder`, by their names."""
    found = {}
    for place, folders, files in os.walk(folder):
        for name in folders + files:
            path = Path(place, name)
            found[str(path.relative_to(folder))] = look(path)
    return found


def told(what):
    """Returns a text for a result of `look` in a message: the number of bytes, or the text that describes another kind
    of file."""
    return f"{len(what)} bytes" if isinstance(what, bytes) else what


def differing(wanted, got):
    """Returns a text with the first bytes that differ, at most four."""
    places = [k for k in range(min(len(wanted), len(got))) if wanted[k] != got[k]][:4]
    return "".join(f", {got[k]:02x} at 0x{k:x}, not {wanted[k]:02x}" for k in places)


def same_lines(file, got):
    """Checks that a file has the expected number of lines, and the lines that the case gives with their numbers."""
    lines = os.fsdecode(got).split("\n")
    if len(lines) != file.count() + 1 or lines.pop() != "":
        raise Differs(f"wanted of {file.name}: {file.content}", f"got: {len(lines)} lines, or one without an end")
    for number, line in sorted(file.numbered.items()):
        if lines[number - 1] != line:
            raise Differs(f"wanted of {file.name}, line {number}: {line}", f"got: {lines[number - 1]}")


def text_differs(name, wanted, got):
    """Returns the lines that describe how the printed text differs from the expected lines, or an empty list. A line
    `..` of the expected text matches any number of lines."""
    pattern = "".join(r"(?:[^\n]*\n)*" if it == ".." else re.escape(it + "\n") for it in wanted)
    got = os.fsdecode(got)
    if re.fullmatch(pattern, got):
        return []
    return [f"wanted on {name}:", *[f"    {it}" for it in wanted or ["(nothing)"]],
            "got:", *[f"    {it}" for it in got.splitlines() or ["(nothing)"]]]


class Trial:
    """A case that runs in the directory `folder`. `words` has shell variables for its steps, such as the paths of the
    program and of the repository."""

    def __init__(self, case, folder, words):
        self.case = case
        self.folder = folder
        self.begin = " ".join(f"{name}={shlex.quote(str(it))}" for name, it in words.items())
        self.begin += "; . \"$top/tests/flashnor/steps.sh\"\n"
        self.command = ""

    def content(self, file):
        """Returns the bytes that the case gives for this file."""
        if not file.content:
            return b"".join(os.fsencode(f"{it}\n") for it in file.text)
        try:
            return contents.make(file.content, lambda name: read(self.folder / name))
        except (ValueError, OSError) as why:
            raise Differs(f"'{file.content}' of {file.name} can't be made: {why}") from why

    def do(self):
        """Creates the files of the case, and runs its steps. Raises `Differs` at the first difference."""
        if self.case.fault:
            raise Differs(self.case.fault)
        for it in self.case.parts:
            if isinstance(it, Step):
                self.do_step(it)
            else:
                (self.folder / it.name).write_bytes(self.content(it))

    def do_step(self, step):
        self.command = step.command
        is_compared = step.is_flashnor() and not self.case.free
        before = all_files(self.folder) if is_compared else {}
        wanted = {it.name: self.wanted(it) for it in step.after}
        ran = subprocess.run(["bash", "-c", self.begin + step.command], cwd=self.folder, stdin=subprocess.DEVNULL,
                             capture_output=True, check=False)
        status = ran.returncode if ran.returncode >= 0 else 128 - ran.returncode
        how = text_differs("standard output", step.output, ran.stdout)
        how += text_differs("standard error", step.errors, ran.stderr)
        if status != step.status:
            how += [f"wanted: status {step.status}", f"got: {status}"]
        if how:
            raise Differs(*how)
        if is_compared:
            self.compare(before, wanted, all_files(self.folder))

    def wanted(self, file):
        """Returns the expected content of a file: its bytes, or a text if it isn't a regular file. Returns `file`
        itself if the case gives only its length or its number of lines."""
        if re.fullmatch(OTHERS, file.content):
            return file.content
        return file if re.fullmatch(r"\d+ (bytes|lines?)", file.content) else self.content(file)

    def compare(self, before, wanted, after):
        """Checks that each file has its expected content and its permissions from before the step, and that no other
        file exists."""
        for name in sorted({*before, *wanted, *after}):
            want = wanted.get(name, before.get(name, ("no file",))[0])
            got, rights = after.get(name, ("no file", 0))
            if not isinstance(want, (bytes, str)) and isinstance(got, bytes):
                if want.count() is not None:
                    same_lines(want, got)
                elif told(got) != want.content:
                    raise Differs(f"wanted of {name}: {want.content}", f"got: {told(got)}")
            elif want != got:
                places = differing(want, got) if isinstance(want, bytes) and isinstance(got, bytes) else ""
                want = told(want) if isinstance(want, (bytes, str)) else want.content
                raise Differs(f"wanted of {name}: {want}", f"got: {told(got)}{places}")
            if name in before and not (name in wanted and isinstance(want, str)) and before[name][1] != rights:
                raise Differs(f"wanted of {name}: rights {before[name][1]:o}", f"got: {rights:o}")
