"""Parses cases, whose form tests/flashnor/cases/README.md describes. A line that can't be parsed makes its case
fail."""
import dataclasses
import re


class Wrong(Exception):
    """A line of a case can't be parsed. The message is the reason."""


@dataclasses.dataclass
class File:
    """A file that a case names, with its content before or after a step."""
    name: str
    content: str
    text: list = dataclasses.field(default_factory=list)
    numbered: dict = dataclasses.field(default_factory=dict)

    def count(self):
        """Returns the file's number of lines, if the case gives one."""
        found = re.fullmatch(r"(\d+) lines?", self.content)
        return int(found[1]) if found else None

    def take_text(self, line):
        if self.content:
            raise Wrong("its file has a content")
        self.text.append(line)

    def take_numbered(self, line):
        """Parses a line `  K: TEXT`, or `  K to M: reads from 0xA`, which stands for a read of one sector in each of
        the lines K to M."""
        found = re.fullmatch(r"  (\d+)(?: to (\d+): reads from 0x([0-9a-f]+)|: (.*))", line)
        if not found or self.count() is None:
            raise Wrong("it belongs to no 'N lines'")
        first = int(found[1])
        lines = [found[4]]
        if found[2]:
            start = int(found[3], 16)
            lines = [f"03{start + 4096 * k:06x} > 4096 bytes" for k in range(int(found[2]) + 1 - first)]
        for number, text in enumerate(lines, first):
            if not 1 <= number <= self.count() or number in self.numbered:
                raise Wrong(f"line {number} isn't one of {self.content}, or is there twice")
            self.numbered[number] = text


@dataclasses.dataclass
class Step:
    """A step of a case: a command line, with its expected results."""
    command: str
    output: list = dataclasses.field(default_factory=list)
    errors: list = dataclasses.field(default_factory=list)
    status: int = 0
    after: list = dataclasses.field(default_factory=list)

    def is_flashnor(self):
        return re.search(r"[ (]flashnor ", f" {self.command} ") is not None


@dataclasses.dataclass
class Case:
    """A case: the name of its file, its sentence, its files and steps in their order, whether its files are free, and
    the first fault in its form (empty if there is none)."""
    file: str
    sentence: str
    parts: list = dataclasses.field(default_factory=list)
    free: bool = False
    fault: str = ""

    def steps(self):
        return [it for it in self.parts if isinstance(it, Step)]

    def step(self):
        """Returns the step to which the current line belongs: the last part of the case. Raises Wrong if that isn't a
        step."""
        if not self.parts or isinstance(self.parts[-1], File):
            raise Wrong("it belongs to no step")
        return self.parts[-1]

    def named(self):
        """Returns the file to which the current line belongs: the case's last part or, if that is a step, the last file
        that it names. Raises Wrong if there is none."""
        last = self.parts[-1] if self.parts else None
        if isinstance(last, Step):
            last = last.after[-1] if last.after else None
        if last is None:
            raise Wrong("it belongs to no file")
        return last

    def take_after(self, file):
        step = self.step()
        if not step.is_flashnor():
            raise Wrong("'after' behind a step that isn't flashnor")
        if file.name in [it.name for it in step.after]:
            raise Wrong("this file was named already")
        step.after.append(file)

    def take(self, line):
        """Parses one line of the case."""
        named = re.fullmatch(r"(file|after) ([^:]+):(?: (.*))?", line)
        status = re.fullmatch(r"status (\d+)", line)
        if line.startswith("$ "):
            self.parts.append(Step(line[2:]))
        elif named and named[1] == "file":
            self.parts.append(File(named[2], named[3] or ""))
        elif named:
            self.take_after(File(named[2], named[3] or ""))
        elif line == "|" or line.startswith("| "):
            self.named().take_text(line[2:])
        elif re.match(r"  \d", line):
            self.named().take_numbered(line)
        elif status:
            self.step().status = int(status[1])
        elif line == "files are free":
            self.free = True
        elif line == "!" or line.startswith("! "):
            self.step().errors.append(line[2:])
        else:
            self.step().output.append(line)

    def finish(self):
        """Checks the form of the whole case, and sets `fault` if it is wrong."""
        if not self.steps():
            self.fault = self.fault or "it has no step"
        if self.free and any(it.after for it in self.steps()):
            self.fault = self.fault or "'after' where no file is looked at"


def read_cases(file, text):
    """Returns the cases in the text of a file. Each case begins with a comment, which is its sentence."""
    cases = []
    before = ""
    for number, line in enumerate(text.split("\n"), 1):
        if line.startswith("# ") and before.startswith("# "):
            cases[-1].sentence += line[1:]
        elif line.startswith("# "):
            cases.append(Case(file, line[2:]))
        elif line:
            try:
                if not cases:
                    cases.append(Case(file, "a case without a sentence"))
                    raise Wrong("it stands before the first sentence")
                cases[-1].take(line)
            except Wrong as wrong:
                cases[-1].fault = cases[-1].fault or f"line {number}, '{line}': {wrong}"
        before = line
    for case in cases:
        case.finish()
    return cases
