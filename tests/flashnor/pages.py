"""Turns the examples of README.md, HOW, the FAQ, flashnor(8) and flashnor-journal(5) into cases.

A line that begins with `$` is a step. The steps run in the order of the page. If such a line of a manual page ends with
a backslash, it continues on the next line. The lines after a step are its output on standard output and standard error.
The pages say that chip.bin and new.bin are those of `make files`, so each case begins with this step. If a page shows a
file with `cat`, the case creates this file. If a page shows a line that begins with `error: ` after a step, the step
runs at a terminal, because the program prints such lines, except those of usage fault 1, only to a terminal.

tests/flashnor/pages.py TEXT: prints the snippet of flashnor(8), an example without `$`, that contains TEXT. Fails if
not exactly one snippet contains it.
"""
import re
import sys
from pathlib import Path

from grammar import Case, File, Step

PAGES = ["README.md", "docs/HOW.md", "docs/FAQ.md", "man/flashnor.8", "man/flashnor-journal.5"]
FAULT = re.compile(r"(Error|File fault|Layout fault|Usage fault) ")


def of_markdown(text):
    """Returns the lines of the examples on a Markdown page. A code block without a step is no example."""
    blocks = [block.split("\n")[1:] for block in text.split("```")[1::2]]
    return [line for block in blocks if any(it.startswith("$ ") for it in block) for line in block]


def examples_of(text):
    """Returns the examples of a manual page, without its formatting."""
    for form, plain in ((r"\\f[BIR]", ""), (r"\\-", "-"), (r"\\\(dq", '"'), (r"\\\(ha", "^"), (r"\\&", ""),
                        (r"\\e", r"\\")):
        text = re.sub(form, plain, text)
    return re.findall(r"^\.EX\n(.*?)^\.EE$", text, re.M | re.S)


def of_manual(text):
    """Returns the lines of the examples on a manual page. A line that ends with a backslash is joined with the next
    line."""
    return re.sub(r" \\\n +", " ", "\n".join(examples_of(text))).split("\n")


def snippet_with(part):
    """Returns the snippet of flashnor(8) that contains this text. Ends the script if not exactly one snippet does."""
    page = Path(__file__).resolve().parents[2] / "man/flashnor.8"
    snippets = [it for it in examples_of(page.read_text(encoding="utf-8")) if not it.startswith("$ ")]
    found = {it for it in snippets if part in it}
    if len(found) != 1:
        sys.exit(f"{len(found)} snippets contain '{part}'")
    return found.pop()


def case_of(name, lines):
    """Returns the case that runs the examples of a page. If the page shows a fault after a step, the step must end with
    status 1."""
    case = Case(name, f"The examples of {name}, in their order.", free=True)
    case.parts.append(Step('make files SCRATCH="$PWD"'))
    for line in lines:
        if line.startswith("$ cat "):
            case.parts.append(File(line[6:], ""))
        if line.startswith("$ "):
            case.parts.append(Step(line[2:] + " 2>&1" * line.startswith("$ flashnor ")))
        elif line and len(case.parts) > 1:
            step = case.parts[-1]
            step.output.append(line)
            if line.startswith("error: "):
                step.command = f"terminal {step.command}"
            step.status = int(step.status or FAULT.match(line) is not None)
            if step.command.startswith("cat "):
                case.parts[-2].text.append(line)
    if not any(it.is_flashnor() for it in case.steps()):
        case.fault = "no example was found"
    return case


def cases(*files):
    """Returns a case for each page of PAGES. `files` has the paths of their texts, in the same order."""
    texts = [file.read_text(encoding="utf-8") for file in files]
    kinds = [of_markdown if page.endswith(".md") else of_manual for page in PAGES]
    return [case_of(page.rpartition("/")[2], kind(text)) for page, kind, text in zip(PAGES, kinds, texts)]


if __name__ == "__main__":
    print(snippet_with(sys.argv[1]), end="")
