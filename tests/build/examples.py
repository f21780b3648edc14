#!/usr/bin/env python3
"""tests/build/examples.py: compiles and runs the example in the first comment of each library that has one.

This comment is at the start of the library's src/lib.rt. Each example becomes a test of one temporary crate, which `rt
try --test` runs. The example must compile as it is, and its assertions must hold; nothing is proved. In the test's
module, the imports and items of the example come before the test function. The last line is `N passed, M failed`.
"""
import os
import re
import shutil
import subprocess
import sys
import tempfile
from pathlib import Path

TOP = Path(__file__).resolve().parents[2]
NAME = "first_pages"
# If a step of the example fails, the test returns this error, which may have any type.
TEST = """#![tactic(auto)]
//! The example of {crate}.
{items}
#[test]
fn of_{crate}(rt: HostRuntime) -> Result<(), anyhow::Error> {{
{body}
    Ok(())
}}
"""


def example(text):
    """Returns the lines of the example in the first comment of a source, or an empty list if there is none. Raises
    ValueError if there are several."""
    page = [line[3:].removeprefix(" ") for line in text.splitlines() if line.startswith("//!")]
    found = re.findall(r"^```rust\n(.*?)^```$", "\n".join(page) + "\n", re.MULTILINE | re.DOTALL)
    if len(found) > 1:
        raise ValueError("a first page has more than one example")
    return found[0].splitlines() if found else []


def test_of(crate, lines):
    """Returns a module with the example as a test. The test's body begins with the first line that is a statement."""
    first = next(n for n, line in enumerate(lines) if re.match(r"(let|assert\w*)\b", line))
    body = "\n".join(f"    {line}" for line in lines[first:])
    return TEST.format(crate=crate, items="\n".join(lines[:first]), body=body).replace("#![tactic(auto)]\n", "", 1)


def libraries():
    """Returns the libraries of the repository, in the order of crates.txt."""
    rows = [line for line in (TOP / "crates.txt").read_text(encoding="utf-8").splitlines() if line[:1] not in ("", "#")]
    names = [row.split(":")[0].split()[0] for row in rows]
    return [name for name in names if (TOP / "crates" / name / "src/lib.rt").exists()]


def lay_out(work):
    """Copies the sources, and writes the temporary crate next to them. Returns the names of the crates that have an
    example."""
    for name in os.listdir(TOP / "crates"):
        shutil.copytree(TOP / "crates" / name, work / "crates" / name, ignore=shutil.ignore_patterns("out", "must-fail"))
    shutil.copy(TOP / "HANDLES", work)
    source = work / "crates" / NAME / "src"
    source.mkdir(parents=True)
    shown = []
    for crate in libraries():
        lines = example((TOP / "crates" / crate / "src/lib.rt").read_text(encoding="utf-8"))
        if lines:
            (source / f"on_{crate}.rt").write_text(test_of(crate, lines), encoding="utf-8")
            shown.append(crate)
    modules = "".join(f"mod on_{crate};\n" for crate in shown)
    (source / "lib.rt").write_text(f"//! The examples.\n#![tactic(auto)]\n{modules}", encoding="utf-8")
    stands_on = " ".join(shown + ["anyhow"])
    rows = (TOP / "crates.txt").read_text(encoding="utf-8")
    (work / "crates.txt").write_text(f"{rows}{NAME}: {stands_on}\n", encoding="utf-8")
    return shown


def main():
    with tempfile.TemporaryDirectory() as folder:
        work = Path(folder)
        shown = lay_out(work)
        ran = subprocess.run(["rt", "try", "--test"], cwd=work / "crates" / NAME, capture_output=True, text=True,
                             check=False)
    passed = set(re.findall(r"^test on_\w+::of_(\w+) \.\.\. ok$", ran.stdout, re.MULTILINE))
    failed = [crate for crate in shown if crate not in passed]
    if failed or ran.returncode != 0:
        print(ran.stdout, ran.stderr, sep="\n")
    for crate in failed:
        print(f"FAILED: the example of {crate}")
    print(f"{len(shown) - len(failed)} passed, {len(failed)} failed")
    return 1 if failed or not shown or ran.returncode != 0 else 0


if __name__ == "__main__":
    sys.exit(main())
