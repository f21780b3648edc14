#!/usr/bin/env python3
"""tests/build/make.py: tests the Makefile, in a copy of the repository (tree.py). These are the main requirements:

- No target uses a program that is older than its sources.
- An archive has all pages to which its pages link, and names the toolchain and the commit of each program. Equal files
  result in equal archives.
- `make quick` runs each program with the files of its crate. It detects a program that doesn't compile, or (except
  bench) doesn't print or end as it must, and a library that doesn't compile.
- `make case` fails if its case gives no result.
- `make prove` proves a crate and those that depend on it.
- `make demo` runs the first example of README, and leaves a program.

The last line is `N passed, M failed`.
"""
import re
import shutil
import sys
import tempfile
from pathlib import Path

from archives import complete, installed, lacking, packed, repeated
from tree import PROGRAM, SOURCE, TOP, Tree

# These commands replace `rt try`. They print that the run ended without a result, although their exit status is 0.
SILENT = "echo 'run=no-answer proved=no' >&2; exit 0\n"
TARGETS = ["install", "dist", "runs", "serprog", "wire", "sweep", "kill", "compare"]


def stale(tree, expect):
    """Checks that no target uses a program that is older than its sources."""
    expect("no program", tree.would_build(*TARGETS), TARGETS)
    tree.make("build")
    expect("only flashnor", tree.would_build(*TARGETS), ["install", "dist", "serprog", "wire"])
    tree.make()
    expect("new programs", tree.would_build(*TARGETS), [])
    tree.edit()
    expect("a source that was edited", tree.would_build(*TARGETS), TARGETS)
    (tree.top / "crates/transcripts/out").mkdir()
    shutil.copy2(tree.top / PROGRAM, tree.top / "crates/transcripts/out/transcripts")
    said = tree.make("quick")[1].splitlines()
    for what in ("program", "transcripts"):
        expect(f"an old {what} in quick", [it for it in said if f"the built {what}" in it],
               [f"not run: the built {what} is older than {SOURCE}"])
    tree.make("build")
    (tree.top / "crates/nor_chip/specs/More.antt").touch()
    expect("a new source", tree.would_build("runs"), ["runs"])
    tree.make("build")
    (tree.top / "crates/nor_chip/specs/More.antt").unlink()
    expect("a source that was removed", tree.would_build("runs"), ["runs"])
    tree.make("build")
    tree.edit("crates.txt", "#\n")
    expect("another list of crates", tree.would_build("runs"), ["runs"])


QUICK = "the program {}".format
WRONG_TRIES = {
    "a program that prints something else": ("own_bus", "echo A chip.", QUICK("own_bus")),
    "a program that prints more": ("flashnor", "cat stdout; echo more", QUICK("flashnor")),
    "a program that ends with another status": (
        "flashnor_serprog", "echo 'run=ended status=0 runners=1 proved=no' >&2; exit 0", QUICK("flashnor_serprog")),
    "a program that is refused with the status that it must have": (
        "flashnor_serprog", "echo 'error: a type' >&2; exit 1", QUICK("flashnor_serprog")),
    "a program that gives no answer": (
        "flashnor_serprog", SILENT.replace("exit 0", "exit 1"), QUICK("flashnor_serprog")),
    "a case that fails": ("transcripts", "echo 0 passed, 1 failed", QUICK("transcripts")),
    "a program that does not compile": ("bench", "exit 1", QUICK("bench") + ", only compiled"),
    "a program that isn't compiled in time": ("bench", "exit 124", QUICK("bench") + ", only compiled"),
    "tests that don't compile": ("rows", "exit 1", "the tests of rows, only compiled"),
}
# If a library has no tests, `make quick` tries another crate in its place: a program or tests that depend on it. Each
# entry has this crate (None if there is none), and the name that `make quick` prints for the try.
TRIED_FOR = {
    "nor_args": ("flashnor", QUICK("flashnor")),
    "nor_serprog": ("flashnor_serprog", QUICK("flashnor_serprog")),
    "serprog_session": ("rows", "the tests of rows, only compiled"),
    "unused": (None, "the tests of unused"),
}


def tried(tree, expect):
    """Checks that `make quick` runs each program as `rt ci` does, and detects programs and libraries that don't
    compile, and programs that don't do what they must."""
    tree.put("a tree/scripts/agree.sh", "")
    for folder in (*tree.top.glob("crates/*/proofs"), *tree.top.glob("crates/*/specs")):
        shutil.rmtree(folder)
    tree.commit()
    status, said = tree.make("quick")
    expect("a quick look", (status, said.splitlines()[-1]), (0, "quick: 10 passed, 0 failed"))
    given = {path.name: path.read_text(encoding="utf-8").strip() for path in (tree.work / "tried").iterdir()}
    programs = {path.parent.parent.name for path in tree.top.glob("crates/*/src/main.rt")}
    expect("the crates that are tried", {it for it in given if "." not in it}, programs | {"rows"})
    for crate in sorted(programs - {"storm", "transcripts"}):
        files = [tree.top / "crates" / crate / it for it in ("data", "args")]
        data = sorted(it.name for it in files[0].iterdir()) if files[0].exists() else []
        words = files[1].read_text(encoding="utf-8").splitlines() if files[1].exists() else []
        expect(f"what {crate} is given", re.sub(r"^try --seconds \d+ ", "", given[crate]),
               " ".join([*(f"--data {it}=data/{it}" for it in data), "--", *words]))
    expect("the cases that transcripts is given", re.findall("(?m)^case ", given["transcripts.stdin"]), ["case "])
    expect("the cases that storm is given", given["storm"].split()[-3:], ["--", "1", "1"])
    shutil.rmtree(tree.work / "tried")
    status, said = tree.make("quick", "CRATES=rows flashnor nor_plan")
    expect("a quick look at some crates", (status, said.splitlines()[-1]), (0, "quick: 4 passed, 0 failed"))
    expect("those crates", {it.stem for it in (tree.work / "tried").iterdir()}, {"rows", "flashnor"})
    expect("a quick look at no crate", tree.make("quick", "CRATES=nor_plans")[0] != 0, True)
    for what, (crate, script, _) in WRONG_TRIES.items():
        shutil.rmtree(tree.work / "as", ignore_errors=True)
        tree.put(f"as/{crate}", script if "exit" in script else
                 f"{script}; echo 'run=ended status=0 runners=1 proved=no' >&2; exit 0")
        status, said = tree.make("quick", f"CRATES={crate}")
        expect(what, (status != 0, re.findall("(?m)^(.*): FAILED$", said)), (True, [WRONG_TRIES[what][2]]))
    tree.edit("crates.txt", "unused: nor_args\n")
    tree.put("a tree/crates/unused/src/lib.rt", "")
    for library, (crate, name) in TRIED_FOR.items():
        shutil.rmtree(tree.work / "as", ignore_errors=True)
        if crate:
            tree.put(f"as/{crate}", "echo 'error: a type' >&2; exit 1\n")
        status, said = tree.make("quick", f"CRATES={library}")
        expect(f"a library that doesn't compile: {library}", (status != 0, re.findall("(?m)^(.*): FAILED$", said)),
               (True, [name]))


def played(tree, expect):
    """Checks that `make case` plays the case with the given name, on the built program if there is a current one, and
    fails if it gets no result."""
    text = (tree.top / "crates/transcripts/stdin").read_text(encoding="utf-8")
    names = re.findall("(?m)^case (.*)", text)
    for name in names[0], names[-1]:
        expect(f"the case '{name}'", tree.make("case", f"NAME={name}"), (0, "1 passed, 0 failed\n"))
        given = (tree.work / "tried/transcripts.stdin").read_text(encoding="utf-8").splitlines()
        lines = text.splitlines()
        first = lines.index(f"case {name}")
        last = next((n for n, line in enumerate(lines) if n > first and line.startswith("case ")), len(lines))
        lines[:first], lines[last:] = [""] * first, [""] * (len(lines) - last)
        expect(f"the lines of the case '{name}'", given, lines)
    status, said = tree.make("case", f"NAME={names[0]}s")
    expect("the status of a case that isn't there", status != 0, True)
    expect("what is said of it", [it in said for it in (f"has no case '{names[0]}s'", names[-1])], [True, True])
    for what, script, printed in (
            ("a case without an answer", SILENT, f"the case '{names[0]}' gave no answer"),
            ("a program that is refused", "echo 'error: a type' >&2; exit 1\n", "error: a type"),
            ("a case that fails", "echo 'a: line 5: x.'; echo 0 passed, 1 failed; "
                                  "echo 'run=ended status=1 runners=1 proved=no' >&2; exit 1\n", "a: line 5: x.")):
        tree.put("as/transcripts", script)
        status, said = tree.make("case", f"NAME={names[0]}")
        expect(what, (status != 0, printed in said.splitlines()), (True, True))
    tree.put("a tree/crates/transcripts/out/transcripts",
             "#!/bin/sh\ncat > ../../../given\necho 1 passed, 0 failed\n", 0o755)
    expect("a case of the built program", tree.make("case", f"NAME={names[-1]}"), (0, "1 passed, 0 failed\n"))
    given = (tree.work / "given").read_text(encoding="utf-8")
    expect("what the built program is given", f"case {names[-1]}\n" in given, True)
    tree.edit()
    expect("a case of an old program", tree.make("case", f"NAME={names[0]}")[0] != 0, True)


def proved(tree, expect):
    """Checks that `make prove` proves a crate and the crates that depend on it, and reports those that aren't
    proved."""
    (tree.top / "crates.txt").write_text("low:\nmiddle: low\nother:\nhigh: other middle\n", encoding="utf-8")
    for crate in "low middle other high".split():
        (tree.top / "crates" / crate).mkdir()

    def prove(*words):
        (tree.work / "checked").unlink(missing_ok=True)
        status, said = tree.make("prove", *words)
        checked = tree.work / "checked"
        return status != 0, checked.read_text(encoding="utf-8").split() if checked.exists() else [], said.splitlines()

    for crate, wanted in ("low", "low middle high"), ("other", "other high"), ("high", "high"):
        failed, checked, said = prove(f"CRATE={crate}")
        expect(f"the crates proved with {crate}", (failed, checked, said[-1]),
               (False, wanted.split(), f"prove: {len(checked)} passed, 0 failed"))
    tree.put("refused/middle", "")
    failed, checked, said = prove("CRATE=low")
    expect("a crate that isn't proved", (failed, checked), (True, ["low", "middle"]))
    expect("what is said of it", said[1:4], [
        "a goal of middle", "middle: FAILED", "high: not tried, since it depends on a crate that isn't proved"])
    expect("the counts with it", "prove: 1 passed, 2 failed" in said, True)
    for words in (), ("CRATE=lo",):
        expect(f"no crate {words}", prove(*words)[:2], (True, []))


def cloned(tree, expect):
    """Checks that tests/build/clone.sh runs a command in a directory that has only the tracked files, with their
    uncommitted changes."""
    tree.make("build")
    tree.put("a tree/untracked", "")
    tree.edit(text="// edited\n")
    (tree.top / "README.md").unlink()
    status, said = tree.run("tests/build/clone.sh", "sh", "-c", f"ls; cat {SOURCE}; ls {PROGRAM}; git ls-files; exit 3")
    expect("the status in a clone", status, 3)
    found = [it in said.splitlines() for it in ("untracked", "README.md", "Makefile", "// edited")]
    expect("the files of a clone", found, [False, False, True, True])
    expect("the programs of a clone", f"\n{PROGRAM}\n" in said, False)


def shown(tree, expect):
    """Checks that `make demo` prints and runs the first example of README, even if nothing is built, and prints how to
    go on."""
    readme = (TOP / "README.md").read_text(encoding="utf-8")
    example = readme[readme.index("$ flashnor ") :].splitlines()[0]
    program = tree.top / "out/demo/flashnor"

    def demo(what, *wanted):
        status, said = tree.make("demo")
        said = said.splitlines()
        expect(what, (status, said[:-1]), (0, list(wanted)))
        way = said[-1].partition(": ")[2].removesuffix(")")
        found = tree.run("bash", "-c", f"{way}; ls; command -v flashnor; flashnor 1 2")[1].split("\n")
        expect(f"the files after {what}", (found[0], found[2], found[4]), ("chip.bin", "new.bin", str(program)))
        return found[5]

    unproved = "(this program isn't proved; 'make' proves and builds it)"
    ran = f"unproved: {example.removeprefix('$ flashnor ')}"
    expect("the program after a demo", demo("a demo without a program", unproved, example, ran), "unproved: 1 2")
    shutil.rmtree(tree.work / "tried")
    demo("a second demo", unproved, example, ran)
    expect("what a second demo compiles", (tree.work / "tried").exists(), False)
    tree.edit()
    demo("a demo of other sources", unproved, example, ran)
    expect("what a demo of other sources compiles", (tree.work / "tried/flashnor").exists(), True)
    tree.make("build")
    demo("a demo of the program", example, str(tree.builds()))
    tree.edit()
    demo("a demo after the program", unproved, example, ran)
    expect("the built program after it", tree.run(tree.top / PROGRAM)[1].strip(), str(tree.builds()))
    tree.edit()
    tree.put("as/flashnor", "echo 'error: a type' >&2; exit 1\n")
    status, said = tree.make("demo")
    expect("a demo that isn't compiled", (status != 0, "error: a type" in said.splitlines()), (True, True))


def wrong(tree, expect):
    """Checks that these tests detect a Makefile whose programs don't depend on the sources, and one that packs too few
    pages."""
    path = tree.top / "Makefile"
    text = path.read_text(encoding="utf-8")
    path.write_text(re.sub(r"(?m)^(\$\(BUILT\w*\)): \$\(SOURCES\)$", r"\1:", text), encoding="utf-8")
    tree.make()
    tree.edit()
    expect("a Makefile that forgets the sources", tree.would_build(*TARGETS), [])
    path.write_text(re.sub(r"(?m)^PAGES = .*", "PAGES = README.md docs/FAQ.md", text), encoding="utf-8")
    expect("a Makefile that packs few pages", "docs/PROMISES.md" in lacking(tree.archive()), True)


def main():
    counts = {True: 0, False: 0}
    if not (TOP / ".git").exists() or not shutil.which("git"):
        print("skipped: make, since this is no git repository")
        return 0

    def expect(what, got, wanted):
        counts[got == wanted] += 1
        if got != wanted:
            print(f"FAILED: make.py: {what}: wanted {wanted}, got {got}")

    for trial in (stale, tried, played, proved, cloned, installed, packed, complete, repeated, shown, wrong):
        with tempfile.TemporaryDirectory() as work:
            trial(Tree(Path(work)), expect)
    print(f"{counts[True]} passed, {counts[False]} failed")
    return int(counts[False] > 0)


if __name__ == "__main__":
    sys.exit(main())
