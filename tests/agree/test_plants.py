"""Plants errors in copies of the repository. `make agree` must report each of them, with a message that names the
error."""
import concurrent.futures
import os
import pathlib
import queue
import re
import shutil
import subprocess
import tempfile
import unittest

TOP = pathlib.Path(__file__).resolve().parent.parent.parent
FOLDERS = "crates scripts docs man completion tests".split()

AGREE = ["bash", "scripts/agree.sh"]
WORDS, FAULTS, LIMITS = (["env", "PYTHONPATH=scripts", "python3", f"scripts/agree/{part}.py"]
                         for part in ("words", "faults", "limits"))
ROWS = ["python3", "scripts/promises.py"]
PATHS = ["python3", "scripts/paths.py"]
STATEMENT = ["python3", "scripts/statement.py", "--check"]
CRATES = ["python3", "scripts/crates.py"]
TWICE = ["python3", "scripts/twice.py"]

# Each plant has the command that must report it, the file, a pattern whose first match is replaced, the new text, and
# the expected message. Plants with AGREE must be reported by agree.sh as a whole, and the others by one part of it.
PLANTS = {
    "a clause of another call": (
        AGREE, "README.md", r"`session`: `unsent`, `same`, `restorable`", "`probe`: `unsent`, `same`, `restorable`",
        r"README.md:\d+: `probe` has no clause `unsent`: crates/nor_probe/src/"),
    "what a caller owes for a clause": (
        ROWS, "docs/PROMISES.md", r"`rehearse`, `restores_original`", "`rehearse`, `fresh`",
        "`rehearse` has no clause `fresh`"),
    "a call that isn't there": (
        ROWS, "docs/PROMISES.md", r"`Layout::include`: ", "`Layout::includes`: ",
        "there is no call, law or definition `Layout::includes`"),
    "a type's call that it hasn't": (
        ROWS, "docs/PROMISES.md", r"`transfer` of `SimBus` and `TraceBus`", "`transfer` of `SimBus` and `MemVault`",
        "`MemVault::transfer`"),
    "one call of several without the clause": (
        ROWS, "docs/PROMISES.md", r"`session`, `restore`: `honest_errors`", "`session`, `rehearse`: `honest_errors`",
        "`rehearse` has no clause `honest_errors`"),
    "a definition that the clause doesn't say": (
        ROWS, "docs/PROMISES.md", r"`honest` \(`IsNoBusError`\)", "`modelled` (`IsNoBusError`)",
        "`modelled` doesn't say `IsNoBusError`"),
    "a field that a record hasn't": (
        ROWS, "docs/PROMISES.md", r"`MayChange`: `gentle`", "`MayChange`: `gently`", "`MayChange` has no `gently`"),
    "a law among laws that isn't there": (
        ROWS, "docs/PROMISES.md", r"`restore_written_over`, `same_written_over`",
        "`restore_written_over`, `same_written`", "no clause `same_written`"),
    "two promises as one": (
        ROWS, "docs/PROMISES.md", r"`session`, `restore`: `unwritten`, `spares`",
        "`session`: `unwritten`, `restore`: `spares`", "two colons between names"),
    "a parenthesis that is open": (
        ROWS, "docs/PROMISES.md", r"`done` \(`IsReportedFor`\) \|", "`done` (`IsReportedFor` |",
        "a parenthesis isn't closed"),
    "a function for a test": (
        ROWS, "docs/PROMISES.md", r"`a_busy_chip_is_waited_for`", "`stop_at_each`",
        "there is no test `stop_at_each`"),
    "a goal that isn't there": (
        ROWS, "docs/PROMISES.md", r", `make sweep`", ", `make sweeps`", "the Makefile has no goal `sweeps`"),
    "a transcript that isn't there": (
        ROWS, "docs/PROMISES.md", r"`all sets of W25Q64FV`", "`all sets of W25Q32FV`",
        "has no case `all sets of W25Q32FV`"),
    "a premise that isn't there": (
        ROWS, "docs/PROMISES.md", r"\| `IsModelled` \|", "| `IsModeled` |", "there is no name `IsModeled`"),
    "a table without its column": (
        ROWS, "README.md", r"\| Promise \| Call, clause \|", "| Promise | Call |",
        "README.md has no table with a column 'Call, clause'"),
    "an edit that isn't there": (
        AGREE, "docs/TESTING.md", r"mutant in `must-fail/`", "mutant in `nor_scan/must-fail/seal_when_stoped.edit`",
        r"docs/TESTING.md:\d+: there is no nor_scan"),
    "a crate that the page doesn't name": (
        PATHS, "docs/ARCHITECTURE.md", r"\| `nor_geometry` \|.*\n", "", "docs/ARCHITECTURE.md names no crate nor_geometry"),
    "a source without a head": (
        PATHS, "crates/nor_plan/src/set.rt", r"//!.*\n", "", "crates/nor_plan/src/set.rt has no head"),
    "a head's file of another crate": (
        PATHS, "crates/nor_read/src/lib.rt", r"`specs/Reading\.antt`", "`specs/Saving.antt`",
        "there is no specs/Saving.antt"),
    "a head's name that isn't there": (
        PATHS, "crates/nor_read/src/protection.rt", r"`wp_status`", "`wp_state`", "there is no wp_state"),
    "a page's definitions in another crate": (
        PATHS, "docs/ARCHITECTURE.md", r"`specs/Within` says", "`specs/Guard` says", "there is no specs/Guard"),
    "an option that the help hasn't": (
        AGREE, "tests/flashnor/cases/help.case", r"(?m)^\|       --unlock .*\n", "",
        "options: manual has '--unlock', help hasn't"),
    "an option that the completion offers": (
        WORDS, "completion/flashnor.bash", r"--journal --rehearse -h", "--journal --rehearse --force -h",
        "all options: completion has '--force', help hasn't"),
    "an option whose files the completion doesn't offer": (
        WORDS, "completion/flashnor.bash", r"-w \| -v \| -l \| --restore\) _f", "-w | -v | -l) _f",
        "options with files: help has '--restore', completion hasn't"),
    "a key that the parser hasn't": (
        WORDS, "crates/nor_args/src/flaws.rt", r'"busy" =>', '"delay" =>', "keys: parser has 'delay', help hasn't"),
    "a name that the completion offers for -c": (
        WORDS, "completion/flashnor.bash", r"W25Q128FV\)", "W25Q128JV)",
        "names for -c: completion has 'W25Q128JV', printed hasn't"),
    "an ID of a known chip": (
        WORDS, "docs/SPECIFICATION.md", r"EF 40 18", "EF 40 19",
        "known chips: SPECIFICATION has 'W25Q128FV ef4019 16777216'"),
    "a size of an emulated chip": (
        WORDS, "README.md", r"TINY64 \(64 KiB", "TINY64 (32 KiB", "emulated chips: README has .*32768"),
    "an option that flashnor hasn't, beside flashrom's": (
        WORDS, "docs/FLASHROM.md", r"with `--unlock`", "with `--unlocks`",
        "all options: pages has '--unlocks', help hasn't"),
    "a key that flashnor hasn't, beside flashrom's": (
        WORDS, "docs/FLASHROM.md", r"`busy=N`", "`busier=N`",
        "keys with values: FLASHROM has 'busier=N', help hasn't"),
    "a glossary's name that isn't there": (
        PATHS, "docs/GLOSSARY.md", r"`CanRestore`", "`CanGiveBacks`",
        r"docs/GLOSSARY.md:\d+: there is no CanGiveBacks"),
    "a test that isn't there, for what only tests show": (
        ROWS, "docs/TESTING.md", r"`a_spoilt_reply_is_taken_as_it_is`", "`a_spoilt_reply_is_taken_anyway`",
        r"docs/TESTING.md:\d+: there is no test `a_spoilt_reply_is_taken_anyway`"),
    "a version without its date": (
        WORDS, "CHANGELOG.md", r"(?m)^(## \[\d[^]]*\]) - .*", "## [1.0]", "version: nothing found in CHANGELOG"),
    "a message of an error": (
        AGREE, "man/flashnor.8", r"(?m)^8\trange not", "8\trange never",
        "pages has 'Error 8: range never offered.', sources hasn't"),
    "an error that a page shows": (
        FAULTS, "README.md", r"Error 12: stopped", "Error 12: halted", "errors shown: README has 'Error 12: halted.'"),
    "an error less of hardware": (
        FAULTS, "man/flashnor.8", r"(?m)^14\t.*\n", "", "sources has 'Error 14: bytes differ at _.', pages hasn't"),
    "a usage fault less": (
        FAULTS, "man/flashnor.8", r"(?m)^10\t.*\n", "", "numbers of Usage faults: sources has '10', page hasn't"),
    "an option of a usage fault": (
        FAULTS, "man/flashnor.8", r"(?m)^8\t\\-n or", "8\t\\-c or", "options of usage faults: manual has '8 -c'"),
    "a file fault in two lines": (
        FAULTS, "man/flashnor.8", r"(?m)^5\tT\{\nhas two", "6\tT{\nhas two", "numbers of File faults: page has '6'"),
    "an SFDP fault of another number": (
        FAULTS, "docs/SPECIFICATION.md", r"\| 8 \| the 4 KiB", "| 9 | the 4 KiB",
        "numbers of SFDP faults: page has '9'"),
    "the length of a journal": (
        AGREE, "man/flashnor-journal.5", r"takes 61 bytes", "takes 53 bytes",
        "bytes of an empty journal: 61 in the sources, journal has 53"),
    "a limit that no page has": (
        LIMITS, "docs/SPECIFICATION.md", r"65,536 polls in a row", "many polls in a row",
        "polls: 65,536 in the sources, and no page has '# polls in a row'"),
    "an exit status": (
        LIMITS, "man/flashnor.8", r"(?m)^1\tThere was", "3\tThere was", "exit statuses: manual has '3'"),
    "a result that isn't printed": (
        FAULTS, "man/flashnor.8", r"(?m)^Mode: open", "Mode: open, idle",
        "lines of results: examples has 'Mode: _, idle'"),
    "a field that the page hasn't": (
        AGREE, "docs/STATEMENT.md", r"(?m)^  restorable : .*\n", "", "STATEMENT.md is to have '  restorable : "),
    "a page that is too long": (
        STATEMENT, "crates/nor_session/specs/Headline.antt", r"(?m)^  pub unsent : ",
        "".join(f"  pub unsent{at} : vault.sealed ≡ vault.sealed\n" for at in range(40)) + "  pub unsent : ",
        r"docs/STATEMENT.md has 2\d\d lines, at most 220"),
    "a library that a crate doesn't use": (
        AGREE, "crates.txt", r"(?m)^nor_read: ", "nor_read: nor_apply ",
        "crates.txt is to have 'nor_read: nor_request "),
    "a library that only a definition names": (
        CRATES, "crates/nor_plan/specs/Bytes.antt", r"\A", "use Rattle.nor_journal.specs.Vault.{IsFresh}\n",
        "crates.txt is to have 'nor_plan: nor_journal "),
    "a library of the kit that only a source names": (
        CRATES, "crates/nor_layout/src/positions.rt", r"use crate::ranges::Span;", "use crate::ranges::Span;\nuse hex::encode;",
        "crates.txt is to have 'nor_layout: nor_geometry arrayvec hex'"),
    "a crate below one that it uses": (
        CRATES, "crates.txt", r"nor_geometry:\nnor_model: nor_geometry bitflags\n",
        "nor_model: nor_geometry bitflags\nnor_geometry:\n", "crates.txt is to have nor_geometry above nor_model"),
    "a definition with another one's name": (
        AGREE, "crates/bench/specs/Words.antt", r"\Z", "\nabbrev pub sector_count : ℕ\nsector_count = 1\n",
        r"sector_count is defined at crates/bench/specs/Words.antt:\d+ and crates/nor_geometry/specs/Counts.antt:\d+"),
    "a name that needn't be allowed": (
        TWICE, "scripts/twice.py", r'"cause_of ', '"cause_of CanRestore ',
        "ALLOWED of scripts/twice.py has CanRestore"),
    "a name that the headline's page doesn't use": (
        STATEMENT, "scripts/statement_parts.py", r'"IsFresh": ', '"OnlyReads": "`OnlyReads`", "IsFresh": ',
        "NAMES of scripts/statement_parts.py has what STATEMENT.md doesn't use: OnlyReads"),
    "a name that no appendix has": (
        STATEMENT, "scripts/statement_parts.py", r'(?m)^ +"is_known_running": "nor_model.*\n', "",
        "no appendix has is_known_running"),
    "a clause of the page that isn't there": (
        STATEMENT, "scripts/statement_parts.py", r"sessions.rt keeps always", "sessions.rt keeps ever",
        "'session' has no clause ever"),
    "a name of the prose that no definition has": (
        STATEMENT, "scripts/statement_page.md", r"\(`restores_original`\)", "(`restores_chip`)",
        "names restores_chip, which no definition has"),
    "a definition without a place in the prose": (
        STATEMENT, "scripts/statement_page.md", r" -IsAccepted\}", "}", "has no place for IsAccepted"),
    "a definition with two places in the prose": (
        STATEMENT, "scripts/statement_page.md", r" -IsAccepted\}", " -IsAccepted -IsSame}",
        "has 'quote -IsSame' once too often"),
    "a description without a place in the prose": (
        STATEMENT, "scripts/statement_page.md", r" is_known_running\}", "}", "has no place for is_known_running"),
    "a description of another name": (
        STATEMENT, "scripts/statement_parts.py", r"`IsChip chip`: ", "`IsSame chip`: ",
        "describes another name than IsChip"),
    "a name of a library without its notation": (
        STATEMENT, "docs/NOTATION.md", r"`bit_and a b`, ", "", "docs/NOTATION.md doesn't explain bit_and"),
    "a notation that no formula has": (
        STATEMENT, "docs/NOTATION.md", r"\| `codes s`, ", "| `codes s`, `words s`, ",
        "docs/NOTATION.md explains words, which the pages don't have"),
}

if shutil.which("rt"):
    PLANTS["another kit"] = (
        WORDS, "README.md", r"`rattle-kit-\w+`.*logic", "`rattle-kit-none`, logic", "README doesn't name 'rattle-kit-")
    PLANTS["a kit with another logic"] = (
        WORDS, "README.md", r"logic `\w+`", "logic `none`", "the kit's logic: README has 'none', rt hasn't")

# These changes of the sources' layout change no meaning. Each has the part that reads the file, the file, a pattern,
# and the text that replaces its first match. test_sources.py has the changes of functions and their contracts.
HARMLESS = {
    "a constant on three lines": (
        LIMITS, "crates/nor_layout/src/region.rt", r"usize = 64;", "usize =\n    // most\n    64;"),
    "a message in another form": (
        FAULTS, "crates/nor_request/src/refusal.rt", r'f\.write_str\("stopped"\)',
        '{\n                "stopped".fmt(f)\n            }'),
    "a key on two lines": (WORDS, "crates/nor_args/src/flaws.rt", r'"busy" =>', '"busy"\n                =>'),
}


class Trees:
    """A number of copies of the files that agree.sh reads. No two runs use the same copy at a time."""

    def __init__(self, folder, count):
        self.free = queue.Queue()
        for number in range(count):
            tree = pathlib.Path(folder) / str(number)
            for name in FOLDERS:
                shutil.copytree(TOP / name, tree / name, ignore=shutil.ignore_patterns("out", "__pycache__"))
            for file in TOP.iterdir():
                if file.is_file():
                    shutil.copy(file, tree / file.name)
            self.free.put(tree)

    def run(self, words, *changes):
        """Changes a copy of the repository, runs a command there, and undoes the changes. Each change has a file, a
        pattern whose first match is replaced, and the new text. Returns the exit status and the lines that report
        differences. If a pattern doesn't change its file, returns None and a line that names both instead."""
        tree = self.free.get()
        old = {file: (tree / file).read_text(encoding="utf-8") for file, *_ in changes}
        try:
            for file, pattern, text in changes:
                now = (tree / file).read_text(encoding="utf-8")
                new = re.sub(pattern, lambda _: text, now, count=1)
                if new == now:
                    return None, [f"{file} has no {pattern}"]
                (tree / file).write_text(new, encoding="utf-8")
            ended = subprocess.run(words, cwd=tree, capture_output=True, text=True, encoding="utf-8", check=False)
            lines = (ended.stdout + ended.stderr).splitlines()
            return ended.returncode, [line for line in lines if "DIFFERS: " in line]
        finally:
            for file, text in old.items():
                (tree / file).write_text(text, encoding="utf-8")
            self.free.put(tree)


def is_told(name, result):
    """Returns whether a run ended with status 1, and printed the message of this plant."""
    status, lines = result
    return status == 1 and any(re.search(PLANTS[name][4], line) for line in lines)


class Plants(unittest.TestCase):
    """Checks the output of agree.sh and its parts for each plant.

    Each run of a part reads all sources again, so all plants of a part are tried together. If a plant is not reported
    then, it is tried by itself, since another plant may have hidden it. The part STATEMENT ends at its first
    difference, so each of its plants is tried by itself. The plants for agree.sh as a whole are in different files.
    """

    def test_each_plant_is_refused(self):
        groups = {}
        for name, (words, *_) in PLANTS.items():
            groups.setdefault(name if words is STATEMENT else tuple(words), []).append(name)
        self.assertEqual(len({PLANTS[name][1] for name in groups[tuple(AGREE)]}), 8)
        count = os.cpu_count() or 1
        with tempfile.TemporaryDirectory() as folder, concurrent.futures.ThreadPoolExecutor(count) as pool:
            trees = Trees(folder, count)

            def plant(names):
                return trees.run(PLANTS[names[0]][0], *(PLANTS[name][1:4] for name in names))

            parts = sorted({tuple(words) for words, *_ in PLANTS.values()})
            tried = pool.map(plant, groups.values())
            right = dict(zip(parts, pool.map(trees.run, parts)))
            results = {name: result for names, result in zip(groups.values(), tried) for name in names}
            hidden = [name for name, result in results.items() if not is_told(name, result)]
            results.update(zip(hidden, pool.map(plant, [[name] for name in hidden])))
        for name, (words, *_, wanted) in PLANTS.items():
            with self.subTest(name):
                status, lines = results[name]
                self.assertEqual(status, 1, "\n".join(lines))
                self.assertTrue(is_told(name, results[name]), "\n".join(lines))
                before = right[tuple(words)][1]
                self.assertFalse(any(re.search(wanted, line) for line in before), f"told without a fault: {wanted}")

    def test_each_harmless_change_is_accepted(self):
        with tempfile.TemporaryDirectory() as folder:
            trees = Trees(folder, 1)
            for name, (words, *change) in HARMLESS.items():
                with self.subTest(name):
                    self.assertEqual(trees.run(words, change), (0, []))


if __name__ == "__main__":
    unittest.main()
