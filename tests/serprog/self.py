#!/usr/bin/env python3
"""The command `tests/serprog/self.py PROGRAM [MISTAKE..]` tests whether the cases detect wrong programs.

wrong.py makes wrong programs of PROGRAM, which is the right flashnor-serprog. Each makes one mistake, and the case that
must detect the mistake must fail. With PROGRAM itself these cases must pass. run.py must report both, and that there is
no program. The last line is `N passed, M failed`. If mistakes are named, the command tries only these, and prints what
their cases report.
"""
import os
import subprocess
import sys
from concurrent.futures import ProcessPoolExecutor
from functools import partial
from pathlib import Path

# With this STRIDE, some cases that disturb a job at each transaction try only every ninth one. These are enough to
# detect all mistakes. bench.py reads it when it is imported.
os.environ["STRIDE"] = "9"
import wrong

RUN = Path(__file__).resolve().with_name("run.py")
# A key is a program for run.py. The value has the exit status and the last line of run.py with the case `identifies`.
# The key PROGRAM stands for the right program, and /bin/true does nothing.
COMMANDS = {"PROGRAM": (0, "1 passed, 0 failed"), "/bin/true": (1, "0 passed, 1 failed"), "/none": (1, "")}


def passes(program, name):
    """Runs a case with the right program. Returns what was wrong, as lines."""
    lines = wrong.lines_of(program, "", name)
    return lines and [*lines, f"FAILED: the case {name} with the right program"]


def detects(program, mistake, shows=False):
    """Runs the case that must detect this mistake. Returns what was wrong, as lines."""
    name = wrong.MISTAKES[mistake]
    lines = wrong.lines_of(program, mistake, name)
    if shows:
        print(f"{mistake}:", *lines, sep="\n")
    if lines and "it can't be done" not in "".join(lines):
        return []
    return [*lines, f"FAILED: the case {name} doesn't detect a program that {mistake}"]


def reports(program, stub):
    """Runs run.py with a program of COMMANDS. Returns what was wrong, as lines."""
    words = [sys.executable, RUN, program if stub == "PROGRAM" else stub, "identifies"]
    done = subprocess.run(words, stdout=subprocess.PIPE, stderr=subprocess.DEVNULL, text=True, check=False)
    got = done.returncode, "".join(done.stdout.splitlines()[-1:])
    return [] if got == COMMANDS[stub] else [f"FAILED: run.py with {stub}: got {got}, wanted {COMMANDS[stub]}"]


def tests_of(program, mistakes):
    """Returns the functions that make these tests: of all, or of the given mistakes."""
    if mistakes:
        return [partial(detects, program, it, True) for it in mistakes]
    return [*(partial(reports, program, it) for it in COMMANDS),
            *(partial(passes, program, it) for it in sorted(set(wrong.MISTAKES.values()))),
            *(partial(detects, program, it) for it in wrong.MISTAKES)]


def main(words):
    if not words or not os.access(words[0], os.X_OK) or not set(words[1:]) <= set(wrong.MISTAKES):
        sys.exit("usage: tests/serprog/self.py PROGRAM [MISTAKE..]")
    sys.stdout.reconfigure(errors="backslashreplace", line_buffering=True)
    tests = tests_of(Path(words[0]).resolve(), words[1:])
    failed = 0
    with ProcessPoolExecutor(os.cpu_count(), initializer=wrong.plant_all) as pool:
        for test in [pool.submit(it) for it in tests]:
            lines = test.result()
            failed += bool(lines)
            for line in lines:
                print(line)
    print(f"{len(tests) - failed} passed, {failed} failed")
    return int(failed > 0)


if __name__ == "__main__":
    sys.exit(main(sys.argv[1:]))
