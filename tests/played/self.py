#!/usr/bin/env python3
"""tests/played/self.py PROGRAM: checks that run.py detects mistakes of a program.

PROGRAM is simulated_runs. Each mistake is planted around it: a script calls PROGRAM with its own arguments, and then
changes the chip, the journal or the exit status. The last line is `N passed, M failed`, and the exit status is 1 if
run.py reports a failure without a mistake, or none with one.
"""
import subprocess
import sys
import tempfile
from pathlib import Path

RUN = Path(__file__).resolve().parent / "run.py"
# The script that stands in for the program. `words` are the arguments of flashnor-serprog, `ended` is the exit status.
AROUND = """#!{python}
import os, subprocess, sys
from pathlib import Path
words = sys.argv[3:]
chip, is_restore = Path("chip"), "--restore" in words
before, left = chip.read_bytes(), Path("left").read_bytes()
ended = subprocess.run([{program!r}, *sys.argv[1:]]).returncode
after = bytearray(chip.read_bytes())
{mistake}
chip.write_bytes(after)
sys.exit(ended)
"""
# What each mistake does. The job is `small_write`, whose chip has 64 KiB.
MISTAKES = {
    "a restore changes the first byte": "after[0] ^= is_restore",
    "a restore changes the last byte": "after[0xFFFF] ^= is_restore",
    "a restore sets a protection bit": "after[-2] |= 4 * is_restore",
    "a restore does nothing": "after = before if is_restore else after; ended *= not is_restore",
    "a write does nothing": "after = after if is_restore else before",
    "a write misses its last byte": "after[0xFFFF] |= 0xFF * ('-w' in words)",
    "a write that fails ends with exit status 0": "ended = 0 if '-w' in words else ended",
    "the journal of a write that fails is lost": "if ended and '-w' in words and Path('j').exists(): os.remove('j')",
    "the port keeps no state": "Path('left').write_bytes(left)",
    "a backup contains another byte": "if '--backup' in words: Path('j').write_bytes(Path('j').read_bytes()[::-1])",
}


def fails(program, folder, mistake):
    """Returns whether run.py reports a failure of the program with this mistake."""
    around = Path(folder, "around")
    around.write_text(AROUND.format(python=sys.executable, program=program, mistake=mistake), encoding="utf-8")
    around.chmod(0o755)
    done = subprocess.run([RUN, around, "--most", "12", "small_write"], capture_output=True, text=True)
    return done.returncode != 0 and "FAILED" in done.stdout


def main(program):
    program, wrong = str(Path(program).resolve()), []
    with tempfile.TemporaryDirectory() as folder:
        if fails(program, folder, "pass"):
            wrong.append("the program without a mistake fails")
        wrong += [f"undetected: {name}" for name, mistake in MISTAKES.items() if not fails(program, folder, mistake)]
    print("\n".join(f"FAILED: {it}" for it in wrong), end="\n" if wrong else "")
    print(f"{len(MISTAKES) + 1 - len(wrong)} passed, {len(wrong)} failed")
    return int(bool(wrong))


if __name__ == "__main__":
    sys.exit(main(*sys.argv[1:]))
