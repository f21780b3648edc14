#!/usr/bin/env python3
"""tests/serprog/emulated.py PROGRAM [KILLS]: tests the program on QEMU's chip w25q64 at a modelled programmer.

The program reads, writes, verifies and restores this chip. Then it is killed, or loses a reply, at random transactions
of a session, of a restore, or of both, and another restore follows. After the first session, and after each restore
that wasn't stopped, QEMU's chip must hold the expected bytes. After QEMU has ended, the file of its chip must hold the
original bytes. `make compare` runs this script if PROGRAM is built; the merge gate doesn't, because it needs QEMU.

QEMU's chip is never busy, and has no status 2, unique ID or SFDP (see scripts/compare/qemu.py).
"""
import os
import random
import shutil
import subprocess
import sys
import tempfile
from pathlib import Path

sys.dont_write_bytecode = True  # so that Python creates no files in scripts/
sys.path.append(str(Path(__file__).resolve().parents[2] / "scripts" / "compare"))
import emulator
import reference
from chip import SECTOR
from compare import PART, images
from server import Server

WRITE = ("-w", "new", "--journal", "j")
RESTORE = ("--restore", "j")
# The events that stop the session and its first restore. An empty text is no event.
PAIRS = (("kill", ""), ("lose", ""), ("", "kill"), ("", "lose"), ("kill", "kill"), ("lose", "lose"))


class Differs(Exception):
    """A check that failed, with a text that says what was wrong."""


class Emulated:
    """QEMU's chip, with the fields and methods that `Server` uses in these runs."""

    operations = polls = 0

    def __init__(self, chip):
        self.transfer = chip.exchange

    def count_anew(self):
        """Does nothing, because the events of these runs have numbers of transactions, not of operations."""


class Bench:
    """A directory in which the program runs, and QEMU's chip."""

    def __init__(self, program, folder, chip):
        self.program, self.folder, self.chip = program, folder, chip

    def run(self, words, event="", at=0):
        """Runs the program, with an event at the transaction `at` if given. Returns the sent bytes of each transaction.

        Raises `Differs` if the event doesn't occur, or if the exit status isn't the one expected after this event.
        """
        server = Server(self.folder / "dev", Emulated(self.chip))
        server.begin({at: event} if event else {})
        try:
            process = subprocess.Popen([self.program, "-p", f"serprog:dev={self.folder}/dev", *words], cwd=self.folder,
                                       stdout=subprocess.PIPE, stderr=subprocess.STDOUT, text=True)
            server.kill_at(process)
            printed, _ = process.communicate(timeout=600)
        finally:
            server.close()
        wanted = {"": 0, "kill": -9, "lose": 1}[event]
        if process.returncode != wanted or server.traits.events:
            raise Differs(f"{' '.join(words)}: status {process.returncode}, not {wanted}: {printed}")
        return [out for out, _ in server.log]

    def check(self, when, data):
        """Checks the bytes of the chip."""
        held = self.chip.exchange(b"\x03\0\0\0", len(data))
        if held != data:
            at = next(at for at, (one, other) in enumerate(zip(held, data)) if one != other)
            raise Differs(f"{when}: 0x{at:06x} is {held[at]:02x}, not {data[at]:02x}")

    def check_journal(self, old, new):
        """Checks that the journal saves exactly the sectors that differ between `old` and `new`."""
        wanted = reference.journal(PART, old, reference.touched(old, new))
        if (self.folder / "j").read_bytes() != wanted:
            raise Differs("the journal differs from the one that the format states")


def run_without_stops(bench, old, new):
    """Reads, writes, verifies and restores the chip. Returns two ranges of transactions, for `run_with_stops`.

    The session and the restore may be stopped at these transactions, which begin with the first modifying command.
    """
    bench.run(("-r", "out"))
    if (bench.folder / "out").read_bytes() != old:
        raise Differs("-r read other bytes")
    found = []
    for words, data in (WRITE, new), (RESTORE, old):
        sent = bench.run(words)
        bench.check(" ".join(words), data)
        found.append(range(sent.index(b"\x06") + 1, len(sent) + 1))
        bench.run(("-v", "new" if data == new else "old"))
    bench.check_journal(old, new)
    return found


def run_with_stops(bench, old, new, chance, numbers, count):
    """Stops a session, a restore, or both in each of `count` rounds, and restores the chip at the end of each round.

    Returns the number of rounds in which the chip differed from the original before the last restore.
    """
    changed = 0
    for number in range(count):
        session, restore = PAIRS[number % len(PAIRS)]
        for name in "j", "j.sectors":
            (bench.folder / name).unlink(missing_ok=True)
        # If the restore is stopped, too, the session is stopped late, because an early stop leaves little to restore.
        bench.run(WRITE, session, chance.choice(numbers[0][-len(numbers[0]) // 4 :] if restore else numbers[0]))
        bench.check_journal(old, new)
        if restore:
            bench.run(RESTORE, restore, chance.choice(numbers[1]) // (2 if session else 1))
        changed += bench.chip.exchange(b"\x03\0\0\0", len(old)) != old
        bench.run(RESTORE)
        bench.check(f"a restore after {session or 'no'} stop of the session and {restore or 'no'} stop of a restore", old)
    return changed


def compare(program, folder, count):
    """Runs all tests on QEMU's chip, and returns the end of the line that `main` prints."""
    old, new = images(False)
    for name, content in ("old", old), ("new", new), ("qemu", old):
        (folder / name).write_bytes(content)
    with emulator.Emulator(folder / "qemu") as chip:
        bench = Bench(program, folder, chip)
        numbers = run_without_stops(bench, old, new)
        changed = run_with_stops(bench, old, new, random.Random("emulated"), numbers, count)
    if (folder / "qemu").read_bytes() != old:
        raise Differs("the file of QEMU's chip differs from the original")
    if changed < count // 2:
        raise Differs(f"only {changed} of {count} stops left a chip that differs from the original")
    sectors = len(old) // SECTOR
    return f"{len(reference.touched(old, new))} of {sectors} sectors written, verified and restored; {count} times " \
        f"stopped and restored, {changed} of these with a changed chip"


def main(words):
    if len(words) not in (1, 2) or not os.access(words[0], os.X_OK):
        sys.exit("usage: tests/serprog/emulated.py PROGRAM [KILLS]")
    if not shutil.which(emulator.QEMU):
        print(f"skipped: the program on QEMU's chip, since {emulator.QEMU} isn't installed")
        return 0
    count = int(words[1]) if len(words) > 1 else 2 * len(PAIRS)
    with tempfile.TemporaryDirectory() as folder:
        try:
            print(f"serprog on {emulator.version()}: {compare(Path(words[0]).resolve(), Path(folder), count)}")
        except Differs as why:
            print(f"FAILED: serprog on {emulator.version()}: {why}")
            return 1
    return 0


if __name__ == "__main__":
    sys.exit(main(sys.argv[1:]))
