#!/usr/bin/env python3
"""tests/serprog/compare.py PROGRAM [--whole]: compares flashnor-serprog with flashrom on a modelled programmer.

Both programs write one image to equal chips: a W25Q64FV with the typical durations of its datasheet. 52 of its 2,048
sectors change, or all sectors with --whole. The programmer is at a bare pseudo-terminal, then at one with 1 ms for each
round trip, and then at one that also carries only 1 MB/s. (With --whole, only the first of these wires is tried.) Both
programs must leave the right bytes on the chip, and must read and verify them.

For each wire the script prints the seconds, the transactions, the polls (05h), the round trips (`ways`) and the bytes
of both programs, and their ratios. The exit status is 1 if a program fails, or if bytes of the chip or of a file are
wrong. A ratio of the seconds above the project's goal is marked, but is no failure, because it depends on the machine.
"""
import os
import random
import shutil
import subprocess
import sys
import tempfile
import time
from pathlib import Path
from typing import NamedTuple

from chip import PARTS, SECTOR, Chip
from server import Server, Traits

PART = "W25Q64FV"
POLL = b"\x05"
# Debian installs flashrom in a directory that often isn't in PATH.
FLASHROM = shutil.which("flashrom") or shutil.which("flashrom", path="/usr/sbin:/usr/local/sbin")
FLASHROM_NAME = "W25Q64BV/W25Q64CV/W25Q64FV"
# Each wire has a name, traits of the programmer, and the goal: the greatest ratio of flashnor-serprog's seconds to
# flashrom's, or `None` if there is no goal.
WIRES = (("bare pty", {}, 1.0), ("1 ms", {"latency": 0.001}, None),
         ("1 ms and 1 MB/s", {"latency": 0.001, "rate": 1e6}, 0.8))
GOAL_WHOLE = 0.8


class Run(NamedTuple):
    """What a client (flashnor-serprog or flashrom) needed for a job. `ways` counts the server's reads of the port."""

    seconds: float
    transactions: int
    polls: int
    ways: int
    bytes: int


class Clients:
    """This class runs both clients in a directory with the link `dev` to the programmer."""

    def __init__(self, program, folder):
        self.program, self.folder = program, folder

    def words(self, client, job, name):
        """Returns the command line of a client for a job (-r, -w or -v) with the name of a file."""
        if client == "flashrom":
            return [FLASHROM, "-p", f"serprog:dev={self.folder}/dev:115200", "-c", FLASHROM_NAME, job, name]
        journal = ["--journal", f"journal.{time.monotonic_ns()}"] if job == "-w" else []
        return [self.program, "-p", f"serprog:dev={self.folder}/dev", job, name, *journal]

    def run(self, client, job, name, chip, traits):
        """Runs a job with a new programmer, and returns what the job needed. If the job fails, the script ends."""
        server = Server(self.folder / "dev", chip, Traits(**traits))
        try:
            begun = time.monotonic()
            done = subprocess.run(self.words(client, job, name), cwd=self.folder, capture_output=True, text=True,
                                  check=False)
            seconds = time.monotonic() - begun
            if done.returncode != 0:
                sys.exit(f"{client} {job}: status {done.returncode}\n{done.stdout[-2000:]}{done.stderr[-2000:]}")
            polls = sum(out == POLL for out, _ in server.log)
            return Run(seconds, len(server.log), polls, len(server.ways), len(server.received) + server.sent)
        finally:
            server.close()


def images(is_whole):
    """Returns two random images, which differ in all sectors, or in up to 2,900 bytes of each of 52 sectors."""
    chance = random.Random("compare")
    size = PARTS[PART].size
    old = chance.randbytes(size)
    if is_whole:
        return old, chance.randbytes(size)
    new = bytearray(old)
    for number in chance.sample(range(size // SECTOR), 52):
        at = number * SECTOR + 100
        new[at : at + 2900] = chance.randbytes(2900)
    return old, bytes(new)


def same(what, one, other):
    """Prints whether `one` and `other` have equal bytes, and returns this."""
    print(f"{what}: {'the same bytes' if one == other else 'DIFFERS'}")
    return one == other


def compare_wire(clients, old, new, traits):
    """Writes the image with each client. Returns what each needed, and whether the bytes of both chips are right."""
    runs, is_right = [], True
    for client in "flashnor-serprog", "flashrom":
        chip = Chip(PART, old, scale=1.0)
        runs.append(clients.run(client, "-w", "new", chip, traits))
        chip.wait()
        is_right &= same(f"    the chip after {client}", bytes(chip.data), new)
    return runs, is_right


def compare_reads(clients, new):
    """Reads and verifies the chip with each client, and returns whether the bytes that they read are right."""
    is_right = True
    for client in "flashnor-serprog", "flashrom":
        chip = Chip(PART, new)
        clients.run(client, "-r", f"read.{client}", chip, {})
        is_right &= same(f"read by {client}", (clients.folder / f"read.{client}").read_bytes(), new)
        clients.run(client, "-v", "new", chip, {})
        print(f"verified by {client}")
    return is_right


def print_row(wire, runs, goal):
    own, other = runs
    ratio = own.seconds / other.seconds
    mark = "" if goal is None else f", {'within' if ratio <= goal else 'ABOVE'} the goal of {goal}"
    print(f"{wire}: {own.seconds:.1f} s and {other.seconds:.1f} s, ratio {ratio:.2f}{mark}")
    for name in "transactions", "polls", "ways", "bytes":
        print(f"    {name}: {getattr(own, name)} and {getattr(other, name)}, "
              f"ratio {getattr(own, name) / getattr(other, name):.2f}")


def main(words):
    names = [it for it in words if it != "--whole"]
    is_whole = "--whole" in words
    if len(names) != 1 or not os.access(names[0], os.X_OK):
        sys.exit("usage: tests/serprog/compare.py PROGRAM [--whole]")
    if FLASHROM is None:
        print("skipped: the comparison of the two clients, since flashrom isn't installed")
        return 0
    sys.stdout.reconfigure(line_buffering=True)
    old, new = images(is_whole)
    with tempfile.TemporaryDirectory() as folder:
        clients = Clients(Path(names[0]).resolve(), Path(folder))
        (clients.folder / "new").write_bytes(new)
        is_right = compare_reads(clients, new)
        for wire, traits, goal in WIRES[: 1 if is_whole else None]:
            runs, same_bytes = compare_wire(clients, old, new, traits)
            print_row(wire, runs, GOAL_WHOLE if is_whole else goal)
            is_right &= same_bytes
    print("all bytes are right" if is_right else "FAILED: bytes differ")
    return int(not is_right)


if __name__ == "__main__":
    sys.exit(main(sys.argv[1:]))
