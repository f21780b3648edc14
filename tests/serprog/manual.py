"""Cases that run the examples of flashnor-serprog(8) and docs/HARDWARE.md, and some command blocks of the former.

In each command, the port of the modelled programmer replaces the port of the page. If a page shows a file by `cat`, the
file is created with the content that the page shows.
"""
import os
import re
import subprocess
import sys
from pathlib import Path

import reference
from bench import LONGEST, check
from losses import sealed_after, session_wire
from options import ALL, images
from refusals import LARGE

TOP = Path(__file__).resolve().parents[2]
sys.path.append(str(TOP / "tests/flashnor"))
import pages  # noqa: E402

PORT = "/dev/ttyACM0"
SETTING = f"serprog:dev={PORT},spispeed=1000000"


def blocks():
    """Returns the blocks of commands and examples of the manual page as plain text."""
    text = (TOP / "man/flashnor-serprog.8").read_text(encoding="utf-8")
    return pages.examples_of(text)


def block_with(part):
    """Returns the only block of commands (without their output) that contains the text `part`."""
    found = [it for it in blocks() if not it.startswith("$ ") and part in it]
    check(f"blocks with '{part}'", len(found), 1)
    return found[0]


def run_in_shell(bench, commands, variables=None):
    """Runs commands by bash in the directory of the bench, and returns the lines of both output streams."""
    programs = bench.path("programs")
    if not programs.exists():
        programs.mkdir()
        (programs / "flashnor-serprog").symlink_to(bench.program)
    bench.server.begin({})
    bench.command = commands
    own = {"LC_ALL": "C", "PATH": f"{programs}:{os.environ['PATH']}"}
    given = {name: value.replace(PORT, str(bench.path("dev"))) for name, value in (variables or {}).items()}
    done = subprocess.run(["bash", "-c", commands.replace(PORT, str(bench.path("dev")))], cwd=bench.folder,
                          env={**os.environ, **own, **given}, stdin=subprocess.DEVNULL, stdout=subprocess.PIPE,
                          stderr=subprocess.STDOUT, timeout=LONGEST, check=False)
    return done.stdout.decode(errors="backslashreplace").splitlines()


def steps_of(lines):
    """Returns the steps in the lines of examples: each command, with the lines that it prints."""
    found = []
    for line in re.sub(r" \\\n +", " ", "\n".join(lines)).splitlines():
        if line.startswith("$ "):
            found.append((line[2:], []))
        elif line and found:
            found[-1][1].append(line)
    return found


def play(bench, steps, least):
    """Runs the commands of the steps, and checks that each prints the lines of its step.

    There must be `least` steps or more.
    """
    variables = {}
    for command, lines in steps:
        if setting := re.fullmatch(r"(\w+)=(\S+)", command):
            variables[setting[1]] = setting[2]
        if command.startswith("cat "):
            bench.write(command[4:], "".join(f"{line}\n" for line in lines).encode())
        check(command, run_in_shell(bench, command, variables), lines)
    check("commands", len(steps) >= least, True)


def plays_the_examples(start):
    """Each command of a page's examples prints the lines that the page shows. At the end, the chip is as before."""
    old = b"\0" + b"\xff" * (LARGE - 1)
    examples = [line for block in blocks() if block.startswith("$ ") for line in block.splitlines()]
    session = pages.of_markdown((TOP / "docs/HARDWARE.md").read_text(encoding="utf-8"))
    first = next(at for at, line in enumerate(session) if line.startswith("$ "))
    for lines, least in (examples, 5), (session[first:], 9):
        bench = start("W25Q64FV", data=old)
        bench.write("new.bin", b"\1" + old[1:])
        play(bench, steps_of(lines), least)
        bench.check_chip(old)


def makes_the_first_write(start):
    """The page's commands for the first write of a board back the chip up, read it, and write it.

    If whole.journal exists, they stop with file fault 4, and nothing is written.
    """
    old, new = images("makes_the_first_write")
    for is_there in False, True:
        bench = start(data=old)
        bench.write("new.bin", new)
        if is_there:
            bench.write("whole.journal", b"")
        lines = run_in_shell(bench, block_with("-w new.bin"))
        if is_there:
            check("lines", lines, reference.file_fault(4, "whole.journal"))
            bench.check_chip(old)
            bench.check_absent("j1")
        else:
            found = reference.found("TINY64")
            check("lines", lines[:5], [found, "Read 65536 bytes.", found, "Read 65536 bytes.", found])
            check("the last line", [it.startswith("Done: ") for it in lines[5:]], [True])
            bench.check_chip(new)
            bench.check_file("whole.journal", reference.journal("TINY64", old, ALL))
            bench.check_file("before.bin", old)
            bench.check_file("j1", reference.journal("TINY64", old, (1, 2, 7, 15)))


def rescues_in_four_lines(start):
    """After a kill at one of six points of a session, the four lines of RECOVERY leave the original bytes."""
    old, new = images("rescues_in_four_lines")
    wire = session_wire(old, new)
    sealed = sealed_after(wire) + 1
    for number in sealed - 1, sealed, sealed + 4, sealed + 5, sealed + 40, len(wire):
        bench = start(data=old)
        bench.write("new.bin", new)
        bench.write("before.bin", old)
        bench.run("-w", "new.bin", "--journal", "j1", events={number: "kill"})
        check("the session was killed", bench.server.killed, True)
        bench.plug()
        lines = run_in_shell(bench, block_with("--restore j1\n#"), {"P": SETTING})
        restored = [reference.found("TINY64"), reference.report(reference.restore("TINY64", old, (1, 2, 7, 15)), 4)]
        first = reference.UNSEALED if number < sealed else restored
        check("lines", lines, [*first, reference.found("TINY64"), "Verified."])
        bench.check_chip(old)
        check("the copy", bench.path("j1.copy").read_bytes(), bench.path("j1").read_bytes())


def restores_after_chip_fault_4(start):
    """Checks the page's commands for chip fault 4.

    These are a restore from the session's journal, which ends with chip fault 5, and then one from a backup.
    """
    old, new = images("restores_after_chip_fault_4")
    bench = start(data=old)
    bench.write("new.bin", new)
    check("the backup", bench.run("--backup", "whole.journal").status, 0)
    check("the session", bench.run("-w", "new.bin", "--journal", "j1").status, 0)
    bench.chip.data[0x5000:0x6000] = b"\xff" * 4096
    lines = run_in_shell(bench, block_with("# may end with chip fault 5"), {"P": SETTING})
    check("lines", [it.partition(" ")[0] for it in lines], ["Chip", "Found", "Done:"])
    bench.check_chip(old)


def compares_journals(start):
    """--check-journal prints equal first two lines for a session's journal and a backup if their unique IDs are equal.

    The lines differ if the backup is of a chip with another unique ID.
    """
    old, new = images("compares_journals")
    for unique, is_this in (bytes(range(8)), True), (bytes(8), False):
        bench = start(data=old, unique=bytes(range(8)))
        bench.write("new.bin", new)
        check("the session", bench.run("-w", "new.bin", "--journal", "j1").status, 0)
        bench.write("whole.journal", reference.journal("TINY64", old, ALL, unique=unique))
        lines = run_in_shell(bench, block_with("--check-journal j1"))
        chips = [at for at, line in enumerate(lines) if line.startswith("Journal of ")]
        check("descriptions", len(chips), 2)
        first, second = (lines[at : at + 2] for at in chips)
        check("the board", first == second, is_this)


CASES = [plays_the_examples, makes_the_first_write, rescues_in_four_lines, restores_after_chip_fault_4,
         compares_journals]
