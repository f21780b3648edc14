"""These cases follow the section RECOVERY of flashnor-serprog(8) as a reader would, guided only by the printed lines.

A session is disturbed, once for each kind of fault and each place that is tried. Then `decide` looks up the printed
lines in the table "When to restore" of the page. If the table says no, the chip must be as before the session, except
if the session made its change. If the table says yes, `rescue` performs the steps of the page, and the chip must then
be as before the session.
"""
import re

import reference
from bench import check
from losses import session_wire
from manual import TOP
from options import ALL, images

# `rescue` runs at most this number of restores from the session's journal.
MOST_RESTORES = 4


def table():
    """Returns the rows of the table "When to restore": what a session printed, and whether to restore."""
    page = (TOP / "man/flashnor-serprog.8").read_text(encoding="utf-8")
    part = re.search(r"(?ms)^\.SS When to restore$.*?^_$\n(.*?)^\.TE$", page)[1]
    part = re.sub(r"T\{\n(.*?)\nT\}", lambda it: it[1].replace("\n", " "), part, flags=re.S)
    return [line.replace(r"\(dq", '"').replace(r"\-", "-").split("\t") for line in part.splitlines()]


def fits(row, lines):
    """Returns whether the lines that a session printed fit a row of the table."""
    if row.startswith("no line"):
        return not lines
    if row == "anything else":
        return True
    quoted = [text.removesuffix(" ..").removesuffix("..") for text in re.findall(r'"(.*?)"', row)]
    named = [f"Error {number}" for number in re.findall(r"\b(\d\d)\b", re.sub(r'".*?"', "", row))]
    named += re.findall(r"^(?:Chip fault \d|Done)$", row)
    begins = not named or any(line.startswith(text) for line in lines for text in named)
    return begins and all(any(text in line for line in lines[-1:]) for text in quoted)


def decide(got):
    """Returns "yes" if the table says to restore after this run, and otherwise "no".

    The answer "only if .." of the table counts as "no".
    """
    answer = next(answer for row, answer in table() if fits(row, got.err + got.out))
    return "no" if answer.startswith(("no", "only if")) else "yes"


def rescue(bench, old, status=b"\0\0"):
    """Performs the steps of the page after a session, and checks that they restore the original chip.

    The files are the journal j1, the image before.bin, and the backup whole.journal.
    """
    for _ in range(MOST_RESTORES):
        bench.plug()
        got = bench.run("--restore", "j1")
        if got.out[-1:] and got.out[-1].startswith("Done") or got.err[:1] and got.err[0].startswith("Chip fault 5"):
            break
        if got.err in (reference.UNSEALED, reference.file_fault(1, "j1", "missing")):
            bench.check_chip(old, status)
            return
        check("a restore that is to be repeated", got.err[:1] in ([], ["Error 12: stopped."]), True)
    if bench.run("-v", "before.bin").out[-1:] != ["Verified."]:
        check("the backup", bench.run("--restore", "whole.journal", "--quick").status, 0)
        check("the last comparison", bench.run("-v", "before.bin").out[-1:], ["Verified."])
    bench.check_chip(old, status)


def board(start, old, new):
    """Returns a bench with the original chip, and its image, its backup and the image of the session as files."""
    bench = start(data=old)
    bench.write("before.bin", old)
    bench.write("new.bin", new)
    bench.write("whole.journal", reference.journal("TINY64", old, ALL))
    return bench


def follow(bench, got, old):
    """Does what the page says after a session that printed these lines, and checks the chip."""
    if decide(got) == "yes":
        rescue(bench, old)
    elif got.out[-1:] and got.out[-1].startswith("Done"):
        bench.check_chip(bench.path("new.bin").read_bytes())
    elif not any(line.startswith("The change was made") for line in got.err):
        bench.check_chip(old)


def rescues_after_each_loss(start):
    """Checks that the page's steps restore the chip after a kill, a lost reply, a NAK or a lost connection.

    Each event is tried at every 19th transaction of a session.
    """
    old, new = images("rescues_after_each_loss")
    wire = session_wire(old, new)
    answers = set()
    for number in range(3, len(wire) + 1, 19):
        for event in "kill", "lose", "nak", "unplug":
            bench = board(start, old, new)
            got = bench.run("-w", "new.bin", "--journal", "j1", events={number: event})
            answers.add(decide(got))
            bench.plug()
            follow(bench, got, old)
    check("answers of the table", answers, {"yes", "no"})


def rescues_after_each_wrong_address(start):
    """Checks that the page's steps restore the chip after a wrong address bit in one command, or in a whole change."""
    old, new = images("rescues_after_each_wrong_address", (2, 7, 15))
    wire = session_wire(old, new)
    sealed = next(at for at, (out, _) in enumerate(wire, 1) if out[0] in reference.CHANGING)
    changing = [at for at, (out, _) in enumerate(wire, 1) if out[0] in (0x02, 0x20)]
    faults = set()
    for first, last in [*((at, at) for at in changing[::9]), (sealed, reference.compares_from(wire, sealed) - 1)]:
        bench = board(start, old, new)
        bench.server.traits.wrong_address = (first, last, 14)
        got = bench.run("-w", "new.bin", "--journal", "j1")
        bench.server.traits.wrong_address = ()
        faults |= {line[:12] for line in got.err}
        follow(bench, got, old)
    check("both kinds of fault", faults >= {"Error 14: by", "Chip fault 4"}, True)


CASES = [rescues_after_each_loss, rescues_after_each_wrong_address]
