#!/usr/bin/env python3
"""tests/wire/self.py: tests the models of the chips, the programmer and the line, and checks that Wire detects wrong
results, such as the mistakes of wrong.py."""
import os
import sys
import tempfile
import termios
import traceback
from concurrent.futures import ProcessPoolExecutor
from pathlib import Path

import frames
import jobs
import play
import run
from firmware import Programmer
from flash import BLANK, Flash, SECTOR
from line import LONGEST_WAIT, OWN_SUPPLY, Fault, Line, Way, tenths
from remains import remains
from winbond import CMP, LB, QE, SRP0, SRP1, Winbond

WRONG = str(Path(__file__).with_name("wrong.py").resolve())
# In the runs of a case, wrong.py may wait PATIENCE tenths of a second for a byte (`tenths` multiplies this time).
PATIENCE = 10
ENABLE, POLL = b"\x06", b"\x05"


def same(got, wanted):
    if got != wanted:
        raise AssertionError(f"got {got!r}, wanted {wanted!r}")


def winbond(status=(0, 0), **more):
    return Winbond(bytes(Winbond.size), status=status, **more)


def change(chip, *out):
    """Sends a write enable and the instruction `out` to the chip, and polls until the chip is ready. Returns the
    chip."""
    chip.select(ENABLE, 0)
    chip.select(bytes(out), 0)
    while chip.select(POLL, 1)[0] & 1:
        pass
    return chip


def lengths_of_status_writes():
    """Checks that 01h takes one or two data bytes, that one byte clears QE, and that no byte or three bytes change
    nothing."""
    same(change(winbond((0, QE)), 0x01, 0x1C, QE).registers(), (0x1C, QE))
    same(change(winbond((0, QE)), 0x01, 0x1C).registers(), (0x1C, 0))
    same(change(winbond((0, QE)), 0x01).registers(), (0, QE))
    same(change(winbond((0, QE)), 0x01, 0x1C, QE, 0).registers(), (0, QE))


def one_time_bits():
    """Checks that a set LB bit stays set and is recorded, that SRP1 without SRP0 is cleared by a loss of power, and
    that SRP1 with SRP0 locks the status even after one."""
    chip = change(winbond(), 0x01, 0, 0x10)
    same((chip.registers(), chip.once), ((0, 0x10), {0x10}))
    same(change(chip, 0x01, 0, QE).registers(), (0, 0x10 | QE))
    same(change(chip, 0x01, SRP0, SRP1).registers(), (SRP0, 0x10 | SRP1))
    same(change(chip, 0x01, 0, 0).registers(), (SRP0, 0x10 | SRP1))
    chip.cut_power()
    same(change(chip, 0x01, 0, 0).registers(), (SRP0, 0x10 | SRP1))
    chip = change(winbond(), 0x01, 0, SRP1)
    chip.cut_power()
    same(chip.registers(), (0, 0))


def volatile_status():
    """Checks that a status write after 50h lasts until the power is cut, and sets no one-time bit."""
    chip = winbond()
    chip.select(b"\x50", 0)
    chip.select(bytes([0x01, 0x1C, LB | QE]), 0)
    same((chip.select(POLL, 1), chip.select(b"\x35", 1), chip.once), (b"\x1c", bytes([QE]), set()))
    chip.cut_power()
    same(chip.select(POLL, 1), b"\0")


def lengths_of_erases():
    """Checks that an erase is carried out only if WEL is set and CS# rises right after the last byte of the
    instruction."""
    for out in b"\x20\x00\x10", b"\x20\x00\x10\x00\x00", b"\xc7\x00", b"\x60\x00":
        same(change(Flash(bytes(Flash.size)), *out).hit, set())
    same(change(Flash(bytes(Flash.size)), 0x20, 0, 0x1F, 0xFF).hit, {1})
    same(change(Flash(bytes(Flash.size)), 0x52, 0, 0x80, 0).hit, set(range(8, 16)))
    same(len(change(Flash(bytes(Flash.size)), 0x60).hit), 16)
    chip = Flash(bytes(Flash.size))
    chip.select(bytes([0x20, 0, 0, 0]), 0)
    same(chip.hit, set())
    chip.select(ENABLE + b"\0", 0)
    same(chip.latch, False)
    # The clocks of a reply count as bytes of the instruction.
    chip.select(ENABLE, 0)
    chip.select(bytes([0x20, 0, 0, 0]), 1)
    same(chip.hit, set())
    chip.select(bytes([0x20, 0, 0x30]), 1)
    same(chip.hit, {3})


def programs():
    """Checks that a program changes bits only from 1 to 0, and wraps at the end of its page."""
    chip = Flash(bytes([BLANK]) * Flash.size)
    change(chip, 0x02, 0, 0x12, 0xFE, 0xA5, 0x5A, 0x11)
    same(bytes(chip.data[0x1200:0x1202]) + bytes(chip.data[0x12FE:0x1301]), b"\x11\xff\xa5\x5a\xff")
    change(chip, 0x02, 0, 0x12, 0xFE, 0x0F)
    same((chip.data[0x12FE], chip.hit), (0x05, {1}))
    same(chip.select(b"\x03\x00\xff\xff", 3), b"\xff\xff\xff")


def busy_chips():
    """Checks that a busy chip accepts only polls, and that WEL is clear when the chip is ready."""
    chip = Flash(bytes(Flash.size), polls=2)
    chip.select(ENABLE, 0)
    chip.select(bytes([0x20, 0, 0, 0]), 0)
    same(chip.select(b"\x9f", 3), b"\xff\xff\xff")
    same([chip.select(POLL, 1)[0] for _ in range(3)], [3, 3, 0])
    same(chip.select(b"\x9f", 3), b"\xfe\x10\x10")


def protection():
    """Checks six protected ranges of the datasheet at one of their ends, and that a fully protected chip ignores a chip
    erase."""
    end = Winbond.size
    for status, free, shut in (
        ((0x04, 0), 0x7DF000, 0x7E0000), ((0x24, 0), 0x020000, 0x01F000), ((0x18, 0), 0x3FF000, 0x400000),
        ((0x44, 0), end - 2 * SECTOR, end - SECTOR), ((0x64, 0), SECTOR, 0), ((0x24, 0x40), 0x01F000, 0x020000)):
        for at, wanted in (free, {free // SECTOR}), (shut, set()):
            same(change(winbond(status), 0x20, *at.to_bytes(3, "big")).hit, wanted)
    same(change(winbond((0x1C, 0)), 0xC7).hit, set())


def further_instructions():
    """Checks power-down, reset, QPI and the security registers."""
    chip = winbond((0, QE))
    chip.select(b"\xb9", 0)
    same(chip.select(b"\x9f", 3), b"\xff\xff\xff")
    same(chip.select(b"\xab\0\0\0", 1), b"\x16")
    same(chip.select(b"\x9f", 3), b"\xef\x40\x17")
    chip.select(ENABLE, 0)
    chip.select(b"\x66", 0)
    chip.select(b"\x99", 0)
    same(chip.latch, False)
    change(chip, 0x42, 0, 0x20, 0, 0x12)
    same(chip.select(b"\x48\x00\x20\x00\x00", 2), b"\x12\xff")
    change(change(chip, 0x01, 0, 0x10 | QE), 0x44, 0, 0x20, 0)
    same(chip.select(b"\x48\x00\x20\x00\x00", 2), b"\x12\xff")
    chip.select(b"\x38", 0)
    same(chip.select(b"\x9f", 3), b"\xff\xff\xff")
    chip.cut_power()
    same(chip.select(b"\x9f", 3), b"\xef\x40\x17")


def frames_byte_by_byte():
    """Checks that the firmware replies as soon as a command has its last byte, and keeps a part of a command until its
    power is cut."""
    programmer = Programmer(Flash(bytes(Flash.size)))
    same([programmer.take(it) for it in b"\x13\x01\0\0\x03\0\0\x9f"], [b""] * 7 + [b"\x06\xfe\x10\x10"])
    same([programmer.take(it) for it in b"\x00\x10\x77"], [b"\x06", b"\x15\x06", b"\x15"])
    same([programmer.take(it) for it in b"\x13\x01\0\0"], [b""] * 4)
    programmer.power_cycle()
    same(programmer.take(0), b"\x06")


def a_supply_of_its_own():
    """Checks that if only the programmer loses its power, a chip that is selected early acts on the bytes that it
    has."""
    for selects_early, wanted in (True, (0x1C, 0)), (False, (0, QE)):
        chip = winbond((0, QE))
        programmer = Programmer(chip, selects_early=selects_early)
        chip.select(ENABLE, 0)
        for byte in b"\x13\x03\0\0\0\0\0\x01\x1c":
            programmer.take(byte)
        programmer.power_cycle(chip_too=False)
        same(chip.registers(), wanted)


def faults_of_the_line():
    """Checks that each fault except a cut changes the bytes at its position, even if the bytes are sent in two parts. A
    cut changes no byte."""
    for kind, value, wanted in (("lose", 1, b"0134567"), ("lose", 3, b"01567"), ("double", 1, b"012234567"),
                                ("insert", 0x41, b"01A234567"), ("cut", 1, b"01234567")):
        for split in range(9):
            way = Way(Fault("to", 2, kind, value))
            same(way.pass_on(b"01234567"[:split]) + way.pass_on(b"01234567"[split:]), wanted)


def busy_machines():
    """Checks that `tenths` multiplies the time that the terminal waits, up to the longest time that termios can store,
    that a new line waits this time, and that run.py accepts --processes."""
    same([tenths(3, times) for times in (1, 4, 99)], [3, 12, LONGEST_WAIT])
    with tempfile.TemporaryDirectory() as folder:
        line = Line(WRONG, folder, None, PATIENCE)
        waits = termios.tcgetattr(line.slave)[6][termios.VTIME]
        line.close()
    same(waits if isinstance(waits, int) else waits[0], tenths(PATIENCE))
    same(run.parse([WRONG, "--all", "--processes", "2", "whole"]).processes, 2)


def faults_that_never_happen():
    """Checks that a fault after the last byte of a run's replies gives the finding `moved`, and a fault at that byte
    gives none."""
    os.environ["WRONG"] = ""
    _, played = play.clean(WRONG, "wp-enable")
    last = frames.frames_of(played.sent)[-1].last
    for at, wanted in (last, ["moved"]), (last - 1, []):
        found, _ = play.play(WRONG, "wp-enable", Fault("back", at, "double"), PATIENCE)
        same([it.kind for it in found], wanted)


def found_in(wrong, faults, name="wp-enable"):
    """Plays the job `name` with wrong.py and its mistakes `wrong`, once for each fault that the function `faults`
    chooses. Returns the kinds of findings for each fault, none of which may be `moved`."""
    os.environ["WRONG"] = wrong
    # `play.clean` keeps the run without a fault, and this run depends on the mistakes.
    play.clean.cache_clear()
    _, played = play.clean(WRONG, name)
    all_frames = frames.frames_of(played.sent)
    found = [{it.kind for it in play.play(WRONG, name, fault, PATIENCE)[0]} for fault in faults(all_frames)]
    same("moved" in set().union(*found), False)
    return found


def losses(all_frames, kind="lose"):
    """Returns a fault of this kind for each of the three bytes of the status write."""
    write = next(it for it in all_frames if it.kind[1] == 0x01)
    return [Fault("to", at, kind) for at in range(write.end - 3, write.end)]


def cuts(all_frames):
    """Returns cuts before the second and before the third byte of the status write. Its opcode was already sent."""
    return losses(all_frames, "cut")[1:]


def finds_what_is_sent_together():
    """Checks that a lost data byte of a status write sets a one-time bit if a poll is sent together with the status
    write, and not with the right program."""
    same([it & {"once"} for it in found_in("together", losses)][-2:], [{"once"}, {"once"}])
    same(set().union(*found_in("", losses)) & {"once", "wrong", "silent"}, set())


def finds_what_completes_a_frame():
    """Checks that a cut status write can set a one-time bit if the next run of wrong.py begins with 10h (its mistake
    `syncnop`), and can't if wrong.py makes no mistake."""
    same({"once"} in [it & {"once"} for it in found_in("syncnop", cuts)], True)
    same(set().union(*found_in("", cuts)) & {"once", "wrong", "silent"}, set())


def finds_lies():
    """Checks that Wire detects a run that ends with exit status 0 although it failed."""
    same({"wrong"} in [it & {"wrong"} for it in found_in("lies", losses)], True)


def finds_wrong_sectors():
    """Checks that Wire detects exit status 0 with a wrong sector. If the journal doesn't save this sector, a run that
    prints a line about it is not a finding."""
    job = jobs.JOBS["tiny-write"]
    old, _ = jobs.images(job)
    journaled, other = min(job.sectors) * SECTOR, 0
    for at, err, wanted in (journaled, [], "wrong"), (other, [], "silent"), (other, ["1 sector differs"], None):
        bench = play.Bench.__new__(play.Bench)
        bench.job, bench.chip, bench.found = job, Flash(old), []
        bench.chip.data[at] ^= 1
        got = play.Result(0, ["Found SFDP (fe1010), 65536 bytes.", "Done: touched 4."], err, b"", 0)
        bench.compare(got, old, (0, 0), "the restore")
        same([it.kind for it in bench.found], [wanted] if wanted else [])


def finds_restores_without_a_bit():
    """Checks that a restore that leaves QE clear is allowed only if it reports this with exit status 1, and has
    restored the rest."""
    write = frames.Frame(0, frames.HEAD + 3, (0x13, 0x01), 0, 1)
    for wrong, wanted, is_allowed in ("", "bits", True), ("quiet", "wrong", False), ("erases", "wrong", False):
        found = found_in(wrong, losses, "wp-range-restore")
        same(set().union(*found), {wanted})
        reason = remains(play.Finding(wanted, ""), "wp-range-restore", Fault("to", write.end - 1, "lose"), write)
        same(reason is not None, is_allowed)


def finds_wrong_lines():
    """Checks the findings for restores with and without the line KEPT_BITS, which depend on the exit status, the lines,
    and the chip's bytes and status bytes."""
    job = jobs.JOBS["unlock-restore"]
    old, _ = jobs.images(job)
    journaled, other = min(job.sectors) * SECTOR, 0
    clear, line = f"{play.KEPT}QE (clear).", play.KEPT_BITS
    clear_and_set = f"{play.KEPT}QE (clear) LB1 (set)."
    # Each row has the status bytes after the restore (1Ch and 02h are right), the address of a wrong byte or None, the
    # exit status, the lines of standard error, and the expected finding or None.
    for registers, at, status, err, wanted in (
        ((0x1C, QE), None, 0, [], None),
        ((0x1C, QE), None, 1, [clear, line], "wrong"),
        ((0x1C, 0), None, 0, [], "wrong"),
        ((0x1C, 0), None, 0, [clear], "wrong"),
        ((0x1C, 0), None, 0, [clear, line], "wrong"),
        ((0x1C, 0), None, 1, [clear, line], "bits"),
        ((0x1C, 0), None, 1, [f"{clear} A board needs it.", line], "bits"),
        ((0x1C, 0), None, 1, [line], "wrong"),
        ((0x1C, 0), None, 1, [clear, clear, line], "wrong"),
        ((0x1C, 0), None, 1, [clear], "lost"),
        ((0x1C, 0), None, 1, ["Error 17."], "lost"),
        ((0x1C, 0), None, 1, [f"{play.KEPT}LB1 (set).", line], "wrong"),
        ((0x1C, 0), None, 1, [clear_and_set, line], "wrong"),
        ((0x1C, 0x08), None, 1, [clear, line], "wrong"),
        ((0x1C, 0x08), None, 1, [clear_and_set, line], "bits"),
        ((0x1C, CMP), None, 1, [clear, line], "wrong"),
        ((0, 0), None, 1, [clear, line], "wrong"),
        ((0x9C, QE), None, 1, ["Error 17."], "bits"),
        ((0x1C, 0), journaled, 1, [clear, line], "wrong"),
        ((0x1C, 0), other, 1, [clear, line], "wrong"),
        ((0x1C, QE), journaled, 1, [clear, line], "wrong"),
        ((0x1C, QE), journaled, 1, [clear], "lost"),
    ):
        chip = winbond(registers)
        chip.data = bytearray(old)
        if at is not None:
            chip.data[at] ^= 1
        found = found_after(job, chip, play.Result(status, ["Found W25Q64FV."], err, b"", 0), old)
        same((registers, at, status, err, found), (registers, at, status, err, {wanted} - {None}))
    # A restore must not report that QE is set, because the software of some boards sets it. After a session, a QE that
    # became set is a finding.
    chip = winbond((0x1C, QE))
    chip.data = bytearray(old)
    for status, err, wanted in (0, [], set()), (1, [f"{play.KEPT}QE (set).", line], {"wrong"}):
        got = play.Result(status, [], err, b"", 0)
        same(found_after(job._replace(then=(0x1C, 0)), chip, got, old), wanted)
    bench = play.Bench.__new__(play.Bench)
    bench.job, bench.chip, bench.found = jobs.JOBS["unlock"], chip, []
    bench.compare(play.Result(0, [], [], b"", 0), old, (0x1C, 0), "the run")
    same([it.kind for it in bench.found], ["wrong"])


def found_after(job, chip, got, old):
    """Returns the kinds of findings if a restore after a power cycle has the result `got`, and leaves `chip`."""
    with tempfile.TemporaryDirectory() as folder:
        (Path(folder) / jobs.JOURNAL).touch()
        bench = play.Bench.__new__(play.Bench)
        bench.job, bench.chip, bench.folder, bench.found = job, chip, Path(folder), []
        bench.run = lambda *_: got
        play.finish(bench, job, play.Played(b"", {}, old, old), True)
    return {it.kind for it in bench.found}


def chooses_frames():
    """Checks that the frames of a run and their replies are found, that each frame that changes the chip is cut after
    each byte but the last, and that the first, last and longest reads are chosen."""
    sent = b"\x00\x10" + bytes.fromhex("13010000030000 9f 13010000000000 06 13040000000000 20001000")
    found = frames.frames_of(sent)
    same([it[2:] for it in found], [((0, None), 0, 1), ((0x10, None), 1, 3), ((0x13, 0x9F), 3, 7), ((0x13, 0x06), 7, 8),
                                    ((0x13, 0x20), 8, 9)])
    same(len([it for it in frames.cuts(found) if it.value == OWN_SUPPLY]), 7 + 10)
    sizes = enumerate((4, 4, 9, 4, 4))
    reads = [frames.Frame(10 * it, 10 * it + size, (0x13, 0x03), it, it + 1) for it, size in sizes]
    same([it.begin for it in frames.chosen(reads)], [0, 20, 40])


CASES = [lengths_of_status_writes, one_time_bits, volatile_status, lengths_of_erases, programs, busy_chips, protection,
         further_instructions, frames_byte_by_byte, a_supply_of_its_own, faults_of_the_line, busy_machines,
         faults_that_never_happen, chooses_frames, finds_what_is_sent_together, finds_what_completes_a_frame,
         finds_lies, finds_wrong_sectors, finds_restores_without_a_bit, finds_wrong_lines]


def try_case(number):
    """Runs a case. Returns None if it passed, and otherwise the lines that report the failure."""
    case = CASES[number]
    try:
        case()
        return None
    except Exception:  # with any exception, the case failed
        return f"FAILED: {case.__name__}: {case.__doc__}\n{traceback.format_exc(limit=-3)}"


def main():
    with ProcessPoolExecutor() as pool:
        lines = [it for it in pool.map(try_case, range(len(CASES))) if it]
    for it in lines:
        print(it)
    print(f"{len(CASES) - len(lines)} passed, {len(lines)} failed")
    return int(bool(lines))


if __name__ == "__main__":
    sys.exit(main())
