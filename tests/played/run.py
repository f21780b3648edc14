#!/usr/bin/env python3
"""tests/played/run.py PROGRAM [--most N] [JOB..]: plays runs of flashnor-serprog at a simulated programmer and chip.

PROGRAM is simulated_runs. Each job of jobs.py is played as a whole, and then with the port failing after each number of
calls, or after at most N of these numbers. Then the process is killed instead, at random times. After each of these
runs, a restore from the job's journal, if there is one, must return each byte and each non-volatile status bit, even if
restores were interrupted before it. If there is no complete journal, the chip must be as it was before the job. A
backup must restore a chip on which everything was changed.

A case that failed is printed with its runs. The last line is `N passed, M failed`, and the exit status is 1 if a case
failed.
"""
import argparse
import os
import random
import sys
import tempfile
import time
from concurrent.futures import ThreadPoolExecutor
from pathlib import Path

from chips import TINY64, UNLIMITED, Chip, Stop, run
from jobs import JOBS, content

# A run at a port that fails mostly sleeps, so each core can play several cases at a time.
CASES_AT_ONCE = 16 * (os.cpu_count() or 1)
# The number of stops of each job without --most, on a chip of 64 KiB and on a larger one.
STOPS, STOPS_LARGE = 150, 24
# The number of times that each job is killed.
KILLS, KILLS_LARGE = 24, 6
KINDS = [(None, None), (1, None), (4, 0x5A), (1000, 0x00), (None, 0xFF), (1000, None)]


class Failed(Exception):
    pass


def expect(holds, what, *ended):
    """Fails with the lines of these runs, unless `holds` is true."""
    if not holds:
        raise Failed("\n".join([what, *(f"    {it.status}: {it.output}{it.errors}".rstrip() for it in ended)]))


def has_journal(folder):
    return Path(folder, "j").exists()


def play_whole(program, folder, job):
    """Plays a job that isn't interrupted, and its restore. Returns the number of calls of the port, and the seconds
    that the job took."""
    begun = time.monotonic()
    done = run(program, folder, job.chip, job.words)
    expect(done.status == 0, "the job fails", done)
    expect(done.chip.left < UNLIMITED, "the port doesn't keep its state in the files", done)
    expect(done.chip.kept() == job.target.kept(), "the job leaves another chip than asked", done)
    seconds = time.monotonic() - begun
    back = run(program, folder, done.chip, ["--restore", "j"])
    expect(back.status == 0 and back.chip.kept() == job.chip.kept(), "the restore of the whole job fails", back)
    return UNLIMITED - done.chip.left, seconds


def restore_last(program, folder, job, words, ran):
    """Plays a restore after the runs `ran`. It must return the chip as it was before the job."""
    back = run(program, folder, ran[-1].chip, words)
    if back.status == 0:
        expect(back.chip.kept() == job.chip.kept(), "the restore succeeds, but leaves another chip", *ran, back)
    else:
        expect(back.chip.kept() == job.chip.kept(), "a changed chip can't be restored", *ran, back)


def play_stop(program, folder, job, stop, draw):
    """Plays a job that is interrupted, then perhaps interrupted restores, and a restore that is not."""
    done = run(program, folder, job.chip, job.words, stop)
    expect(done.chip.left < stop.calls or not stop.calls, "the port doesn't keep its state in the files", done)
    if done.status == 0:
        expect(done.chip.kept() == job.target.kept(), "exit status 0, but another chip than asked", done)
    words = ["--restore", "j"] + (["--quick"] if stop.fill is None and draw.random() < 0.5 else [])
    ran = [done]
    for _ in range(draw.randrange(3) if has_journal(folder) else 0):
        torn, fill = draw.choice(KINDS if "--quick" not in words else [KINDS[0], KINDS[1], KINDS[5]])
        ran.append(run(program, folder, ran[-1].chip, words, Stop(draw.randrange(stop.calls + 60), torn, fill)))
    restore_last(program, folder, job, words, ran)


def play_kill(program, folder, job, seconds, draw):
    """Plays a job that is killed, then perhaps restores that are killed, and a restore that isn't."""
    words = ["--restore", "j"] + ["--quick"] * draw.randrange(2)
    ran = [run(program, folder, job.chip, job.words, seconds=2 * seconds * draw.random())]
    for _ in range(draw.randrange(3) if has_journal(folder) else 0):
        ran.append(run(program, folder, ran[-1].chip, words, seconds=2 * seconds * draw.random()))
    restore_last(program, folder, job, words, ran)


def stops_of(calls, most):
    """Returns at most `most` stops, one of each kind in turn, of a job with this number of calls."""
    tried = sorted({number * calls // most for number in range(most)})
    return [Stop(it, *KINDS[number % len(KINDS)]) for number, it in enumerate(tried)]


def play(program, name, make, number, act):
    """Plays a case in a folder of its own. Returns its fault, or None."""
    with tempfile.TemporaryDirectory() as folder:
        try:
            job = make()
            for file, made in job.files.items():
                Path(folder, file).write_bytes(made)
            return act(program, folder, job), None
        except Failed as failed:
            return None, f"FAILED: {name}, {number}: {failed}"


def play_backup(program):
    """Plays a backup, and its restore on a chip whose bytes were all changed."""
    with tempfile.TemporaryDirectory() as folder:
        chip, other = Chip(content(9, TINY64)), Chip(content(10, TINY64))
        try:
            done = run(program, folder, chip, ["--backup", "j"])
            expect(done.status == 0 and done.chip.kept() == chip.kept(), "the backup fails or changes the chip", done)
            back = run(program, folder, other, ["--restore", "j"])
            expect(back.status == 0 and back.chip.kept() == chip.kept(), "the backup doesn't restore", back)
        except Failed as failed:
            return f"FAILED: backup: {failed}"
    return None


def main(words):
    parser = argparse.ArgumentParser(prog="tests/played/run.py")
    parser.add_argument("program")
    parser.add_argument("jobs", nargs="*", metavar="JOB", help=", ".join(JOBS))
    parser.add_argument("--most", type=int, metavar="N", help="the number of stops, and of kills, of each job")
    asked = parser.parse_intermixed_args(words)
    if not os.access(asked.program, os.X_OK) or set(asked.jobs) - set(JOBS):
        parser.error("PROGRAM must be a program, and each JOB a job")
    program = str(Path(asked.program).resolve())
    faults = [play_backup(program)]
    with ThreadPoolExecutor(CASES_AT_ONCE) as pool:
        for name in asked.jobs or JOBS:
            make = JOBS[name]
            whole, fault = play(program, name, make, "whole", play_whole)
            faults.append(fault)
            if fault is not None:
                continue
            is_large = len(make().chip.bytes) != TINY64
            stops = stops_of(whole[0], asked.most or (STOPS_LARGE if is_large else STOPS))
            kills = asked.most or (KILLS_LARGE if is_large else KILLS)
            cases = [pool.submit(play, program, name, make, stop, lambda *at, stop=stop: play_stop(
                *at, stop, random.Random(f"{name} {stop.calls}"))) for stop in stops]
            cases += [pool.submit(play, program, name, make, f"kill {kill}", lambda *at, kill=kill: play_kill(
                *at, whole[1], random.Random(f"{name} kill {kill}"))) for kill in range(kills)]
            faults += [it.result()[1] for it in cases]
            print(f"{name}: {len(stops)} stops in {whole[0]} calls, {kills} kills in {whole[1]:.1f} s")
    failed = [it for it in faults if it is not None]
    print("\n".join(failed), end="\n" if failed else "")
    print(f"{len(faults) - len(failed)} passed, {len(failed)} failed")
    return int(bool(failed))


if __name__ == "__main__":
    sys.exit(main(sys.argv[1:]))
