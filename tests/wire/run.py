#!/usr/bin/env python3
"""tests/wire/run.py PROGRAM [OPTION..] [JOB..]: tests flashnor-serprog at a line that loses, doubles or inserts bytes,
and kills it in the middle of a frame.

The programmer (firmware.py) works byte by byte, as a UART does. If a run ends in the middle of a frame, the programmer
keeps the received part. The chips (flash.py, winbond.py) are written from datasheets, and share no code with
tests/serprog. frames.py chooses the bytes, and jobs.py defines the jobs. play.py plays each case, and the runs of a
user afterwards.

A case that failed is printed with its runs. The last line is `N passed, M failed`, and the exit status is 1 if a case
failed or none was played. Without --all, only the cases are played that `is_in_part` chooses. --list also prints each
case that `remains` allows. On a machine that is busy with other work, --processes sets how many cases are played at a
time, and the environment variable PATIENCE=N multiplies the times of line.py by N.
"""
import argparse
import collections
import os
import sys
import time
import traceback
from concurrent.futures import ProcessPoolExecutor
from pathlib import Path

import frames
import jobs
import play
from remains import remains

# A case mostly waits for replies, so each core can play several cases at a time.
PROCESSES = 6 * (os.cpu_count() or 1)
# Without --all, every STEP-th case of a job is played, in addition to the most important ones (`is_in_part`).
STEP = 29


def cases_of(program, name):
    """Returns the cases of a job. A case has the job's name, a fault, and the frame in which the fault occurs."""
    _, played = play.clean(program, name)
    all_frames = frames.frames_of(played.sent)
    faults = frames.sweep(all_frames, jobs.JOBS[name].is_long) + frames.cuts(all_frames)
    return [(name, it, frames.frame_at(all_frames, it)) for it in faults]


def is_in_part(number, fault, frame):
    """Returns whether a case is played without --all. These cases are:

    - each loss of one byte on the way to the programmer, and each PLAIN cut, in a frame that modifies the chip
    - each loss of up to three bytes on the way to the programmer in a status write
    - each case whose number in its job is a multiple of STEP
    """
    is_main = frame.modifies and fault.way == "to" and (fault.kind, fault.value) in (("lose", 1), ("cut", 1))
    is_main |= frame.kind[1] == 0x01 and fault.way == "to" and fault.kind == "lose"
    return is_main or number % STEP == 0


def try_case(program, case):
    """Plays a case. Returns the findings, the set of reasons that allow them (None if one isn't allowed), and the runs.

    If a finding isn't allowed, the case is played again with LONG_PATIENCE, and only this result counts, because a busy
    machine may have caused the finding.
    """
    name, fault, frame = case
    try:
        found, ran = play.play(program, name, fault)
        reasons = [remains(it, name, fault, frame) for it in found]
        if not all(reasons):
            found, ran = play.play(program, name, fault, play.LONG_PATIENCE)
            reasons = [remains(it, name, fault, frame) for it in found]
        return found, set(reasons) if all(reasons) else None, ran
    except Exception:  # an error in the model must not count as a passed case
        return [play.Finding("broken", traceback.format_exc(limit=-4))], None, []


def parse(words):
    """Returns the parsed arguments. Ends the script if they are wrong."""
    parser = argparse.ArgumentParser(prog="tests/wire/run.py")
    parser.add_argument("program")
    parser.add_argument("jobs", nargs="*", metavar="JOB", help=", ".join(jobs.JOBS))
    parser.add_argument("--all", action="store_true", help="all cases, in place of a part")
    parser.add_argument("--list", action="store_true", help="print the cases that remain, too")
    parser.add_argument("--processes", type=int, default=PROCESSES, help="cases at a time: %(default)s")
    asked = parser.parse_intermixed_args(words)
    if not os.access(asked.program, os.X_OK) or set(asked.jobs) - set(jobs.JOBS) or asked.processes < 1:
        parser.error("PROGRAM must be a program, each JOB a job, and N at least 1")
    return asked


def main(words):
    asked = parse(words)
    program, begun = str(Path(asked.program).resolve()), time.monotonic()
    sys.stdout.reconfigure(line_buffering=True)
    with ProcessPoolExecutor(asked.processes) as pool:
        cases = []
        for found in pool.map(cases_of, *zip(*((program, it) for it in asked.jobs or jobs.JOBS))):
            cases += [it for number, it in enumerate(found) if asked.all or is_in_part(number, *it[1:])]
        failed, left = report(program, cases, pool, asked.list)
    for text, number in sorted(left.items()):
        print(f"{number} cases remain: {text}")
    print(f"{len(cases)} cases in {time.monotonic() - begun:.0f} s")
    print(f"{len(cases) - failed} passed, {failed} failed")
    return int(failed > 0 or not cases)


def report(program, cases, pool, shows_all):
    """Plays these cases, and prints those that failed and, if `shows_all` is true, those with allowed findings. Returns
    the number of failed cases, and for each reason of `remains` the number of cases that it allowed."""
    failed, left = 0, collections.Counter()
    plays = pool.map(try_case, [program] * len(cases), cases, chunksize=4)
    for (name, fault, frame), (found, reasons, ran) in zip(cases, plays):
        left.update(reasons or ())
        failed += reasons is None
        if reasons is None or found and shows_all:
            print(f"{'FAILED' if reasons is None else 'remains'}: {name}, {frame.name}, byte "
                  f"{fault.at - frame.begin_of(fault)} of {frame.end - frame.begin}, {fault.way} {fault.kind} "
                  f"{fault.value:02x}h: {'; '.join(f'{it.kind}: {it.text}' for it in found)}")
            print("".join(f"    {it}\n" for it in ran), end="")
    return failed, left


if __name__ == "__main__":
    sys.exit(main(sys.argv[1:]))
