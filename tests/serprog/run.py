#!/usr/bin/env python3
"""The command `tests/serprog/run.py PROGRAM [NAME..]` tests the program flashnor-serprog with a simulated programmer.

server.py simulates the programmer at a pseudo-terminal, and chip.py simulates the chip after the datasheets. The
command runs the cases of the MODULES below, bits.py's jobs (`bits_..`) and `losses`, or only those that are named:

- manual.py and rescue.py follow the manual page.
- all_makers.py tests the chips that chips/ describes, and status_bits.py tests bits of their status 1. Both use the
  model of models.py, which model_rules.py tests.
- bits.py inverts single bits of replies, and lets the chip miss single frames.
- `losses` runs losses.py and busy.py. losses.py kills the program at each transaction of a session and of its restore.
  From the first transaction of the job on it also drops each reply. At each erase and program of a session it cuts the
  frame or the chip's power. busy.py kills the program, or drops a reply, at some operations while the chip is busy.

reference.py computes what the program must send and print, without the program. For a failed case, the command prints
what was expected and what was received. Its last line is `N passed, M failed`, and its exit status is 1 if a case
failed or none was run.
"""
import os
import sys
import tempfile
import time
from concurrent.futures import ProcessPoolExecutor
from functools import partial
from pathlib import Path

import all_makers
import backups
import bits
import board_bits
import busy
import chip_maps
import contact
import contacts
import extract
import faults
import journals
import locks
import logs
import losses
import makers
import manual
import maps
import model_rules
import narrow
import options
import ports
import printed
import quad
import refusals
import regions
import rescue
import rest
import sectors
import status_bits
import terminal
import trials
import typed
import units
import wire
from bench import Bench, Differs

MODULES = (
    options, journals, maps, chip_maps, regions, terminal, backups, refusals, faults, wire, contact, contacts, rest,
    sectors, narrow, busy, board_bits, ports, manual, rescue, logs, locks, units, extract, printed, typed, makers, quad,
    all_makers, status_bits, model_rules, trials,
)
CASES = {case.__name__: case for module in MODULES for case in module.CASES}


def try_case(program, name):
    """Runs a case. Returns `None` if the case passed, and otherwise the lines that describe the failure."""
    case, benches = CASES[name], []
    with tempfile.TemporaryDirectory() as folder:

        def start(part="TINY64", **chosen):
            own = Path(folder) / str(len(benches))
            own.mkdir()
            benches.append(Bench(program, own, part, **chosen))
            return benches[-1]

        try:
            case(start)
            return None
        except (Differs, OSError, LookupError) as why:
            lines = why.args if isinstance(why, Differs) else [f"it can't be done: {why!r}"]
            at = benches[-1].command if benches else ""
            return f"FAILED: {name}: {case.__doc__}", f"    at: {at}", *(f"    {it}" for it in lines)
        finally:
            for bench in benches:
                bench.close()


def run_all(tries, pool):
    """Runs these functions in the processes of the pool, and returns how many passed and how many failed."""
    passed = failed = 0
    for failure in [pool.submit(it) for it in tries]:
        lines = failure.result()
        passed += not lines
        failed += bool(lines)
        for line in lines or ():
            print(line)
    return passed, failed


def main(words):
    if not words or not os.access(words[0], os.X_OK):
        sys.exit("usage: tests/serprog/run.py PROGRAM [NAME..]")
    sys.stdout.reconfigure(errors="backslashreplace", line_buffering=True)
    program, names = Path(words[0]).resolve(), words[1:] or [*CASES, "losses", *bits.WORKS]
    jobs = [it for it in names if it.startswith("bits_")]
    names = [it for it in names if it not in jobs]
    tries = [partial(try_case, program, name) for name in names if name != "losses"]
    tries += bits.tries(program, jobs)
    if "losses" in names:
        tries += [partial(losses.try_loss, program, it) for it in losses.losses()]
        tries += [partial(busy.try_loss, program, it) for it in busy.losses()]
    with ProcessPoolExecutor(os.cpu_count()) as pool:
        passed, failed = run_all(tries, pool)
    times = os.times()
    seconds = sum((times.user, times.system, times.children_user, times.children_system))
    print(f"{seconds:.0f} s of processor time in {time.monotonic() - BEGUN:.0f} s")
    print(f"{passed} passed, {failed} failed")
    return int(failed > 0 or passed == 0)


BEGUN = time.monotonic()

if __name__ == "__main__":
    sys.exit(main(sys.argv[1:]))
