#!/usr/bin/env python3
"""scripts/prove.py CRATE: proves a crate and all crates that depend on it (the listed crates), in the order of
crates.txt.

`rt check` proves each crate, except its tests. It uses what earlier checks kept in `out/`. The crates are proved one
after the other, because two checks in one clone would wait for each other at the crates on which both depend. A crate
is tried only if those of the listed crates that it uses are proved. If a check fails, its output is printed. The last
line has the counts, and the exit status is 1 if a crate wasn't proved.
"""
import subprocess
import sys
import time

sys.dont_write_bytecode = True  # so that Python creates no files in scripts/
import crates
from sources import CRATES


def dependents(name, listed):
    """Returns a crate and all crates that depend on it, in the order of crates.txt. Each has the set of those among
    them that it uses."""
    found = {}
    for crate, libraries in listed.items():
        if crate == name or found.keys() & libraries:
            found[crate] = found.keys() & libraries
    return found


def check(crate):
    """Proves a crate, and returns whether that succeeded. Prints the seconds that it took or, if it failed, its
    output."""
    begun = time.monotonic()
    ran = subprocess.run(["rt", "check"], cwd=CRATES / crate, stdin=subprocess.DEVNULL, stdout=subprocess.PIPE,
                         stderr=subprocess.STDOUT, text=True, errors="replace", check=False)
    if ran.returncode:
        print(ran.stdout, end="")
    took = time.monotonic() - begun
    print(f"{crate}: {'FAILED' if ran.returncode else f'proved in {took:.0f} seconds'}", flush=True)
    return ran.returncode == 0


def main():
    listed = {crate: set(libraries) for crate, (_, libraries) in crates.lines().items()}
    name = sys.argv[1] if len(sys.argv) == 2 else ""
    if name not in listed:
        print(f"crates.txt has no crate '{name}'. Give one of these: make prove CRATE=..", *listed, sep="\n  ",
              file=sys.stderr)
        return 1
    order, proved = dependents(name, listed), set()
    for crate, needed in order.items():
        if not needed <= proved:
            print(f"{crate}: not tried, since it depends on a crate that isn't proved")
        elif check(crate):
            proved.add(crate)
    print(f"prove: {len(proved)} passed, {len(order) - len(proved)} failed")
    return int(len(proved) < len(order))


if __name__ == "__main__":
    sys.exit(main())
