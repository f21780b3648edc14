#!/usr/bin/env python3
"""scripts/twice.py: checks that no two definitions of crates/*/specs have equal names, except those of ALLOWED.

A definition is a record, type, abbreviation or function that `pub` exports. For each other name that several
definitions have, the script prints their places. It also prints each name of ALLOWED that doesn't have several
definitions. If it printed such a name, it ends with exit status 1.
"""
import collections
import re
import sys

sys.dont_write_bytecode = True  # so that Python creates no files in scripts/
import texts
from sources import CRATES, TOP

DEFINED = re.compile(r"^(?=.*\bpub\b)(?:(?:pub|abbrev|unfoldable|pattern) )+(?:(?:record|data) )?(?!use |mod )(\S+)", re.M)
# These names may have several definitions. Each group has the reason.
ALLOWED = {
    # Two buses of nor_serprog send different bytes, so each has these definitions for its own state. `cause_of` of
    # nor_console is the line with the cause of a fault.
    *"cause_of has_further is_ready link_of polled_ready_of port_in sent_of serprog_state".split(),
    # Each kind of bus has its own history.
    "history_of",
    # Two buses of nor_buses were given rows of the table of chips. Each reads their IDs from its own field.
    "rows_of",
    # The restores of board_jobs and of serprog_session end with different errors.
    "FailsBy",
    # In nor_model, what a bus passes on. In flashnor, a chip that passed the check of its name.
    "Passes",
    # In nor_model, a command that has a name. In nor_files, a stored file that has the given name.
    "is_named",
}


def definitions():
    """Returns the names of all definitions, each with the places of its definitions."""
    found = collections.defaultdict(list)
    for path in sorted(CRATES.glob("*/specs/**/*.antt")):
        text = path.read_text(encoding="utf-8")
        for match in DEFINED.finditer(text):
            line = text.count("\n", 0, match.start()) + 1
            found[match[1]].append(f"{path.relative_to(TOP)}:{line}")
    return found


def main():
    """Prints each name that is defined twice without permission, and each name of ALLOWED that isn't defined twice."""
    found = definitions()
    twice = {name for name, places in found.items() if len(places) > 1}
    for name in sorted(twice - ALLOWED):
        texts.differs(f"twice: {name} is defined at {' and '.join(found[name])}")
    for name in sorted(ALLOWED - twice):
        texts.differs(f"twice: ALLOWED of scripts/twice.py has {name}, which is not defined twice")
    print(f"twice: {len(found)} names of definitions, {len(twice)} of them twice")
    texts.finish()


if __name__ == "__main__":
    main()
