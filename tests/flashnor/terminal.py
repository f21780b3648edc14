#!/usr/bin/env python3
"""tests/flashnor/terminal.py COMMAND..: runs a command with its standard error at a terminal, and prints what the
terminal receives to standard error. The exit status is that of the command."""
import os
import pty
import subprocess
import sys
import tty


def received(descriptor):
    """Yields the bytes that the terminal receives, until no process has it open."""
    while True:
        try:
            got = os.read(descriptor, 65536)
        except OSError:
            return
        if not got:
            return
        yield got


def main():
    ours, theirs = pty.openpty()
    tty.setraw(theirs)
    with subprocess.Popen(sys.argv[1:], stderr=theirs) as run:
        os.close(theirs)
        for got in received(ours):
            os.write(2, got)
    return run.returncode if run.returncode >= 0 else 128 - run.returncode


if __name__ == "__main__":
    sys.exit(main())
