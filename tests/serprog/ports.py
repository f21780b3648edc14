"""These cases test serial ports that aren't raw, and the script that makes a port raw before it runs the program.

The port is a pseudo-terminal with the flags of termios(3). Its input flags change bytes that the program receives, and
its output flags change bytes that the program sends.
"""
import os
import shutil
import subprocess
import termios
from pathlib import Path

import reference
from bench import Differs, check
from faults import SOON, STTY, UNCHANGED
from losses import FEW, chip_images
from options import images

SCRIPT = Path(__file__).resolve().parents[2] / "scripts" / "flashnor-serprog.sh"
# These input, output and local flags are usual for a terminal at which a person types.
COOKED = (termios.ICRNL | termios.IXON, termios.OPOST | termios.ONLCR, termios.ICANON | termios.ISIG | termios.ECHO)
CHANGES_SENT = f"Programmer fault 12: DEV changes bytes that are sent to the programmer. Disconnect the programmer from " \
    f"power for a second, connect it again, and set up the port: {STTY}"


def changes_received(lost, read_as):
    return f"Programmer fault 13: {read_as} was often read, {lost} never. The port probably changes {lost} to {read_as}: " \
        "then throw away what was read (also a journal), set up the port with stty, and repeat the run."


def set_flags(bench, received=0, sent=0, local=0, control=0):
    """Sets these flags of the port in addition to those that are set: input, output, local and control flags."""
    settings = termios.tcgetattr(bench.server.device)
    for at, flags in enumerate((received, sent, control, local)):
        settings[at] |= flags
    termios.tcsetattr(bench.server.device, termios.TCSANOW, settings)


def refuses_a_port_that_changes_what_is_sent(start):
    """Checks that a port that changes 0Dh or 0Ah on the way to the programmer is programmer fault 12.

    The fault must occur at the first transaction, before the chip is identified, and no file may be created.
    """
    old, new = images("refuses_a_port_that_changes_what_is_sent")
    for flags in termios.ONLCR, termios.OCRNL, termios.ONLCR | termios.OCRNL:
        bench = start(data=old, timeout=SOON)
        set_flags(bench, sent=termios.OPOST | flags)
        bench.write("new", new)
        for words in ("-w", "new", "--journal", "j"), ("-r", "out"), ():
            bench.expect(*words, err=[bench.device(CHANGES_SENT)])
            check("transactions", len(bench.server.log), 1)
            bench.plug(timeout=SOON)
            set_flags(bench, sent=termios.OPOST | flags)
        bench.check_absent("j")
        bench.check_absent("out")
        bench.check_chip(old)


def notices_a_port_that_changes_what_is_received(start):
    """Checks that -r, --backup and -v end with programmer fault 13 if the port turns 0Dh into 0Ah, or 0Ah into 0Dh.

    A chip that contains a text without 0Dh is read without a fault.
    """
    old, _ = images("notices_a_port_that_changes_what_is_received")
    for flag, lost, read_as in (termios.ICRNL, 0x0D, 0x0A), (termios.INLCR, 0x0A, 0x0D):
        bench = start(data=old)
        bench.write("old", old)
        set_flags(bench, received=flag)
        line = changes_received(f"{lost:02X}h", f"{read_as:02X}h")
        for words in ("-r", "out"), ("--backup", "whole"), ("-v", "out"):
            got = bench.run(*words)
            check(f"{words}, lines of the fault", (got.err, got.status), ([line], 1))
        bench.check_file("out", old.replace(bytes([lost]), bytes([read_as])))
        bench.expect("-v", "old", err=[f"Error 14: bytes differ at 0x{old.index(lost):06x}.", line])
        check("transactions that change the chip",
              [it for it in bench.server.log if it[0][0] in reference.CHANGING], [])
    text = (b"A text with lines, but without 0Dh.\n" * 4096)[: len(old)]
    bench = start(data=text)
    check("a chip with text", bench.run("-r", "out").status, 0)
    bench.check_file("out", text)


def changes_nothing_with_wrong_data(start):
    """Checks that a session stops before its first modifying command if the port changes received bytes.

    A restore isn't stopped. It restores the chip, but its verification reports error 14.
    """
    old, new = chip_images(FEW)
    for flag, lost, read_as in (termios.ICRNL, 0x0D, 0x0A), (termios.INLCR, 0x0A, 0x0D):
        line = changes_received(f"{lost:02X}h", f"{read_as:02X}h")
        bench = start(data=old)
        bench.write("new", new)
        set_flags(bench, received=flag)
        for at, words in enumerate((("-w", "new"), ("-w", "new", "-N"), ("-E",))):
            got = bench.run(*words, "--journal", f"j{at}")
            bench.compare(got, [], ["Error 12: stopped.", f"{line} {UNCHANGED}", reference.used_name(f"j{at}")])
            bench.check_chip(old)
        bench.plug()
        check("a session with a raw port", bench.run("-w", "new", "--journal", "j").status, 0)
        bench.check_chip(new)
        set_flags(bench, received=flag)
        got = bench.run("--restore", "j")
        address = next(at for at in range(len(old)) if at // 4096 in FEW and old[at] == lost)
        bench.compare(got, [], [*reference.not_stored(address, "--restore"), line])
        bench.check_chip(old)


def installed(bench):
    """Installs the script and the program in the bench's directory, as `make install` does.

    Returns the script's path.
    """
    script, program = bench.path("bin/flashnor-serprog"), bench.path("libexec/flashnor_serprog")
    for it in script, program:
        it.parent.mkdir()
    shutil.copy(SCRIPT, script)
    shutil.copy(bench.program, program)
    return script


def run_script(bench, script, words, variables=None):
    """Runs the script with these arguments, and returns the finished process.

    A run of more than a minute fails the case.
    """
    bench.server.begin({})
    try:
        return subprocess.run([script, *words], cwd=bench.folder, env={**os.environ, **(variables or {})},
                              capture_output=True, text=True, timeout=60, check=False)
    except subprocess.TimeoutExpired:
        raise Differs(f"the script with {words} did not end in a minute") from None


def raw_settings(bench):
    """Returns whether the port's flags are those that the program needs, and the port's VMIN and VTIME."""
    found = termios.tcgetattr(bench.server.device)
    flags = found[0] & (COOKED[0] | termios.ISTRIP | termios.INLCR | termios.IGNCR) == 0 and found[1] & termios.OPOST == 0 \
        and found[3] & COOKED[2] == 0 and found[2] & (termios.HUPCL | termios.CLOCAL) == termios.CLOCAL
    return flags, found[6][termios.VMIN], found[6][termios.VTIME]


def sets_up_the_port(start):
    """Checks that the script flashnor-serprog makes a port with the flags COOKED raw, and then runs the program.

    The script must find the port in each form of -p that the program accepts, even after other letters (-Vp).
    """
    old, _ = images("sets_up_the_port")
    dev = "serprog:dev={},spispeed=1000000"
    for words in (("-p", dev), ("--programmer", dev), (f"--programmer={dev}",), (f"-p{dev}",), (f"-p={dev}",),
                  ("-Vp", dev), (f"-Vp{dev}",), (f"-Vp={dev}",)):
        bench = start(data=old)
        set_flags(bench, *COOKED, control=termios.HUPCL)
        script = installed(bench)
        done = run_script(bench, script, [*(it.format(bench.path("dev")) for it in words), "-r", "out"])
        check(f"the run with {words}", (done.stderr if "V" not in words[0] else "", done.returncode), ("", 0))
        bench.check_file("out", old)
        check("raw, and the least bytes and tenths of a second of a read", raw_settings(bench), (True, 0, 50))
    # The program refuses -n and -N with -r (usage fault 8), but the script has set up the port before.
    for words in ("-nNVp", dev), (f"-Np{dev}",):
        bench = start(data=old)
        set_flags(bench, *COOKED)
        done = run_script(bench, installed(bench), [*(it.format(bench.path("dev")) for it in words), "-r", "out"])
        check(f"the run with {words}", (done.stderr.splitlines()[-1:], done.returncode), (["Usage fault 8."], 1))
        check("raw, after a usage fault", raw_settings(bench), (True, 0, 50))


def leaves_the_port(start):
    """Checks that the script doesn't set up the port if the environment has FLASHNOR_SERPROG_STTY=no.

    If -p names no terminal device, the script runs the program, which prints its own fault.
    """
    old, _ = images("leaves_the_port")
    bench = start(data=old)
    script = installed(bench)
    set_flags(bench, received=termios.ICRNL)
    words = "-p", f"serprog:dev={bench.path('dev')}", "-r", "out"
    for variable, status in ("no", 1), ("yes", 0):
        done = run_script(bench, script, words, {"FLASHNOR_SERPROG_STTY": variable})
        check(f"the exit status with {variable}", done.returncode, status)
    for name, number in ("missing", 1), ("libexec/flashnor_serprog", 2):
        done = run_script(bench, script, ("-p", f"serprog:dev={bench.path(name)}"))
        check(f"the fault of {name}", done.stderr.startswith(f"Programmer fault {number}: "), True)


def runs_nothing_if_the_port_stays_as_it_is(start):
    """Checks that the script doesn't run the program if stty fails to set up the port, or if there is no stty."""
    bench = start()
    script, stty = installed(bench), bench.path("own/stty")
    stty.parent.mkdir()
    stty.write_text("#!/bin/sh\ncase $* in *-a) echo -hupcl ;; *) echo 'stty: no' >&2; exit 2 ;; esac\n")
    stty.chmod(0o755)
    done = run_script(bench, script, ("-p", f"serprog:dev={bench.path('dev')}"),
                      {"PATH": f"{stty.parent}:{os.environ['PATH']}"})
    check("the run", (done.stdout, done.stderr, done.returncode), ("", "stty: no\n", 1))
    bench.check_nothing_sent()
    # PATH now has no stty, but has readlink, which the script needs first.
    stty.unlink()
    for name in "dirname", "readlink":
        (stty.parent / name).symlink_to(shutil.which(name))
    done = run_script(bench, script, ("-p", f"serprog:dev={bench.path('dev')}"), {"PATH": str(stty.parent)})
    check("the run without stty", (done.stdout, done.stderr, done.returncode),
          ("", "flashnor-serprog: there is no stty, which sets up the port\n", 1))
    bench.check_nothing_sent()


def finds_each_name_of_a_port(start):
    """Checks that the script finds a port whose name contains `dev=` or ends with a newline.

    Only a comma ends a setting of -p, so `dev=` within a name is no key.
    """
    old, _ = images("finds_each_name_of_a_port")
    for name in "dev=port", "a dev=", "port\n", "dev=\n":
        bench = start(data=old)
        set_flags(bench, *COOKED, control=termios.HUPCL)
        os.symlink("dev", bench.path(name))
        words = ["-p", f"serprog:dev={bench.path(name)},spispeed=1000000", "-r", "out"]
        done = run_script(bench, installed(bench), words)
        check("raw, and the least bytes and tenths of a second of a read", raw_settings(bench), (True, 0, 50))
        check(f"the run with {name!r}", (done.stderr, done.returncode), ("", 0))
        bench.check_file("out", old)


def runs_no_program_that_it_finds_by_chance(start):
    """Checks that the script runs no program if it can't determine its own directory, because `readlink` is missing.

    A program with the name flashnor_serprog in the current directory must not be run.
    """
    bench = start()
    script, tools = installed(bench), bench.path("own")
    tools.mkdir()
    for name in "dirname", "stty", "sleep":
        (tools / name).symlink_to(shutil.which(name))
    chance = bench.path("flashnor_serprog")
    chance.write_text("#!/bin/sh\n: > PWN\n")
    chance.chmod(0o755)
    done = run_script(bench, script, ("-p", f"serprog:dev={bench.path('dev')}"), {"PATH": str(tools)})
    check("the exit status and the last line", (done.returncode, done.stderr.splitlines()[-1:]), (
        1, ["flashnor-serprog: readlink -f doesn't find this script, so the program isn't found"]))
    bench.check_absent("PWN")
    bench.check_nothing_sent()


CASES = [finds_each_name_of_a_port, runs_no_program_that_it_finds_by_chance, refuses_a_port_that_changes_what_is_sent,
         notices_a_port_that_changes_what_is_received,
         changes_nothing_with_wrong_data, sets_up_the_port, leaves_the_port,
         runs_nothing_if_the_port_stays_as_it_is]
