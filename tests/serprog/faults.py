"""Cases of programmers that can't be used, and of the line with the cause that follows error 12.

The programmer faults of these cases occur before the first transaction is carried out, and no file is created.
"""
import fcntl
import os
import subprocess
import sys
from pathlib import Path

import reference
from bench import Differs, check, split_handshake
from losses import session_wire
from options import images

STTY = "stty -F DEV raw -echo clocal -hupcl min 0 time 50"
FIRMWARE = "Disconnect the programmer from power for a second, connect it again, set up the port, and repeat the " \
    f"run; install other firmware only if the same line appears again. To set up the port: {STTY}"
# The time-out of the terminal device in cases with a silent programmer, in tenths of a second.
SOON = 10
UNPLUG = "Disconnect the programmer from power for a second before the next run: it may wait for the rest of a command, " \
    "which the next run would complete."
RESTORE = "Then restore the chip with --restore j."
UNCHANGED = "The chip was not changed."
LOST = "Cause: the chip's ID changed from "
DIFFER = "Cause: two reads of the same bytes differ. Lower the clock (spispeed=), shorten the wires, and try again."
CAUSES = {
    "nak": "the programmer refused command 13h",
    "strange": "the programmer answered 21h, which is neither ACK nor NAK",
    "mute": "the programmer is silent",
}


def refuse(bench, text, keys="", number=None):
    """Checks that a session and a read end with this programmer fault before any transaction, and create no file."""
    bench.write("new", b"\xff" * 65536)
    line = bench.device(f"Programmer fault {number}: {text}")
    before = bytes(bench.chip.data)
    bench.expect("-w", "new", "--journal", "j", keys=keys, err=[line])
    bench.check_unselected()
    bench.check_absent("j")
    bench.expect("-r", "out", keys=keys, err=[line])
    bench.check_unselected()
    bench.check_absent("out")
    bench.check_chip(before)


def needs_a_device(start):
    """A run whose device is missing ends with programmer fault 1."""
    bench = start()
    bench.path("dev").unlink()
    refuse(bench, "DEV cannot be opened: there is no such file. Check its name, and that the programmer is connected.",
           number=1)
    bench.check_nothing_sent()


def needs_a_character_device(start):
    """If the device is a file, a directory or a FIFO, the run ends with programmer fault 2. A file stays unchanged."""
    bench = start()
    text = "DEV is not a character device. Name the serial port of the programmer."
    dev = bench.path("dev")
    dev.unlink()
    dev.write_bytes(b"valuable")
    refuse(bench, text, number=2)
    bench.check_file("dev", b"valuable")
    for make, remove in (os.mkdir, os.rmdir), (os.mkfifo, os.unlink):
        if dev.is_file():
            dev.unlink()
        make(dev)
        refuse(bench, text, number=2)
        remove(dev)
    bench.check_nothing_sent()


def locks_the_device(start):
    """If another process has locked the device, the run ends with programmer fault 3, and sends nothing."""
    bench = start()
    with open(bench.path("dev"), "rb", buffering=0) as other:
        fcntl.flock(other, fcntl.LOCK_EX)
        refuse(bench, "DEV is in use by another program. Wait until that program has ended.", number=3)
        bench.check_nothing_sent()
    bench.expect(out=[reference.found("TINY64")])


def opens_only_its_device(start):
    """A run sends only to the device that dev= names: a second programmer receives no byte, even if the first fails."""
    old, new = images("opens_only_its_device")
    wire = session_wire(old, new)
    last = max(at for at, (out, _) in enumerate(wire, 1) if out[0] in reference.CHANGING)
    for events in {}, {last: "nak"}:
        bench, other = start(data=old), start(data=old)
        bench.write("new", new)
        bench.path("other").symlink_to(other.path("dev"))
        for words in ("-r", "out"), ("-w", "new", "--journal", "j"), ("--restore", "j"):
            bench.run(*words, events=dict(events))
            check("bytes that the named programmer received", len(bench.server.received) > 0, True)
            check("bytes that the other one received", bytes(other.server.received), b"")
        other.check_chip(old)


def sends_nothing_before_its_job(start):
    """Before the job, the only transactions of a run are ABh, the trial reads, and reads of the ID and of status 1."""
    old, new = images("sends_nothing_before_its_job")
    bench = start(data=old)
    bench.write("new", new)
    first = reference.frames(reference.carried([reference.POLL], old))
    for words in (), ("-r", "out"), ("-v", "new"), ("-w", "new", "--journal", "j"), ("--restore", "j"):
        bench.run(*words)
        commands, rest = split_handshake(bench.server.received)
        check("opcodes of the handshake", {it[0] for it in commands} <= {0, 1, 2, 3, 4, 5, 8, 0x10, 0x11, 0x12, 0x15}, True)
        check(f"the first frames of {words}", rest[: len(first)], first)
        if "j" not in words:
            bench.check_chip(old)


def holds_its_lock(start):
    """A run has its device locked during each transaction."""
    bench = start(data=b"\0" * 65536, events={})
    got = []

    def try_lock(out, replies, carry=bench.chip.transfer):
        with open(bench.path("dev"), "rb", buffering=0) as other:
            try:
                fcntl.flock(other, fcntl.LOCK_EX | fcntl.LOCK_NB)
                got.append("free")
            except BlockingIOError:
                got.append("locked")
        return carry(out, replies)

    bench.chip.transfer = try_lock
    bench.expect("-E", "--journal", "j", out=[
        "Found SFDP (fe1010), 65536 bytes.", "Done: touched 16, erases 1, programs 0, transactions 42."])
    check("the device during each transaction", set(got), {"locked"})


def needs_an_answer(start):
    """If the programmer never replies, the run sends one NOP and ends with programmer fault 4."""
    bench = start(is_silent=True, timeout=SOON)
    refuse(bench, "the programmer is silent. Check its cable. It may wait for the rest of a command of an interrupted "
           "run, and each run may complete a part of this command: before the next run, disconnect the programmer from "
           f"power for a second, connect it again, and set up the port: {STTY}", number=4)
    check("bytes that were sent", bytes(bench.server.received), b"\0")


def says_why_it_waits(start):
    """At a port without a time-out, a run prints `WAITING`, sends one NOP, and still waits after a second."""
    bench = start(is_silent=True, is_set_up=False)
    bench.write("new", b"\xff" * 65536)
    bench.expect_to_wait("-w", "new", "--journal", "j")
    check("bytes that were sent", bytes(bench.server.received), b"\0")
    bench.check_absent("j")


def needs_its_step(start):
    """If the device sends text without end, the run ends with programmer fault 5."""
    bench = start(babbles=True)
    bench.write("new", b"\xff" * 65536)
    got = bench.run("-w", "new", "--journal", "j")
    advice = f"Disconnect the programmer from power, connect it again, and set up the port: {STTY}"
    text = "the programmer gave a wrong reply to SYNCNOP"
    bench.compare(got, [], [bench.device(f"Programmer fault 5: {text}. {advice}")])
    bench.check_unselected()
    bench.check_absent("j")


def needs_right_replies(start):
    """If a reply to one of five handshake commands is neither ACK nor NAK, the run ends with programmer fault 5.

    If the reply to one of these commands is NAK, the run ends with programmer fault 11.
    """
    advice = f"Disconnect the programmer from power, connect it again, and set up the port: {STTY}"
    for opcode in 0x01, 0x02, 0x08, 0x12, 0x15:
        refuse(start(replies={opcode: b"!"}), "the programmer answered 21h, which is neither ACK nor NAK. " + advice,
               number=5)
        refuse(start(replies={opcode: b"\x15"}), f"the programmer refused command {opcode:02X}h. {FIRMWARE}", number=11)


def needs_a_port(start):
    """If the device fails during the handshake, as an unplugged one does, the run ends with programmer fault 10."""
    begins = "Programmer fault 10: the port failed: "
    # On a busy machine the device may fail before the program reads. The read then returns no bytes and no error, which
    # is programmer fault 4, so the run is tried again.
    for _ in range(5):
        bench = start(replies={0x02: None})
        got = bench.run("-r", "out")
        if got.err and got.err[0].startswith(begins):
            break
    check("standard output, lines and exit status", (got.out, len(got.err), got.status), ([], 1, 1))
    ends = bench.device(f". Connect the programmer again, and set up the port: {STTY}")
    check("the line", (got.err[0][: len(begins)], got.err[0][-len(ends) :]), (begins, ends))
    bench.check_absent("out")


def needs_version_1(start):
    """If the programmer speaks another version of serprog than 1, the run ends with programmer fault 6."""
    for version in 0, 2, 257:
        refuse(start(version=version), f"the programmer speaks version {version} of serprog, and only version 1 is "
               f"known. {FIRMWARE}", number=6)


def needs_commands(start):
    """If the programmer has no O_SPIOP, or no command for spispeed= or cs=, the run ends with programmer fault 7."""
    for opcode, keys, advice in ((0x13, "", FIRMWARE), (0x14, ",spispeed=1000", "Leave spispeed= out."),
                                 (0x16, ",cs=1", "Leave cs= out.")):
        bench = start(lacks=(opcode,))
        refuse(bench, f"the programmer lacks command {opcode:02X}h, which is needed here. {advice}", keys, number=7)
        check("commands that it lacks", [it for it in bench.server.commands if it[0] == opcode], [])


def has_the_chip_select(start):
    """If the programmer refuses the number in cs=, the run ends with programmer fault 11."""
    bench = start(selects=2)
    refuse(bench, "the programmer refused command 16h. Give cs= the number of another chip select.", ",cs=2", number=11)


def needs_spi(start):
    """If the programmer has no SPI bus, or several buses but no S_BUSTYPE, the run ends with programmer fault 8."""
    for traits in {"buses": 0x01}, {"buses": 0x0B, "lacks": (0x12,)}:
        refuse(start(**traits), f"the programmer cannot be set to SPI: its types of bus are {traits['buses']:02X}h. "
               f"{FIRMWARE}", number=8)


def needs_wide_limits(start):
    """If the programmer's limits exclude a page program or the unique ID, the run ends with programmer fault 9."""
    for traits, text in (
        ({"longest_write": 4}, "the programmer sends at most 4 bytes in a transaction, too few for a page program"),
        *(({"longest_read": most}, f"the programmer reads at most {most} bytes in a transaction, and a unique ID has 8")
          for most in range(1, 8)),
        ({"lacks": (0x08,), "buffer": 11},
         "the serial buffer of the programmer has 11 bytes, too few for a page program"),
    ):
        refuse(start(**traits), f"{text}. {FIRMWARE}", number=9)


def reports_causes(start):
    """After error 12 a line has the cause and advice. If the chip may have changed, the advice is to restore it."""
    old, new = images("reports_causes")
    wire = session_wire(old, new)
    seal = wire.index(reference.WRITE_ENABLE)
    started = len(reference.before_job(old))
    for event, text in CAUSES.items():
        for at in started + 2, seal, seal + 5:
            bench = start(data=old, timeout=SOON)
            bench.write("new", new)
            got = bench.run("-w", "new", "--journal", "j", events={at: event})
            after = RESTORE if at > seal else UNCHANGED
            # At `started + 2` the journal doesn't exist yet. At `seal` it is sealed, and the chip isn't changed yet.
            used = [reference.used_name()] * (at == seal)
            bench.compare(got, [], ["Error 12: stopped.", f"Cause: {text}. {UNPLUG} {after}", *used])
            # A long page program is sent together with its write enable, so the programmer carries it out, too.
            batch = at + (wire[at - 1] == reference.WRITE_ENABLE and reference.joins(wire[at][0]))
            bench.check_carried(batch - (event == "nak"))
        got = bench.run("-r", "out", events={started + 8: event})
        bench.compare(got, [], ["Error 12: stopped.", f"Cause: {text}. {UNPLUG}"])


def reports_the_port(start):
    """If the programmer is unplugged, a session ends with error 12, and a second line has a cause and the advice."""
    old, new = images("reports_the_port")
    bench = start(data=old)
    bench.write("new", new)
    wire = session_wire(old, new)
    last = max(at for at, (out, _) in enumerate(wire, 1) if out[0] in reference.CHANGING)
    got = bench.run("-w", "new", "--journal", "j", events={last: "unplug"})
    check("the lines", (got.out, got.err[:1], len(got.err), got.status), ([], ["Error 12: stopped."], 2, 1))
    begins, ends = "Cause: the ", f". {UNPLUG} {RESTORE}"
    check("the cause", (got.err[1][: len(begins)], got.err[1][-len(ends) :]), (begins, ends))


def says_once_what_to_do(start):
    """If a run stops in the comparison after its change or restore, the line with the cause advises no restore."""
    old, new = images("says_once_what_to_do")
    wire = session_wire(old, new)
    bench = start(data=old)
    bench.write("new", new)
    cause = f"Cause: the programmer refused command 13h. {UNPLUG}"
    got = bench.run("-w", "new", "--journal", "j", events={len(wire) - 2: "nak"})
    bench.compare(got, [], ["Error 12: stopped.", cause, "The change was made, and its sectors were verified. Only the "
                            "comparison of the whole chip is missing."])
    bench.check_chip(new)
    bench.plug()
    check("a restore", bench.run("--restore", "j").status, 0)
    got = bench.run("--restore", "j", events={len(bench.server.log) - 1: "nak"})
    bench.compare(got, [], ["Error 12: stopped.", cause, "The sectors that the journal doesn't save were not compared "
                            "after the restore. Compare the chip with a backup."])
    bench.check_chip(old)


def takes_no_kill(start):
    """server.py, started as a program, refuses the event `kill`, because it doesn't know which process to kill."""
    bench = start()
    words = [sys.executable, str(Path(__file__).with_name("server.py")), str(bench.path("own")), "--event", "3=kill"]
    try:
        got = subprocess.run(words, stdout=subprocess.PIPE, stderr=subprocess.PIPE, text=True, timeout=10, check=False)
    except subprocess.TimeoutExpired:
        raise Differs("the programmer was started") from None
    check("exit status and the end of the line", (got.returncode, "the event kill" in got.stderr), (2, True))


def reads_twice(start):
    """If two reads of the same bytes differ, a session ends with error 12, leaves no journal, and changes nothing."""
    old, new = images("reads_twice")
    bench = start(data=old)
    bench.write("new", new)
    wire = session_wire(old, new)
    reads = [at for at, (out, _) in enumerate(wire, 1) if at >= bench.first() and out[0] == 0x03]
    for first in reads[0], reads[2], reads[5]:
        bench.server.traits.wrong_bits = {first: (0, 4)}
        got = bench.run("-w", "new", "--journal", f"j{first}")
        bench.compare(got, [], ["Error 12: stopped.", f"{DIFFER} {UNCHANGED}"])
        bench.check_chip(old)
        bench.check_absent(f"j{first}")
    bench.write("same", old)
    wire = reference.carried(reference.probe("TINY64"), old)
    # The wrong bit is in the second block of data. Before it come the first block and a read of the ID.
    bench.server.traits.wrong_bits = {len(wire) + 3: (0, 4)}
    check("a wrong bit", bench.run("-v", "same").err[-1], DIFFER)


CASES = [needs_a_device, needs_a_character_device, locks_the_device, opens_only_its_device,
         sends_nothing_before_its_job, holds_its_lock, needs_an_answer,
         says_why_it_waits, needs_its_step, needs_right_replies, needs_a_port, needs_version_1, needs_commands,
         has_the_chip_select, needs_spi, needs_wide_limits, reports_causes, reports_the_port, says_once_what_to_do,
         takes_no_kill, reads_twice]
