"""These cases test the trial reads before a job, which detect a chip in four-byte mode and wrong firmware.

Wrong firmware changes, truncates, refuses or ignores long frames. A chip in four-byte mode takes one more address byte
after 03h, 02h, 20h, 52h and D8h (W25Q256FV datasheet, Address Modes). A run that is refused sends only ABh and reads,
and creates no file. One wrong bit in a trial read must not prevent a run.
"""
import random

import reference
from bench import check, split_handshake
from chip import ERASES, READ_DATA, SECTOR, Chip
from faults import FIRMWARE, SOON
from losses import FEW, chip_images
from narrow import check_parts
from options import FREE, SIZE, images

# These jobs must be refused. The journal `saved` has other bytes than the chip.
JOBS = ((), ("-r", "out"), ("-v", "new"), ("-w", "new", "--journal", "j"), ("-E", "--journal", "j"),
        ("--backup", "out"), ("--restore", "saved"), ("--restore", "saved", "-N"))
# These jobs don't use the image `new`. They are also tried on a chip of 8 MiB.
WITHOUT_IMAGE = [it for it in JOBS if "new" not in it]
# To synchronize, a run sends a NOP (00h), and then these NOPs and SYNCNOPs (10h).
ROW = bytes.fromhex("00000000000000000010100010000010101000")
# A transaction may send at most this number of bytes to a programmer that doesn't report the limit.
LIMIT = 128


def wraps(out):
    """Returns what firmware sends if the index of its buffer has only eight bits: byte n overwrites byte n - 256."""
    return bytes(out[at + 256 if at + 256 < len(out) else at] for at in range(len(out)))


def drops(out):
    """Returns what firmware sends if it drops all bytes after the 64th."""
    return out[:64]


def refuse(bench, line, repeated, jobs=JOBS, **traits):
    """Runs these jobs, which must print only this line, leave the chip unchanged, and create no file.

    `repeated` are the transactions that the programmer must carry out after the one that wakes the chip.
    """
    data, heard = bytes(bench.chip.data), []
    carry = bench.chip.transfer

    def hear(out, replies):
        heard.append(out[:1])
        return carry(out, replies)

    bench.write("new", bytes(len(data)))
    bench.write("saved", reference.journal(bench.part, bytes(len(data)), [0, 1]))
    for words in jobs:
        heard.clear()
        bench.chip.transfer = hear
        bench.expect(*words, err=[bench.device(line)])
        bench.chip.transfer = carry
        # The chip has no instruction 00h. It receives 00h from firmware that wraps.
        check("opcodes at the chip", set(heard) - {b"\xab", b"\x03", b"\x05", b"\0"}, set())
        got = [(out, len(reply)) for out, reply in bench.server.log]
        check(f"transactions of {words}", got, [reference.WAKES, *repeated])
        for name in "j", "j.sectors", "out":
            bench.check_absent(name)
        bench.check_chip(data)
        if traits:
            bench.plug(**traits)


def refuses_four_byte_mode(start):
    """Checks that jobs on four chips in four-byte mode, whose bytes aren't all FFh, end with programmer fault 15."""
    blank = b"\xff" * SECTOR
    head = random.Random("refuses_four_byte_mode").randbytes(2 * SECTOR)
    # A row has a chip, its data, the numbers of the trial addresses at which overlapping reads differ, and the jobs.
    # Reads that differ are repeated. In four-byte mode, a trial read that sends the address 1110h reads at 111000h,
    # which is 1000h on a chip of 64 KiB. Trial reads that send the addresses 0 and 1 read at 0 and 100h.
    for part, data, places, jobs in (
            ("TINY64", images("refuses_four_byte_mode")[1], range(8), JOBS),
            ("TINY64", bytes(256) + FREE[256:], (0,), JOBS),
            ("TINY64", blank + head + FREE[3 * SECTOR :], (1, 2), JOBS),
            ("W25Q64FV", head + b"\xff" * ((1 << 23) - len(head)), (0,), WITHOUT_IMAGE)):
        bench = start(part, data=data)
        bench.remembers = False
        bench.chip.has_four = True
        pairs = [[(reference.command(READ_DATA, at * reference.STEP + later), reference.TRIAL - later)
                  for later in (0, 1)] * (2 if at in places else 1) for at in range(reference.PLACES)]
        refuse(bench, reference.FOUR_BYTES, [it for pair in pairs for it in pair], jobs)
        bench.chip.has_four = False
        bench.expect(out=[reference.found(part)])


def finds_no_empty_chip_in_four_byte_mode(start):
    """Checks the limit of the trial reads: they don't detect four-byte mode on a chip whose bytes are all FFh.

    A read returns the right bytes nevertheless. A write ends with error 14, because its programs change other pages.
    When the mode has ended, as after a loss of power, a backup restores the chip.
    """
    bench = start()
    bench.chip.has_four = True
    bench.expect("--backup", "whole", out=[reference.found("TINY64"), f"Read {SIZE} bytes."])
    bench.check_file("whole", reference.journal("TINY64", FREE, range(SIZE // SECTOR)))
    new = chip_images(FEW)[1]
    bench.write("new", new)
    # This model shows what the chip holds after the write, and where its bytes differ from the image. The program reads
    # a blank sector before it programs the sector, and the sector may then already have bytes of earlier programs.
    chip = Chip("TINY64", FREE)
    chip.has_four = True
    sectors = reference.touched(FREE, new)
    for number in sectors:
        was = chip.transfer(*reference.read_sector(number))
        for out, replies in reference.programs(number, was, reference.sector_of(new, number)):
            chip.transfer(out, replies)
    read = b"".join(chip.transfer(*reference.read_sector(it)) for it in range(SIZE // SECTOR))
    address = next(at for it in sectors for at in range(it * SECTOR, (it + 1) * SECTOR) if read[at] != new[at])
    got = bench.run("-w", "new", "--journal", "j")
    check("the error", (got.err[0], got.status), (f"Error 14: bytes differ at 0x{address:06x}.", 1))
    check("the chip is changed", bytes(chip.data) == FREE, False)
    bench.check_chip(bytes(chip.data))
    bench.chip.has_four = False
    check("the restore", bench.run("--restore", "whole").status, 0)
    bench.check_chip(FREE)


def long_frames(data):
    """Returns the trial reads of a chip with these bytes: those before the long frame, and the pair with this frame."""
    found = reference.trials(data)
    return found[:-2], found[-2:]


def refuses_firmware_that_wraps(start):
    """Checks that firmware with an eight-bit buffer index (byte n overwrites byte n - 256) is programmer fault 14."""
    old, _ = images("refuses_firmware_that_wraps")
    for data in old, FREE:
        places, pair = long_frames(data)
        refuse(start(data=data, sends=wraps), reference.LONG_FRAMES, places + pair * 3)


def refuses_firmware_that_drops_bytes(start):
    """Checks that firmware that replies ACK, but drops the bytes after the 64th, is programmer fault 14."""
    old, _ = images("refuses_firmware_that_drops_bytes")
    places, pair = long_frames(old)
    refuse(start(data=old, sends=drops), reference.LONG_FRAMES, places + pair * 3)
    # The first two sectors are blank, so the long frame reads at a later address.
    data = b"\xff" * (2 * SECTOR) + old[2 * SECTOR :]
    places, pair = long_frames(data)
    check("the place", pair[0][0][:4], reference.command(READ_DATA, 2 * reference.STEP))
    refuse(start(data=data, sends=drops), reference.LONG_FRAMES, places + pair * 3)


def finds_bytes_for_a_long_frame(start):
    """Checks that a long frame reads bytes that show whether padding was dropped, if a trial address has such bytes.

    The image of a PC begins with a descriptor that is mostly FFh (bytes 100h to 103h, for example). The last 16 bytes
    of the image are those of the reset vector. Bytes that are repeated every four bytes show nothing.
    """
    old = random.Random("finds_bytes_for_a_long_frame").randbytes(SIZE)
    head, blank = old[:48] + b"\xff" * (SECTOR - 48), b"\xff" * SECTOR
    repeated = old[:4] * (SECTOR // 4)
    for data, place in ((head + old[SECTOR:], reference.STEP),
                        (head + repeated + old[2 * SECTOR :], 2 * reference.STEP),
                        (head + blank * (SIZE // SECTOR - 2) + b"\xff" * (SECTOR - 16) + old[:16], reference.TOP)):
        places, pair = long_frames(data)
        check("the place", pair[0][0][:4], reference.command(READ_DATA, place))
        refuse(start(data=data, sends=drops), reference.LONG_FRAMES, places + pair * 3)
        bench = start(data=data)
        bench.expect("-r", "out", out=[reference.found("TINY64"), f"Read {SIZE} bytes."])
        bench.check_file("out", data)
    # No trial address of this chip has bytes that show whether padding was dropped, so the run isn't refused.
    data = head + b"\xff" * (SIZE - SECTOR)
    check("the long frame", long_frames(data)[1][0][0][:1], b"\x05")
    bench = start(data=data, sends=drops)
    bench.expect("-r", "out", out=[reference.found("TINY64"), f"Read {SIZE} bytes."])
    bench.check_file("out", data)


def refuses_firmware_that_changes_bytes(start):
    """Checks that firmware which truncates each long frame to a random length is programmer fault 14."""
    source = random.Random("refuses_firmware_that_changes_bytes")
    old = source.randbytes(SIZE)
    places, pair = long_frames(old)

    def loses_some(out):
        return out[: 32 + source.randrange(200)] if len(out) > 64 else out

    refuse(start(data=old, sends=loses_some), reference.LONG_FRAMES, places + pair * 3)


def refuses_firmware_with_an_unknown_limit(start):
    """Checks that firmware that refuses or ignores long frames, but reports no limit, is programmer fault 14."""
    old, _ = images("refuses_firmware_with_an_unknown_limit")
    places, pair = long_frames(old)
    for lacks in (), (0x08,):
        traits = {"longest_write": 0, "lacks": lacks, "buffer": 65535}
        # After the NAK the program sends the long frame without reply bytes, which is refused, too.
        refuse(start(data=old, most_sent=LIMIT, **traits), reference.LONG_FRAMES, places)
        traits.update(most_replied=LIMIT, timeout=SOON)
        # If the programmer is silent, the program doesn't send the frame again.
        refuse(start(data=old, **traits), reference.LONG_FRAMES, places + pair[:1], **traits)


def takes_a_shared_buffer(start):
    """Checks that firmware works whose buffer holds 260 bytes for the sent and received bytes together.

    This firmware refuses the long frame with reply bytes. The program then synchronizes, and sends the frame without
    reply bytes.
    """
    old, new = chip_images(FEW)
    bench = start(data=old, most_in_buffer=reference.PROGRAM, longest_read=256)
    bench.write("new", new)
    plan = reference.session("TINY64", old, new)
    bench.expect("-w", "new", "--journal", "j", out=[reference.found("TINY64"), reference.done(plan, old, new)])
    places, (long, _) = long_frames(old)
    wanted = reference.frames([reference.WAKES, *places, long]) + b"\0" + ROW
    wanted += reference.frames([(long[0], 0), *reference.LOOK, (b"\x05", 2)])
    check("what was sent first", split_handshake(bench.server.received)[1][: len(wanted)], wanted)
    check_parts(bench, plan)
    bench.check_chip(new)
    bench.check_file("j", reference.journal("TINY64", old, FEW))
    plan = reference.restore("TINY64", old, FEW)
    bench.expect("--restore", "j", out=[reference.found("TINY64"), reference.report(plan, len(FEW))])
    bench.check_chip(old)


def goes_on_after_noise(start):
    """Checks that a run goes on after one wrong bit in a trial read.

    If the bit is in the first of two reads that must agree, only this read is repeated. If the bit is in the second
    one, both are repeated. After overlapping reads with a wrong bit, those at the next address follow. The two reads
    that look for the address of the long frame aren't repeated. The same wrong bit in the replies to three long frames
    is programmer fault 14.
    """
    old, _ = images("goes_on_after_noise")
    places, pair = long_frames(old)
    overlaps, rest = places[:2], places[2:] + pair
    check("the reads before the long frame", [count for _, count in places], [reference.TRIAL, reference.TRIAL - 1,
                                                                             reference.FEW, 256])
    # These overlapping reads follow if those at the first address don't count.
    later = [it for it in reference.trials(bytes(reference.TRIAL) + old[reference.TRIAL :])[2:]
             if it[1] in (reference.TRIAL, reference.TRIAL - 1)]
    for number, trials in ((2, overlaps + overlaps[:1] + later + rest), (3, overlaps * 2 + later + rest),
                           (4, places + pair), (5, places + pair), (6, places + pair + pair[:1]),
                           (7, places + pair * 2)):
        for byte in 1, 3:
            bench = start(data=old)
            bench.server.traits.wrong_bits = {number: (byte - number % 2, 6)}
            bench.expect("-r", "out", out=[reference.found("TINY64"), f"Read {SIZE} bytes."])
            bench.check_file("out", old)
            got = [(out, len(reply)) for out, reply in bench.server.log]
            check(f"the first transactions, with a wrong bit in {number}", got[: 1 + len(trials)],
                  [reference.WAKES, *trials])
            check("the first poll", got[1 + len(trials) :][: 3], [*reference.LOOK, (b"\x05", 2)])
    bench = start(data=old)
    bench.server.traits.wrong_bits = {number: (1, 6) for number in (6, 8, 10)}
    bench.expect("-r", "out", err=[bench.device(reference.LONG_FRAMES)])
    bench.check_absent("out")


def restores_bytes_that_change(start):
    """Checks that a restore with -N works although bytes change from read to read until its first erase.

    An interrupted erase may leave bytes that change from read to read.
    """
    old, new = images("restores_bytes_that_change")
    bench = start(data=new)
    bench.write("whole", reference.journal("TINY64", old, range(SIZE // SECTOR)))
    source, carry, erases = random.Random("restores_bytes_that_change"), bench.chip.transfer, []

    def carry_unstable(out, replies):
        reply = carry(out, replies)
        if out[0] in ERASES or out[0] == 0xC7:
            erases.append(out)
        return source.randbytes(len(reply)) if out[0] == READ_DATA and not erases else reply

    bench.chip.transfer = carry_unstable
    got = bench.run("--restore", "whole", "-N")
    check("the restore", (got.err[:1] if got.status else [], got.status, len(erases) > 0), ([], 0, True))
    bench.chip.transfer = carry
    bench.check_chip(old)


def reports_failures_of_trials(start):
    """Checks that a trial read without ACK causes programmer fault 4 (no reply), 5 (neither ACK nor NAK) or 11 (NAK).

    A long frame without ACK causes programmer fault 14 instead. If only its first reply is NAK, the run goes on. A port
    that fails is programmer fault 10 at any trial read.
    """
    old, _ = images("reports_failures_of_trials")
    for number, event, begins in (
            (2, "nak", f"11: the programmer refused command 13h. {FIRMWARE}"),
            (3, "mute", "4: the programmer is silent."), (4, "mute", "4: the programmer is silent."),
            (5, "strange", "5: the programmer answered 21h,"), (7, "strange", "5: the programmer answered 21h,"),
            (2, "unplug", "10: the port failed: "), (5, "unplug", "10: the port failed: "),
            (6, "unplug", "10: the port failed: "), (7, "unplug", "10: the port failed: "),
            (6, "mute", None), (6, "strange", None)):
        bench = start(data=old, timeout=SOON)
        bench.write("new", FREE)
        wanted = bench.device(f"Programmer fault {begins}" if begins else reference.LONG_FRAMES)
        got = bench.run("-w", "new", "--journal", "j", events={number: event})
        check(f"{event} at {number}", (got.err[0][: len(wanted)], len(got.err), got.out, got.status), (wanted, 1, [], 1))
        bench.check_absent("j")
        bench.check_chip(old)
    # If only the first long frame is refused, the program assumes that the programmer's buffer has no room for its
    # reply, and goes on.
    bench = start(data=old)
    bench.expect("-r", "out", out=[reference.found("TINY64"), f"Read {SIZE} bytes."], events={6: "nak"})
    bench.check_file("out", old)


def takes_unlike_bytes_at_some_places(start):
    """Checks that overlapping reads which differ in one byte are refused only if this occurs at all eight addresses."""
    data = b"\xff" * len(FREE)
    # At the addresses of these numbers, the chip returns 00h as the first byte of the second read.
    for places in range(1, 8), range(8):
        bench = start(data=data)
        carry, odd = bench.chip.transfer, {at * reference.STEP + 1 for at in places}

        def carry_unlike(out, replies):
            reply = carry(out, replies)
            at = int.from_bytes(out[1:4], "big")
            return b"\0" + reply[1:] if out[0] == READ_DATA and replies == reference.TRIAL - 1 and at in odd else reply

        bench.chip.transfer = carry_unlike
        if len(places) == 8:
            bench.expect("-r", "out", err=[bench.device(reference.FOUR_BYTES)])
            bench.check_absent("out")
        else:
            bench.expect("-r", "out", out=[reference.found("TINY64"), f"Read {SIZE} bytes."])


CASES = [refuses_four_byte_mode, finds_no_empty_chip_in_four_byte_mode, takes_unlike_bytes_at_some_places,
         refuses_firmware_that_wraps,
         refuses_firmware_that_drops_bytes, finds_bytes_for_a_long_frame, refuses_firmware_that_changes_bytes,
         refuses_firmware_with_an_unknown_limit, takes_a_shared_buffer,
         goes_on_after_noise, restores_bytes_that_change, reports_failures_of_trials]
