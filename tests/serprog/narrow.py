"""These cases use programmers that limit the bytes of a transaction, so that page programs, reads or both are split."""
import reference
from bench import check
from losses import FEW, chip_images

# A pair has the greatest number of bytes that a transaction may send, and the greatest number that it may receive.
LIMITS = ((5, 65536), (64, 4096), (256, 256), (259, 259), (260, 64), (64, 8))


def check_parts(bench, plan):
    """Checks that the page programs of the last run write the bytes of the plan's page programs, in their order.

    Each page program must follow a write enable (06h), must be followed by a poll (05h), and must stay within one page.
    No transaction may exceed the programmer's limits.
    """
    wanted = [(int.from_bytes(out[1:4], "big") + at, byte) for out, _ in plan if out[0] == 0x02
              for at, byte in enumerate(out[4:])]
    log = bench.server.log
    programs = [at for at, (out, _) in enumerate(log) if out[0] == 0x02]
    got = [(int.from_bytes(log[it][0][1:4], "big") + at, byte) for it in programs
           for at, byte in enumerate(log[it][0][4:])]
    check("programmed bytes in their order", got, wanted)
    for it in programs:
        check("write enable before each program, and a poll after it", (log[it - 1][0], log[it + 1][0]),
              (b"\x06", b"\x05"))
        check("a program within one page", int.from_bytes(log[it][0][1:4], "big") % 256 + len(log[it][0]) <= 260, True)
    longest = max(len(out) for out, _ in log), max(len(reply) for _, reply in log)
    limits = bench.server.traits.longest_write, bench.server.traits.longest_read
    check("transactions within the limits", [one <= most for one, most in zip(longest, limits)], [True, True])


def splits_transactions(start):
    """Checks that a session and its restore work with each pair of LIMITS.

    The printed lines and the journal must be as with a programmer that has no limits.
    """
    old, new = chip_images(FEW)
    for longest_write, longest_read in LIMITS:
        bench = start(data=old, longest_write=longest_write, longest_read=longest_read)
        bench.write("new", new)
        plan = reference.session("TINY64", old, new)
        bench.expect("-w", "new", "--journal", "j", out=[reference.found("TINY64"), reference.done(plan, old, new)])
        check_parts(bench, plan)
        bench.check_chip(new)
        bench.check_file("j", reference.journal("TINY64", old, FEW))
        plan = reference.restore("TINY64", old, FEW)
        bench.expect("--restore", "j", out=[reference.found("TINY64"), reference.report(plan, len(FEW))])
        check_parts(bench, reference.whole_restore("TINY64", plan, FEW))
        bench.check_chip(old)


def splits_on_a_busy_chip(start):
    """Checks that no part of a split page program is sent while the chip is still busy with the part before it."""
    old, new = chip_images(FEW)
    bench = start(data=old, scale=1.0, longest_write=8, longest_read=512)
    bench.write("new", new)
    check("the session", bench.run("-w", "new", "--journal", "j").status, 0)
    bench.chip.wait()
    bench.check_chip(new)
    check("transactions that the busy chip ignored", bench.chip.ignored, 0)


def restores_parts(start):
    """Checks that a restore undoes a session that was killed, or lost a reply, in the first parts of a page program."""
    old, new = chip_images(FEW)
    traits = {"longest_write": 7, "longest_read": 4096}
    bench = start(data=old, **traits)
    bench.write("new", new)
    check("the session", bench.run("-w", "new", "--journal", "j").status, 0)
    first = next(at for at, (out, _) in enumerate(bench.server.log, 1) if out[0] == 0x02)
    for event in "kill", "lose":
        for at in range(first - 1, first + 8):
            bench = start(data=old, **traits)
            bench.write("new", new)
            check("the exit status", bench.run("-w", "new", "--journal", "j", events={at: event}).status,
                  -9 if event == "kill" else 1)
            bench.plug(**traits)
            check("the restore", bench.run("--restore", "j").status, 0)
            bench.check_chip(old)


CASES = [splits_transactions, splits_on_a_busy_chip, restores_parts]
