"""These cases test restores with and without -N. A restore without -N compares the sectors that the journal doesn't
save: it reads them before and after its changes.

The expected addresses are computed from the bytes on the chip's model (chip.py). `begins` compares only the beginnings
of lines, and so no advice at their ends.
"""
import reference
from bench import check
from chip import SECTOR
from faults import DIFFER
from options import ALL, images
from wire import STOPPED, begins, check_unchanged, first_difference


def restored(seed, numbers=(2, 7, 15)):
    """Returns the original chip, a chip on which these sectors differ, and a journal that saves these sectors."""
    old, new = images(seed, numbers)
    return old, new, reference.journal("TINY64", old, numbers)


def restore_wire(old, numbers):
    """Returns the transactions on the wire of a restore without -N, and the positions (counted from 1) of its modifying
    commands among them."""
    plan = reference.whole_restore("TINY64", reference.restore("TINY64", old, numbers), numbers)
    wire = reference.carried(plan, old)
    return wire, [at for at, (out, _) in enumerate(wire, 1) if out[0] in reference.CHANGING]


def count(plan, data):
    """Returns the number of transactions on the wire for a plan, without those before the job."""
    return len(reference.carried(plan, data)) - len(reference.before_job(data))


def rest_count(numbers, data):
    """Returns the number of transactions on the wire that read each sector which the journal doesn't save."""
    return count(reference.read_rest("TINY64", numbers), data)


def compares_the_rest_of_a_restore(start):
    """Checks that a restore ends with chip fault 4 if an address bit is wrong from the first change to the comparison.

    The saved sectors verify, because the verification reads them with the wrong bit, too. With -N, and in a second
    restore from this journal, the wrong sectors aren't detected.
    """
    numbers = (2, 7, 15)
    old, new, journal = restored("compares_the_rest_of_a_restore")
    wire, changing = restore_wire(old, numbers)
    # `rest` is the number of transactions that compare the other sectors after the restore.
    rest = rest_count(numbers, old)
    wrong = bytearray(new)
    for number in numbers:
        wrong[(number ^ 4) * SECTOR : ((number ^ 4) + 1) * SECTOR] = reference.sector_of(old, number)
    for words in (), ("--quick",):
        bench = start(data=new)
        bench.write("j", journal)
        first, last = changing[0], len(wire) - rest
        if words:
            plan = reference.session("TINY64", new, old, numbers)
            quick = reference.carried(reference.whole_restore("TINY64", plan, numbers), new)
            first = next(at for at, (out, _) in enumerate(quick, 1) if out[0] in reference.CHANGING)
            last = len(quick) - rest
        bench.server.traits.wrong_address = (first, last, 14)
        got = bench.run("--restore", "j", *words)
        changed = bytes(bench.chip.data)
        line = f"Chip fault 4: the chip differs at 0x{first_difference(new, changed):06x} {reference.REST_DIFFERS}"
        begins("the restore", got, [line])
        check("the lines", got.err, [line])
        if not words:
            bench.check_chip(bytes(wrong))
        bench.server.traits.wrong_address = ()
        check("a further restore", bench.run("--restore", "j", *words).status, 0)
        bench.check_chip(b"".join(reference.sector_of(old if it in numbers else changed, it) for it in ALL))
    plan = reference.restore("TINY64", old, numbers)
    wire = reference.carried(plan, new)
    bench = start(data=new)
    bench.write("j", journal)
    first = next(at for at, (out, _) in enumerate(wire, 1) if out[0] in reference.CHANGING)
    bench.server.traits.wrong_address = (first, len(wire), 14)
    bench.expect("--restore", "j", "-N", out=[reference.found("TINY64"), reference.report(plan, 3)])
    bench.check_chip(bytes(wrong))


def compares_after_error_14(start):
    """Checks that a wrong address bit in one erase or program of a restore causes error 14 and chip fault 4.

    With -N only error 14 is reported.
    """
    numbers = (2, 7, 15)
    old, new, journal = restored("compares_after_error_14")
    wire, changing = restore_wire(old, numbers)
    for opcode in 0x20, 0x02:
        at = next(it for it in changing if wire[it - 1][0][0] == opcode)
        for words in (), ("-N",):
            bench = start(data=new)
            bench.write("j", journal)
            # With -N the program doesn't first probe the chip and read the 13 unsaved sectors, so later transactions
            # have lower numbers.
            before = count(reference.probe("TINY64"), new) + rest_count(numbers, new)
            number = at - before * bool(words)
            bench.server.traits.wrong_address = (number, number, 14)
            got = bench.run("--restore", "j", *words)
            check("the wrong frame", bench.server.log[number - 1][0], wire[at - 1][0])
            changed = bytes(bench.chip.data)
            lines = [f"Error 14: bytes differ at 0x{first_difference(changed, old, numbers):06x}."]
            if not words:
                lines.append("Chip fault 4: the chip differs at "
                             f"0x{first_difference(new, changed, sorted(set(ALL) - set(numbers))):06x} from what was "
                             "read before this restore.")
            else:
                lines = reference.not_stored(first_difference(changed, old, numbers), "--restore")
            begins(f"{opcode:02x}h {words}", got, lines)
            check("lines", len(got.err), len(lines))
            bench.server.traits.wrong_address = ()
            check("a further restore", bench.run("--restore", "j").status, 0)
            bench.check_chip(b"".join(reference.sector_of(old if it in numbers else changed, it) for it in ALL))


def reads_restores_twice(start):
    """Checks that a restore reads all data twice, even data that equals the journal.

    One wrong bit in one of these reads stops the restore with error 12.
    """
    old, _, journal = restored("reads_restores_twice")
    for words in (), ("--quick",), ("-N",), ("--quick", "-N"):
        bench = start(data=old)
        bench.write("j", journal)
        check("the restore", bench.run("--restore", "j", *words).status, 0)
        reads = [(at, it) for at, it in enumerate(bench.server.log, 1) if at >= bench.first() and it[0][0] == 0x03]
        check("reads", len(reads) > 0, True)
        check("pairs of reads", [one[1] for one in reads[::2]], [other[1] for other in reads[1::2]])
        for at, _ in reads[:: max(1, len(reads) // 8)]:
            bench.server.traits.wrong_bits = {at: (9, 1)}
            begins(f"{words}, transaction {at}", bench.run("--restore", "j", *words), [STOPPED, DIFFER])
        bench.server.traits.wrong_bits = {}
        bench.check_chip(old)


def stops_in_the_rest(start):
    """Checks that a restore stops with error 12 if two reads of an unsaved sector differ.

    If they differ before the restore, nothing is changed. If they differ after the restore, a line says that the
    unsaved sectors weren't compared.
    """
    numbers = (2, 7, 15)
    old, new, journal = restored("stops_in_the_rest")
    wire, changing = restore_wire(old, numbers)
    note = "The sectors that the journal doesn't save were not compared after the restore."
    before = next(at for at, it in enumerate(wire, 1) if it == reference.read_sector(0))
    erase = next(at for at in changing if wire[at - 1][0][0] == 0x20)
    # The last transaction reads the ID, so the last read of data is the one before it. In the third run the first erase
    # has a wrong address, so the verification ends at the first of the three saved sectors. The other two would need
    # four transactions each, so the number of the last read is lower by 8.
    last, mismatch = len(wire) - 1, "Error 14: bytes differ at "
    for number, wrong, lines in ((before, (), [STOPPED, DIFFER]), (last, (), [STOPPED, DIFFER, note]),
                                 (last - 8, (erase, erase, 14), [mismatch, STOPPED, DIFFER, note])):
        bench = start(data=new)
        bench.write("j", journal)
        bench.server.traits.wrong_bits = {number: (7, 5)}
        bench.server.traits.wrong_address = wrong
        got = bench.run("--restore", "j")
        begins(f"transaction {number}", got, lines)
        check("lines", len(got.err), len(lines))
        if number == before:
            check_unchanged(bench, new, b"\0\0")
        elif not wrong:
            bench.check_chip(old)


CASES = [compares_the_rest_of_a_restore, compares_after_error_14, reads_restores_twice, stops_in_the_rest]
