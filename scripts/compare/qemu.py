#!/usr/bin/env python3
"""scripts/compare/qemu.py [PROGRAM [COUNT]]: sends the transactions of flashnor to a chip that QEMU emulates, and
compares both chips.

The script runs random sessions of flashnor on its W25Q64FV, most of which are stopped, and restores from their
journals, some of which are stopped, too. It sends the traces of these runs to QEMU's chip `w25q64`, which has the same
bytes at the start. After each run both chips must have the same bytes, and after the last restore the original bytes.
The replies of QEMU's chip to 9Fh, 05h and 03h must be those that flashnor received, as far as the trace, or the bytes
before and after it, show them.

Before that, the script checks that it detects traces with an error. At the end it prints what it does not compare
because QEMU's chip doesn't have it. The numbers of the sessions are the seeds of all random choices, so each run of the
script does the same. The merge gate doesn't run this script, because it needs QEMU.
"""
import collections
import os
import random
import shutil
import subprocess
import sys
import tempfile
from pathlib import Path

sys.dont_write_bytecode = True  # so that Python creates no files in scripts/
import emulator
import traces

TOP = Path(__file__).resolve().parents[2]
SIZE, SECTOR = 1 << 23, 4096
KINDS = "bytes", "bits", "blocks", "part", "erase", "whole", "unlock", "range"
# flashnor must have sent each of these opcodes.
OPCODES = "01 02 03 05 06 20 35 4b 52 9f c7 d8".split()
LEFT_OUT = """\
left out: the replies to 35h and 4Bh, and SEC and TB in those to 05h: that chip has no second status byte, no number of
its own, and neither of these bits. Its latch is cleared by a 04h behind each program and erase, since it stays set. It
guards other places, so protected chips have TB, SEC and CMP clear, where it guards fewer. It is never busy, loses no
power, and has no SFDP; a program that would wrap in its page is none that flashnor sends."""


class Case:
    """A chip's original bytes and status, and a session on this chip. The number of the case determines all of them."""

    def __init__(self, number):
        self.random = random.Random(number)
        self.kind = KINDS[number % len(KINDS)]
        self.name = f"session {number} ({self.kind})"
        self.first = self.first_bytes()
        self.image = bytearray(self.first)
        self.status = b"\0\0"
        self.layout = ""
        self.words = ["-w", "image"]
        getattr(self, f"make_{self.kind}")()

    def first_bytes(self):
        """Returns random bytes. If the session erases the whole chip, returns FFh except for one byte in each
        sector."""
        if self.kind != "whole":
            return self.random.randbytes(SIZE)
        found = bytearray(b"\xff" * SIZE)
        for sector in range(0, SIZE, SECTOR):
            found[sector + self.random.randrange(SECTOR)] = self.random.randrange(255)
        return bytes(found)

    def change(self, start, length):
        """Writes `length` random bytes into the image, but none past its end."""
        length = max(0, min(length, SIZE - start))
        self.image[start : start + length] = self.random.randbytes(length)

    def make_bytes(self):
        for _ in range(self.random.randint(1, 8)):
            self.change(self.random.randrange(SIZE), self.random.choice([1, 7, 300, 5000]))

    def make_bits(self):
        """Clears bits of the image, so that the session erases nothing."""
        start, length = self.random.randrange(SIZE), self.random.randint(1, 9000)
        for place in range(start, min(SIZE, start + length)):
            self.image[place] &= self.random.randrange(256)

    def make_blocks(self):
        """Changes 140,000 successive bytes, which contain a block of 64 KiB, or 70,000, which contain one of 32 KiB."""
        self.change(self.random.randrange(SIZE - 150_000), self.random.choice([70_000, 140_000]))

    def make_part(self):
        """Makes a layout with four regions, of which the session includes two, and changes bytes near the start and the
        end of each of the four."""
        starts = [self.random.randrange(SIZE - 60_000) for _ in range(4)]
        ends = [start + self.random.randrange(60_000) for start in starts]
        regions = enumerate(zip(starts, ends))
        self.layout = "".join(f"{start:x}:{end:06X} r{number}\n" for number, (start, end) in regions)
        self.words += ["-l", "layout", "-i", ",".join(self.random.sample(["r0", "r1", "r2", "r3"], 2))]
        for start, end in zip(starts, ends):
            self.change(max(0, start - 100), self.random.randint(100, 9000))
            self.change(max(0, end - 100), self.random.randint(1, 200))

    def make_erase(self):
        self.make_part()
        self.words[:2] = ["-E"]

    def make_whole(self):
        self.words = ["-E"]

    def make_unlock(self):
        self.status = bytes([self.random.randint(1, 7) << 2, 0])
        self.make_bytes()
        self.change(SIZE - self.random.randint(1, 60_000), 500)
        self.words.append("--unlock")

    def make_range(self):
        """Protects the last 128 KiB to 4 MiB (a power of two) of a chip that has either no byte protected or all."""
        length = 1 << self.random.randint(17, 22)
        self.status = bytes([self.random.choice([0, 0x1C]), 0])
        self.words = ["--wp-range", f"{SIZE - length},{length}"]


class Bench:
    """The program, a directory with the files of both chips, and the counts of what was sent and compared."""

    def __init__(self, program, folder):
        self.program = program
        self.folder = folder
        self.counts = collections.Counter()
        self.opcodes = collections.Counter()

    def path(self, name):
        return self.folder / name

    def lay(self, case):
        """Creates the files of a case, including the file of QEMU's chip."""
        for name in os.listdir(self.folder):
            self.path(name).unlink()
        files = {"nor": case.first, "qemu": case.first, "image": case.image, "status": case.status}
        for name, content in files.items():
            self.path(name).write_bytes(content)
        self.path("layout").write_text(case.layout, encoding="ascii")

    def run(self, words, stop=None):
        """Runs flashnor on its chip, with the key `stop` if `stop` is given. Returns the trace, and whether the run
        succeeded."""
        keys = "dummy:emulate=W25Q64FV,image=nor,status=status,trace=trace" + (f",stop={stop}" if stop else "")
        ran = subprocess.run([self.program, "-p", keys, *words], cwd=self.folder, capture_output=True, text=True,
                             check=False)
        ended = ran.returncode == 0
        if not ended and (stop is None or ran.stderr != "Error 12: stopped.\n"):
            raise OSError(f"flashnor {' '.join(words)}: {ran.stderr.strip()}")
        return traces.read_trace(self.path("trace").read_text(encoding="ascii")), ended

    def replay(self, chip, before, transactions):
        """Sends the transactions of a run to QEMU's chip. Returns the differences in the replies, and in the bytes (the
        first one) and status 1 afterwards."""
        after = self.path("nor").read_bytes()
        compared, found = traces.play(chip, transactions, before, after)
        self.counts["transactions"] += len(transactions)
        self.counts["replies"] += compared
        self.opcodes.update(f"{it.sent[0]:02x}" for it in transactions)
        held = chip.exchange(b"\x03\0\0\0", SIZE)
        if held != after:
            place = next(place for place in range(SIZE) if held[place] != after[place])
            found.append(f"0x{place:06x} is {held[place]:02x}, not {after[place]:02x}")
        status, wanted = (chip.exchange(b"\x05", 1)[0], self.path("status").read_bytes()[0])
        if (status ^ wanted) & chip.kept:
            found.append(f"status 1 is {status:02x}, not {wanted:02x}")
        return found

    def start(self, case):
        """Starts QEMU with the chip of a case, and sets the status of this chip."""
        chip = emulator.Emulator(self.path("qemu"))
        for sent in (b"\x06", b"\x01" + case.status):
            chip.exchange(sent, 0)
        return chip

    def session(self, case):
        """Runs a session and its restores on both chips, and returns the differences. A first run on flashnor's chip
        only shows where the session can be stopped."""
        self.lay(case)
        whole, _ = self.run([*case.words, "--journal", "journal"])
        changing = [number for number, it in enumerate(whole) if it.sent[0] == traces.SET_LATCH]
        if not changing:
            return ["nothing was changed"]
        self.lay(case)
        change = len(whole) - changing[0]
        stop = changing[0] + case.random.randrange(change) if case.random.randrange(4) else None
        runs = [([*case.words, "--journal", "journal"], stop)]
        runs += [(["--restore", "journal"], 4 + case.random.randrange(change)) for _ in range(case.random.randrange(3))]
        runs += [(["--restore", "journal"], None)]
        found = []
        with self.start(case) as chip:
            for number, (words, stop) in enumerate(runs):
                before = self.path("nor").read_bytes()
                transactions, ended = self.run(words, stop)
                self.counts["restores" if number else "sessions"] += 1
                self.counts["stopped restores" if number else "stopped sessions"] += not ended
                found += [f"run {number}: {it}" for it in self.replay(chip, before, transactions)]
        for name in ("nor", "qemu"):
            if self.path(name).read_bytes() != case.first:
                found.append(f"the file of {name}'s chip isn't as it was")
        return found


def faulty(transactions):
    """Returns variants of a trace, each with one error: the description of the error, and the transactions."""
    def first(is_it):
        return next(number for number, it in enumerate(transactions) if is_it(it))

    def changed(number, *others):
        return transactions[:number] + [*others] + transactions[number + 1 :]

    program = first(lambda it: it.sent[0] == traces.PAGE_PROGRAM)
    erase = first(lambda it: it.sent[0] in traces.ERASES)
    found = first(lambda it: it.sent[0] == traces.READ_ID)
    poll = first(lambda it: it.sent[0] == traces.READ_STATUS)
    sent = transactions[program].sent
    other = traces.Transaction(sent[:4] + bytes([sent[4] ^ 0xFF]) + sent[5:])
    return {
        "a program is missing": changed(program),
        "an erase is missing": changed(erase),
        "a latch isn't set": changed(program - 1),
        "a byte of a program is another": changed(program, other),
        "the ID is another": changed(found, transactions[found]._replace(reply=b"\xef\x40\x18")),
        "a poll is another": changed(poll, transactions[poll]._replace(reply=b"\x03")),
    }


def try_faults(bench):
    """Checks that `replay` reports no difference for a trace without an error, and a difference for each trace with an
    error. Returns the failures."""
    case = Case(KINDS.index("part"))
    bench.lay(case)
    transactions, _ = bench.run([*case.words, "--journal", "journal"])
    wrong = []
    for name, it in {"nothing": transactions, **faulty(transactions)}.items():
        bench.path("qemu").write_bytes(case.first)
        with bench.start(case) as chip:
            told = bench.replay(chip, case.first, it)
        if bool(told) != (name != "nothing"):
            wrong.append(f"where {name}, this is told: {told or 'no difference'}")
    return wrong


def main():
    """Compares the chips, prints the counts, and returns the exit status."""
    program = Path(sys.argv[1] if len(sys.argv) > 1 else TOP / "crates/flashnor/out/flashnor")
    count = int(sys.argv[2]) if len(sys.argv) > 2 else 3 * len(KINDS)
    if not shutil.which(emulator.QEMU):
        print(f"skipped: the chip of QEMU, since {emulator.QEMU} isn't installed (on Debian: apt-get install "
              "qemu-system-arm)")
        return 0
    if not os.access(program, os.X_OK):
        print(f"{program} isn't built: 'make' proves and builds it.", file=sys.stderr)
        return 1
    with tempfile.TemporaryDirectory() as folder:
        bench = Bench(program.resolve(), Path(folder))
        found = try_faults(bench)
        bench.counts.clear()
        bench.opcodes.clear()
        for number in range(count):
            case = Case(number)
            found += [f"{case.name}: {it}" for it in bench.session(case)]
        found += [f"{opcode}h was never sent" for opcode in OPCODES if not bench.opcodes[opcode]]
    for it in found:
        print(f"qemu: {it}", file=sys.stderr)
    print(LEFT_OUT)
    print("sent: " + ", ".join(f"{opcode}h {times}" for opcode, times in sorted(bench.opcodes.items())))
    it = bench.counts
    print(f"qemu: {it['sessions']} sessions ({it['stopped sessions']} stopped) and {it['restores']} restores "
          f"({it['stopped restores']} stopped) on {emulator.version()}: {it['transactions']} transactions, "
          f"{it['replies']} replies compared, {len(found)} differences")
    return int(bool(found))


if __name__ == "__main__":
    sys.exit(main())
