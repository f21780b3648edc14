"""The files of a simulated chip, and runs of simulated_runs."""
import os
import struct
import subprocess
from dataclasses import dataclass, replace
from pathlib import Path

TINY64, W25Q64FV = 0x10000, 0x800000
# More calls of the port than any run makes.
UNLIMITED = 1 << 40
# Bits of status 1 and 2 that a run may leave changed: BUSY and WEL, and SUS.
VOLATILE = 0x03, 0x80


@dataclass(frozen=True)
class Chip:
    bytes: bytes
    status: tuple = (0, 0)
    # the number of calls of the port that can still succeed
    left: int = UNLIMITED

    @classmethod
    def read(cls, folder):
        content = Path(folder, "chip").read_bytes()
        left, = struct.unpack("<Q", Path(folder, "left").read_bytes())
        return cls(content[:-2], tuple(content[-2:]), left)

    def write(self, folder):
        Path(folder, "chip").write_bytes(self.bytes + bytes(self.status))
        Path(folder, "left").write_bytes(struct.pack("<Q", self.left))

    def kept(self):
        """Returns what a restore must return: the bytes and the non-volatile status bits."""
        return self.bytes, tuple(byte & ~bits for byte, bits in zip(self.status, VOLATILE))

    def with_left(self, left):
        return replace(self, left=left)


@dataclass(frozen=True)
class Stop:
    """How a port fails: after `calls` calls, with `torn` bytes of the transaction sent (None: none), and with the loss
    of the chip's power if `fill` isn't None: each byte that is being programmed or erased becomes `fill`."""
    calls: int
    torn: int = None
    fill: int = None


@dataclass(frozen=True)
class Ended:
    status: int
    output: str
    errors: str
    chip: Chip


def run(program, folder, chip, words, stop=None, seconds=None):
    """Plays one run on the chip in the folder, and returns how it ended. With `stop`, the port fails as it says. With
    `seconds`, the process is killed after this time, if it hasn't ended."""
    chip.with_left(UNLIMITED if stop is None else stop.calls).write(folder)
    torn, fill = ("-" if it is None else str(it) for it in (stop and stop.torn, stop and stop.fill))
    with subprocess.Popen([program, torn, fill, "-p", "serprog:dev=simulated", *words], cwd=folder, text=True,
                          stdin=subprocess.DEVNULL, stdout=subprocess.PIPE, stderr=subprocess.PIPE, errors="replace",
                          env={"PATH": os.environ["PATH"], "LC_ALL": "C"}) as process:
        try:
            output, errors = process.communicate(timeout=300 if seconds is None else seconds)
        except subprocess.TimeoutExpired:
            process.kill()
            output, errors = process.communicate()
    return Ended(process.returncode, output, errors, Chip.read(folder))
