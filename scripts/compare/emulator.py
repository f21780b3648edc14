"""Drives QEMU's chip w25q64 at the flash controller of the board ast2500-evb, with QEMU's protocol qtest.

The processor of the board never runs. The controller is in its user mode: while chip select is low, each byte that is
written to the controller's window goes to the chip, and each byte that is read from the window comes from the chip.
"""
import base64
import subprocess

import traces

QEMU = "qemu-system-arm"
CONFIGURATION, CONTROL, WINDOW = 0x1E620000, 0x1E620010, 0x20000000
# These are values of the controller's registers. WRITABLE says that chip 0 is SPI flash and may be written. LOW and
# HIGH select user mode, with chip select low and high.
WRITABLE, LOW, HIGH = 0x00010002, 0x3, 0x7
CLEAR_LATCH = b"\x04"


class Emulator:
    """A running QEMU, whose chip has the bytes of the file `image`."""
    # This chip has only these bits of status 1: TB and SEC are missing.
    kept = 0x9F

    def __init__(self, image):
        self.process = subprocess.Popen(
            [QEMU, "-M", "ast2500-evb,fmc-model=w25q64", "-S", "-qtest", "stdio", "-qtest-log", "/dev/null", "-display",
             "none", "-monitor", "none", "-serial", "none", "-drive", f"file={image},format=raw,if=mtd"],
            stdin=subprocess.PIPE, stdout=subprocess.PIPE, text=True)
        self.ask(f"writel {CONFIGURATION} {WRITABLE}", f"writel {CONTROL} {HIGH}")

    def __enter__(self):
        return self

    def __exit__(self, *_):
        """Ends QEMU, which then writes the file of its chip. Closes the pipes only afterwards, because QEMU prints an
        error otherwise."""
        self.process.terminate()
        self.process.wait()
        self.process.communicate()

    def ask(self, *commands):
        """Sends these qtest commands at once, and returns the replies."""
        self.process.stdin.write("".join(f"{it}\n" for it in commands))
        self.process.stdin.flush()
        answers = [self.process.stdout.readline() for _ in commands]
        for command, answer in zip(commands, answers):
            if answer.split()[:1] != ["OK"]:
                raise OSError(f"QEMU answers {answer!r} to {command[:80]!r}")
        return answers

    def exchange(self, sent, count):
        """Carries out a transaction: sends the bytes `sent`, and returns the `count` bytes that the chip replies.

        A program or an erase clears the write enable latch of a real chip, but not that of QEMU's chip. So this
        function clears the latch afterwards.
        """
        commands = [f"writel {CONTROL} {LOW}", f"write {WINDOW} {len(sent)} 0x{sent.hex()}"]
        if count:
            commands.append(f"b64read {WINDOW} {count}")
        *_, last, _ = self.ask(*commands, f"writel {CONTROL} {HIGH}")
        if traces.Transaction(sent).changes_bytes():
            self.exchange(CLEAR_LATCH, 0)
        return base64.b64decode(last.split()[1]) if count else b""


def version():
    """Returns the name and version of the installed QEMU."""
    said = subprocess.run([QEMU, "--version"], capture_output=True, text=True, check=True).stdout
    return " ".join(said.split()[0:4:3])
