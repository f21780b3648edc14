"""Tests scripts/compare/traces.py, which reads traces of flashnor and plays them on another chip."""
import pathlib
import sys
import unittest

sys.path.insert(0, str(pathlib.Path(__file__).resolve().parents[2] / "scripts/compare"))
import traces  # noqa: E402  (the line above adds its directory to the path)
from traces import Transaction

WRITE = """05 > 00
9f > ef4017
03000000 > 4 bytes
06
0200000012
05 > 00
03000000 > 4 bytes
"""


class Chip:
    """A chip with given replies. Its status register has only the lowest four bits."""
    kept = 0x0F

    def __init__(self, *replies):
        self.replies = [bytes.fromhex(it) for it in replies]
        self.sent = []

    def exchange(self, sent, count):
        self.sent.append(sent.hex())
        reply = self.replies.pop(0) if count else b""
        assert len(reply) == count
        return reply


class Lines(unittest.TestCase):
    def test_lines(self):
        for line, wanted in (
            ("06", Transaction(b"\x06")),
            ("9f > ef4017", Transaction(b"\x9f", 3, b"\xef\x40\x17")),
            ("03000000 > 4096 bytes", Transaction(b"\x03\0\0\0", 4096)),
        ):
            self.assertEqual(traces.read_line(line), wanted)
        for line in ("", "0", "06 ", "AF", "05 >00", "05 > 0", "05 > 00000000", "05 > 3 bytes", "05 > 04 bytes",
                     "05 > 4 bytes more"):
            with self.assertRaises(ValueError, msg=line):
                traces.read_line(line)
        self.assertEqual(len(traces.read_trace(WRITE)), 7)
        for text in (WRITE[:-1], "06\n\n"):
            with self.assertRaises(ValueError, msg=text):
                traces.read_trace(text)


class Played(unittest.TestCase):
    def play(self, *replies, trace=WRITE):
        """Plays a trace on a chip with these replies. Returns the number of compared replies, and the lines of the
        trace whose replies differ."""
        self.chip = Chip(*replies)
        compared, found = traces.play(self.chip, traces.read_trace(trace), b"\xff\xff\xff\xff", b"\x12\xff\xff\xff")
        return compared, [it.split(" (")[0] for it in found]

    def test_the_same(self):
        self.assertEqual(self.play("00", "ef4017", "ffffffff", "00", "12ffffff"), (5, []))
        self.assertEqual(self.chip.sent, [line.split()[0] for line in WRITE.splitlines()])

    def test_another_reply(self):
        right = ["00", "ef4017", "ffffffff", "00", "12ffffff"]
        others = (0, "01", 1), (1, "ef4018", 2), (2, "feffffff", 3), (3, "02", 6), (4, "ffffffff", 7)
        for place, other, line in others:
            replies = right[:place] + [other] + right[place + 1 :]
            self.assertEqual(self.play(*replies), (5, [f"line {line}"]))

    def test_what_is_left_out(self):
        trace = "05 > 00\n05 > 10\n35 > 00\n4b00000000 > 8 bytes\n"
        self.assertEqual(self.play("f0", "00", "11", "0102030405060708", trace=trace), (2, []))
        # Between two changes the bytes of the chip are unknown, so a read there isn't compared.
        self.assertEqual(self.play("00", trace="0200000012\n03000000 > ff\n0200000100\n"), (0, []))


if __name__ == "__main__":
    unittest.main()
