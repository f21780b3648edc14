"""Checks that each row of PAGES in tests/flashnor/self.py changes its page. That script tests the changes with the
built program; this test needs no program."""
import importlib
import pathlib
import re
import sys
import unittest

TOP = pathlib.Path(__file__).resolve().parents[2]
sys.path.insert(0, str(TOP / "tests/flashnor"))
trials = importlib.import_module("self")


class Pages(unittest.TestCase):
    def test_each_change_changes_its_page(self):
        for what, page, old, new, _ in trials.PAGES:
            text = (TOP / page).read_text(encoding="utf-8")
            with self.subTest(what):
                self.assertTrue(re.sub(old, new, text, flags=re.M) != text, f"{page} has nothing like {old}")


if __name__ == "__main__":
    unittest.main()
