"""Tests the scripts that read the sources (contracts.py, sources.py, statement.py) on small sources."""
import pathlib
import tempfile
import unittest
from unittest import mock

import contracts
import sources
import statement

HEAD = """-- What stands here.
use Rattle.std.specs.Prelude.{ℕ, Bool, true}

"""


class Small(unittest.TestCase):
    """Tests on a directory of crates, which is empty at first."""

    def setUp(self):
        folder = tempfile.TemporaryDirectory()
        self.addCleanup(folder.cleanup)
        self.crates = pathlib.Path(folder.name)
        self.addCleanup(sources.source.cache_clear)
        patch = mock.patch.object(sources, "CRATES", self.crates)
        self.addCleanup(patch.stop)
        patch.start()
        sources.source.cache_clear()

    def put(self, path, text):
        """Writes a file below crates/, and returns what sources.py reads from it."""
        file = self.crates / path
        file.parent.mkdir(parents=True, exist_ok=True)
        file.write_text(text, encoding="utf-8")
        return sources.source(path)

    def refuses(self, path, text, told):
        """Checks that sources.py ends with a message that contains `told` when it reads this text."""
        with self.assertRaises(SystemExit) as ended:
            self.put(path, text)
        self.assertIn(told, str(ended.exception))


class Definitions(Small):
    """Tests of files in specs/."""

    def spec(self, text):
        """Writes a file of definitions, and returns what sources.py reads from it."""
        return self.put("one/specs/Some.antt", HEAD + text)

    def test_a_comment_between_equations_belongs_to_the_next_one(self):
        text = "abbrev pub low : ℕ\nlow = 1\n\n-- how often\nabbrev pub often : Bool → ℕ\noften true = low\n"
        spec = self.spec(text + "-- else = high\noften _ = low\n")
        word = spec.words["often"]
        self.assertEqual(word.comment, ["-- how often"])
        self.assertEqual(statement.lines_of(word)[-2:], ["-- else = high", "often _ = low"])
        self.assertEqual([found for found in spec.used(word) if not isinstance(found, str)], [spec.words["low"]] * 2)

    def test_a_comment_above_the_only_equation_stays_there(self):
        word = self.spec("abbrev pub low : ℕ → ℕ\n-- one more\nlow x = suc x\n").words["low"]
        self.assertEqual(statement.lines_of(word), ["low : ℕ → ℕ", "-- one more", "low x = suc x"])

    def test_a_word_is_whole(self):
        for name, text in (
                ("IsThree", "pub record IsThree (x : ℕ)\n    (y : ℕ) : Type 0 where\n  pub low : x ≤ 3\n  -- and\n"
                            "  pub high :\n      3 ≤ x\n"),
                ("Format", "pub data Format : Type 0 where\n  First : Format\n  -- the later one\n  Second : Format\n"),
                ("often", "abbrev pub often : Bool\n    → ℕ\noften true =\n    1\noften _ = elim x [\n  | p ↦ 0\n]\n"),
                ("◌>>=◌", "abbrev pub ◌>>=◌ : ℕ → ℕ → ℕ\n(suc x) >>= y = x\nx >>= y = y\n")):
            with self.subTest(name):
                sources.source.cache_clear()
                spec = self.spec("infixl 10 ◌>>=◌\n" + text)
                self.assertEqual("\n".join(spec.words[name].code) + "\n", text)

    def test_what_is_no_definition_is_refused(self):
        for what, text, told in (
                ("a part ends a definition", "abbrev pub low : ℕ\n-- ---- more\nlow = 1\n", "'low = 1' belongs to no"),
                ("so does a blank line", "abbrev pub low : ℕ\n\nlow = 1\n", "Some.antt:6: 'low = 1' belongs to no"),
                ("another name", "abbrev pub low : ℕ\nlaw = 1\n", "'law = 1' belongs to no definition"),
                ("another mark", "opaque pub high : ℕ\nhigh = 2\n", "'opaque pub high : ℕ' belongs"),
                ("no mark", "record IsThree (x : ℕ) : Type 0 where\n", "belongs to no definition"),
                ("a use on two lines", "use Rattle.std.specs.Prelude.{List,\n  Option}\n", "belongs to no definition"),
                ("a name twice", "abbrev pub low : ℕ\n\nabbrev pub low : ℕ\n", "'low' is defined twice")):
            with self.subTest(what):
                sources.source.cache_clear()
                self.refuses("one/specs/Some.antt", HEAD + text, told)


class Cut(Small):
    """Tests of records and contracts of which STATEMENT.md has only a part, and of their layout."""

    def test_a_field_that_is_left_out_is_named(self):
        fields = "  -- low\n  pub low : x ≤ 3\n  -- high\n  pub high :\n      3 ≤ x\n  pub same : x ≡ 3\n"
        text = f"{HEAD}pub record IsThree (x : ℕ) : Type 0 where\n{fields}"
        word = self.put("one/specs/Some.antt", text).words["IsThree"]
        before = list(word.code)
        self.assertEqual(statement.lines_of(statement.with_fields(word, ["high"])), [
            "record IsThree (x : ℕ) where", "  -- high", "  high :", "      3 ≤ x",
            "  -- also, in the appendices: low, same"])
        self.assertEqual(word.code, before)
        with self.assertRaises(SystemExit) as ended:
            statement.with_fields(word, ["highest"])
        self.assertIn("'IsThree' has no field highest", str(ended.exception))

    def test_a_contract_has_the_clauses_that_are_named_and_what_its_caller_owes(self):
        call = "pub fn one(\n    x: u8,\n    y: u8,\n) -> u8\n    requires { ⊤ }\n    // low\n" \
            "    ensures low { ⊤ }\n    ensures high { ⊥ }\n{}\n"
        word = self.put("one/src/a.rt", call).words["one"]
        self.assertEqual(statement.lines_of(statement.with_clauses(word, ["high"])),
                         ["pub fn one(", "    x: u8, y: u8,", ") -> u8", "    requires { ⊤ }",
                          "    ensures high { ⊥ }"])
        self.assertEqual(statement.with_clauses(word, []).code, word.code)


class Contracts(Small):
    """Tests of files in src/."""

    def test_a_function_ends_where_its_body_begins(self):
        code = self.put("one/src/a.rt", "pub fn one() -> u8 {\n    1\n}\n\npub fn two(x: [u8; 2]) -> u8\n"
                                        "    // { as a rule\n    ensures { result ≡ 2 }\n{\n    2\n}\n")
        self.assertEqual(code.words["one"].code, ["pub fn one() -> u8"])
        self.assertEqual(code.words["two"].code[-1], "    ensures { result ≡ 2 }")

    def test_a_clause_over_lines_is_whole(self):
        text = "fn one()\n    ensures low { OnOk result (λ x. record { a = x }\n        ≡ 3) }\n    requires { ⊤ }\n{}"
        clauses, _ = sources.clauses_of(text[:-2])
        self.assertEqual([(clause.kind, clause.name) for clause in clauses], [("ensures", "low"), ("requires", "")])
        self.assertTrue(clauses[0].term.endswith("≡ 3) "))

    def test_a_clause_that_has_no_braces_is_refused(self):
        with self.assertRaises(SystemExit):
            sources.clauses_of("fn one()\n    ensures low")

    def test_signs_are_those_of_a_use_or_of_the_prelude(self):
        text = "pub trait Law {\n    ghost use Rattle.std.specs.Prelude.{◌≡◌};\n\n" \
            "    fn law(x: u8)\n        ensures { Some x ≡ x };\n}\n"
        code = self.put("one/src/a.rt", text)
        self.assertLessEqual({"◌≡◌", "Some"}, set(code.used(code.words["Law"])))
        sources.source.cache_clear()
        code = self.put("one/src/a.rt", text.replace("    ghost use Rattle.std.specs.Prelude.{◌≡◌};\n", ""))
        with self.assertRaises(SystemExit) as ended:
            code.used(code.words["Law"])
        self.assertIn("says '≡', which is found nowhere", str(ended.exception))

    def test_an_item_without_an_end_is_refused(self):
        self.refuses("one/src/a.rt", "pub struct One {\n    a: u8,\n", "a.rt:1: this '{' isn't closed")
        self.refuses("one/src/b.rt", "pub fn one()\n    ensures { ⊤ }\n", "b.rt:1: this item doesn't end")


PLAIN = """//! What stands here.

/// True if it is even.
#[inline]
pub fn even(x: u64, y: &mut [u8]) -> bool
    requires { x < 9 }
    ensures low { result ≡ true }
{
    true
}

impl<T: Law> Law for One<T> {
    fn law()
        ensures { ⊤ }
    {
    }

    #[test]
    fn each_is_even() {}
}
"""
# These changes of the layout change no meaning. Each has a text, and its replacement.
HARMLESS = {
    "a name for a requires": ("requires {", "requires small {"),
    "a clause's brace on a line of its own": ("ensures low {", "ensures low\n    {"),
    "a signature on three lines": ("even(x: u64, y: &mut [u8]) ->", "even(\n    x: u64, y: &mut [u8],\n) ->"),
    "a law's parentheses on two lines": ("fn law()", "fn law(\n    )"),
    "a comment between an attribute and its function": ("#[inline]\n", "#[inline]\n// {as always}\n"),
    "a comment between a test's attribute and its function": ("#[test]\n", "#[test]\n    // of each\n"),
    "another attribute before a test's": ("#[test]\n", "#[test]\n    #[tactic(auto,\n        using(a))]\n"),
    "a block's head on two lines": ("Law for One<T> {", "Law\n    for One<T>\n{"),
}


class Layout(Small):
    """Tests that a change of a source's layout doesn't change what is read from the source."""

    def said(self, text):
        """Returns what contracts.py reads from the functions in a text."""
        self.put("one/src/a.rt", text)
        sources.source.cache_clear()
        code = sources.source("one/src/a.rt")
        calls = [contracts.Call(code, item) for item in code.items if item.kind == "fn"]
        return [(call.name, call.trait, call.is_test, call.is_law(),
                 [(clause.kind, clause.term) for clause in call.clauses]) for call in calls]

    def test_what_is_read(self):
        self.assertEqual(self.said(PLAIN), [
            ("even", "", False, False, [("requires", " x < 9 "), ("ensures", " result ≡ true ")]),
            ("One::law", "Law::law", False, True, [("ensures", " ⊤ ")]),
            ("One::each_is_even", "Law::each_is_even", True, False, []),
        ])

    def test_a_harmless_change_changes_nothing(self):
        for what, (old, new) in HARMLESS.items():
            with self.subTest(what):
                self.assertIn(old, PLAIN)
                self.assertEqual(self.said(PLAIN.replace(old, new)), self.said(PLAIN))

    def test_a_change_of_a_contract_is_seen(self):
        for old, new in ("ensures low", "requires"), ("x < 9", "x < 8"), ("fn law()", "fn law(x: u8)"):
            self.assertNotEqual(self.said(PLAIN.replace(old, new)), self.said(PLAIN), new)


if __name__ == "__main__":
    unittest.main()
