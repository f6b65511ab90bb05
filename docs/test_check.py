#!/usr/bin/env python3
"""Tests of docs/check.py itself: that it finds a name that is listed and not defined, one that is defined and not listed, a
rule whose name does not stand where the rule says, and a line that is too wide. Run at the top of the repository."""
import os
import sys
import tempfile
import unittest

sys.dont_write_bytecode = True
sys.path.insert(0, os.path.dirname(os.path.abspath(__file__)))
import check

SPEC = """-- What it is.
--   good n, Kind   a definition and a type
--   gone           not there
use Rattle.std.specs.Prelude.{length}

abbrev pub good : ℕ → ℕ
good n = n

abbrev pub quiet : ℕ
quiet = 0

pub data Kind : Type 0 where
  one two : Kind

pub record Pair : Type 0 where
  pub left : ℕ
"""
RULES = "| a rule | D `good` w/Spec. T `law` w/Laws. P `call` |\n"


class Checking(unittest.TestCase):
    def setUp(self):
        self.home, self.folder = os.getcwd(), tempfile.TemporaryDirectory()
        os.chdir(self.folder.name)
        for path in ("crates/wire/specs", "crates/wire/proofs", "crates/wire/src", "docs"):
            os.makedirs(path)
        self.write("crates/wire/specs/Spec.antt", SPEC)
        self.write("crates/wire/proofs/Laws.antt", "pub law : ℕ\n")
        self.write("crates/wire/src/lib.rt", "pub fn call() {\n}\n")
        self.write("docs/RULES.md", RULES)
        self.write("README.md", "short\n")

    def tearDown(self):
        os.chdir(self.home)
        self.folder.cleanup()

    def write(self, path, text):
        with open(path, "w", encoding="utf-8") as out:
            out.write(text)

    def test_heads(self):
        said = "\n".join(check.heads())
        self.assertIn("`gone` is in the list and not in the file", said)
        self.assertIn("`quiet` is not in the list", said)
        self.assertIn("`Pair` is not in the list", said)
        self.assertEqual(len(said.split("\n")), 3)

    def test_rules(self):
        self.assertEqual(list(check.rules()), [])
        for wrong in ("D `other` w/Spec.", "T `good` w/Laws.", "P `nowhere`.", "D `good` w/Other."):
            self.write("docs/RULES.md", RULES + f"| a rule | {wrong} |\n")
            self.assertTrue(list(check.rules()), wrong)

    def test_constructors_are_names(self):
        self.write("docs/RULES.md", "| a rule | D `one`, `two` w/Spec |\n")
        self.assertEqual(list(check.rules()), [])

    def test_widths(self):
        self.assertEqual(list(check.widths()), [])
        self.write("README.md", "x" * 121 + "\n|" + "x" * 200 + "\n")
        self.write("crates/wire/src/lib.rt", "x" * 161 + "\n")
        self.assertEqual(len(list(check.widths())), 2)


if __name__ == "__main__":
    unittest.main()
