#!/usr/bin/env python3
"""Tests of edits/run itself: that it finds fault with an edit that is accepted, does not apply, is refused elsewhere, or is refused only
because its proof does not fit. Run at the top of the repository."""
import importlib.machinery
import importlib.util
import os
import sys
import tempfile
import unittest

sys.dont_write_bytecode = True
LOADER = importlib.machinery.SourceFileLoader("run", os.path.join(os.path.dirname(os.path.abspath(__file__)), "run"))
run = importlib.util.module_from_spec(importlib.util.spec_from_loader("run", LOADER))
LOADER.exec_module(run)

FACT = "./proofs/transmission/send/Answers.antt:25:30: error: `returns`: computed as far as they go, the two types differ"
FOLLOWS = "./proofs/a/Answers.antt:9:5: error: `returns`: `close` was not admitted (it has holes), so this cannot be checked"
DEPENDS = "./proofs/Laws.antt:9:5: error: 2 declarations that depend on `law`, which was rejected, were not checked: law_more, law_most"
OPEN = "note: src/number.rt:13:1: it is not proved that what the function ensures holds when it returns (`returns-then-x-gt4`)"
OPEN_TOO = "note: src/number.rt:15:1: it is not proved that the sum fits (`overflow_add-x`); the facts known there allow values at which this goal is false"
NO_PROOF = "fn c::number::clamp: no proof: expected answers in ./proofs/number/clamp/Answers.antt; `search` did not prove `returns-then-x-gt4`"
PROVED = "fn c::number::clamp: proved"
LOST_GOAL = "./proofs/a/Answers.antt:3:5: error: `b`: `goal.b`: module `Rattle.c.proofs.a.Goals` has no `b` that can be named from here"
LOST_PLACE = "./proofs/a/Answers.antt:3:39: error: `returns`: record `Rattle.c.proofs.a.Lts.View.In-Else-l` has no field `if-l-ne0` (nearest: .if-l-ne1)"
NO_NAME = "./specs/Parts.antt:24:16: error: `owing`: `get_orr` is not in scope; did you mean `get_or`?"
END = "\nlogic=not-proved"


def edit(text):
    with tempfile.NamedTemporaryFile("w", suffix=".edit", delete=False, encoding="utf-8") as out:
        out.write(text)
    try:
        return run.read(out.name)
    finally:
        os.remove(out.name)


class Reading(unittest.TestCase):
    def test_several_lines_and_files(self):
        where, pairs, names = edit("# why\nrefused: a b\nrenamed: x-eq0 x-eq1\nfile: src/x.rt\nold: one\nold:   two\nnew: three\nold: four\nnew: five\nfile: crates/w/specs/Y.antt\nold: six\nnew:\n")
        self.assertEqual(where, "a b")
        self.assertEqual(names, [("x-eq0", "x-eq1")])
        self.assertEqual(pairs, [("src/x.rt", "one\n  two", "three"), ("src/x.rt", "four", "five"), ("crates/w/specs/Y.antt", "six", "")])

    def test_no_place_or_no_pair(self):
        for text in ("file: src/x.rt\nold: a\nnew: b\n", "refused: a b\nfile: src/x.rt\n"):
            with self.assertRaises(run.Bad):
                edit(text)

    def test_text_that_is_not_there_once(self):
        with tempfile.TemporaryDirectory() as room:
            path = os.path.join(room, "x.rt")
            for text in ("nothing of it\n", "old\nold\n"):
                with open(path, "w", encoding="utf-8") as out:
                    out.write(text)
                with self.assertRaises(run.Bad):
                    run.apply([("x.rt", "old", "new")], lambda file: os.path.join(room, file))


    def test_names_that_an_edit_changes(self):
        with tempfile.TemporaryDirectory() as room:
            path = os.path.join(room, "Answers.antt")
            with open(path, "w", encoding="utf-8") as out:
                out.write("returns-then-x-eq0 c = f c.if-x-eq0.true c.if-x-eq01.true\n")
            run.rename([("x-eq0", "x-eq1")], room)
            self.assertEqual(run.text_of(path), "returns-then-x-eq1 c = f c.if-x-eq1.true c.if-x-eq01.true\n")
            for names in ([("x-eq0", "x-eq1")], [("x-eq1", "")]):
                with self.assertRaises(run.Bad):
                    run.rename(names, room)


class Judging(unittest.TestCase):
    def good(self, said, where="transmission::send returns", status=1):
        return run.judged(status, said + END, where)[0]

    def test_refused_where_it_says(self):
        self.assertTrue(self.good(FACT))
        self.assertTrue(self.good(FOLLOWS + "\n" + FACT))
        self.assertTrue(self.good("\n".join((OPEN, OPEN_TOO, NO_PROOF, FACT))))

    def test_goals_that_nothing_proves(self):
        said = "\n".join((OPEN, OPEN_TOO, NO_PROOF))
        self.assertTrue(self.good(said, "number::clamp returns-then-x-gt4"))
        self.assertTrue(self.good(said, "number::clamp overflow_add-x"))
        self.assertFalse(self.good("\n".join((PROVED, FACT)), "number::clamp returns-then-x-gt4"))

    def test_accepted_or_no_program(self):
        self.assertFalse(self.good("logic=proved functions=3", status=0))
        self.assertFalse(run.judged(1, "src/x.rt:1:1: error: mismatched types", "x")[0])

    def test_refused_elsewhere(self):
        self.assertFalse(self.good(FACT, "transmission::send copy_part-requires"))
        self.assertFalse(self.good(FACT, "transmission::store returns"))
        self.assertFalse(self.good(FOLLOWS, "a returns"))
        self.assertFalse(self.good(DEPENDS, "Laws 2"))

    def test_a_proof_that_does_not_fit(self):
        self.assertFalse(self.good(LOST_GOAL, "a b"))
        self.assertFalse(self.good(LOST_PLACE, "a returns"))
        self.assertFalse(self.good(NO_NAME, "Parts owing"))
        self.assertFalse(self.good(FACT + "\n" + LOST_PLACE))


class Leaving(unittest.TestCase):
    def test_types_stay_and_functions_go(self):
        with tempfile.TemporaryDirectory() as room:
            os.makedirs(f"{room}/src")
            os.makedirs(f"{room}/proofs/f")
            for path, text in (
                (
                    "src/lib.rt",
                    "use crate::a::Kept;\nuse crate::a::{Kept, MOST, gone, gone_too};\nuse crate::a::gone;\n#[derive(Clone, Copy)]\npub struct Kept {\n    pub x: u8,\n}\n\n"
                    "#[tactic(auto)]\npub fn f(x: u8) -> u8\n{\n    x\n}\n\nimpl Kept {\n    fn g(self) {\n    }\n}\npub const C: u8 = 1;\n",
                ),
                ("proofs/f/Answers.antt", "returns c = ..\n"),
                ("proofs/Answers.antt", "law = ..\n"),
            ):
                with open(f"{room}/{path}", "w", encoding="utf-8") as out:
                    out.write(text)
            run.without_functions(room)
            text = run.text_of(f"{room}/src/lib.rt")
            kept = "use crate::a::Kept;\nuse crate::a::{Kept, MOST};\n#[derive(Clone, Copy)]\npub struct Kept {\n    pub x: u8,\n}\n\n\npub const C: u8 = 1;\n"
            self.assertEqual(text, kept)
            self.assertFalse(os.path.exists(f"{room}/proofs/f"))
            self.assertTrue(os.path.exists(f"{room}/proofs/Answers.antt"))


if __name__ == "__main__":
    unittest.main()
