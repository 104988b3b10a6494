"""Tests, without the prover, of what an edit changes, of the functions in a source, and of what is taken by contract."""

import os
import unittest

from assumed import assume_all_but, changed_in
from edit import applied, functions_of, text_of
from said import Kind, Refusal
from sample import Sample
from trials import Tried, counts_of, is_function

SOURCE = """\
pub struct Pair<A> {
    first: A,
}

impl<A: Order> Pair<A> {
    pub fn first(&self) -> A {
        self.first
    }
}

impl<A: Order> From<A> for Pair<A> {
    fn from(it: A) -> Pair<A>
        ensures { result ≡ it }
    {
        Pair { first: it }
    }
}

impl Drop for Pair<u8> {
    fn drop(&mut self) {}
}

trait Order {
    fn before(&self) -> bool {
        true
    }
}

const fn least() -> u8 {
    0
}
"""


class WithSample(unittest.TestCase):
    def setUp(self):
        self.sample = Sample()
        self.addCleanup(self.sample.room.cleanup)


class Edits(WithSample):
    def test_one_that_fits(self):
        edit = self.sample.edit("lesser", ("kept < b", "kept > b"))
        self.assertEqual((edit.name, edit.crate), ("01_lesser.turned.edit", "sample"))
        self.assertEqual((edit.function, edit.is_of_body), ("sample::lesser", True))
        self.assertEqual(changed_in(self.sample.folder, edit.texts), {"sample::lesser"})

    def test_one_of_two_bodies_is_of_the_function_of_its_name(self):
        edit = self.sample.edit("above", ("kept < b", "kept > b"), ("a - low", "a - low + 0"))
        self.assertEqual((edit.function, edit.is_of_body), ("sample::above", False))

    def test_ones_that_do_not_fit(self):
        for pairs, said in [
            ([("kept <= b", "kept > b")], "stands 0 times"),
            ([("let wide = ", "let broad = ")], "stands 2 times"),
            ([], "no 'old:' and 'new:' pair"),
        ]:
            with self.subTest(said=said), self.assertRaisesRegex(ValueError, said):
                self.sample.edit("lesser", *pairs)

    def test_one_of_a_definition(self):
        with self.assertRaisesRegex(ValueError, "changes code alone"):
            self.sample.edit("doubled", ("n + n", "n"), path="specs/Words.antt")

    def test_two_together(self):
        edits = [self.sample.edit("lesser", ("kept < b", "kept > b")), self.sample.edit("sum", ("a as u64 + b", "b as u64 + a"))]
        (text,) = applied(edits, self.sample.folder).values()
        self.assertIn("if kept > b {", text)
        self.assertIn("b as u64 + a as u64", text)


class Functions(WithSample):
    def test_those_of_a_text(self):
        found = functions_of({"src/pairs.rt": SOURCE}, "sample")["src/pairs.rt"]
        paths = ["sample::pairs::Pair::first", "sample::pairs::PairFrom::from", "sample::pairs::Pair::drop", "sample::pairs::least"]
        self.assertEqual([it.path for it in found], paths)
        self.assertEqual([it.is_const for it in found], [False, False, False, True])
        lines = SOURCE.split("\n")
        self.assertEqual([(lines[it.brace].strip(), lines[it.last]) for it in found][1], ("{", "    }"))

    def test_a_closure_is_of_its_function(self):
        self.assertTrue(is_function("sample::fn::lesser::closure", "sample::lesser"))
        self.assertTrue(is_function("sample::lesser", "sample::lesser"))
        self.assertFalse(is_function("sample::not_lesser", "sample::lesser"))


class Assumed(WithSample):
    def test_all_but_one(self):
        folder = self.sample.folder
        assume_all_but({"sample::doubled"}, folder, "sample")
        text = text_of(f"{folder}/src/lib.rt")
        self.assertIn("    wide + wide\n", text)
        self.assertNotIn("kept < b", text)
        self.assertEqual(text.count("    loop {}\n"), 9)
        self.assertIn("lesser_spec = ?", text_of(f"{folder}/proofs/lesser/Proof.antt"))
        self.assertTrue(os.path.exists(f"{folder}/proofs/doubled/Answers.antt"))
        self.assertFalse(os.path.exists(f"{folder}/proofs/there_and_back/Answers.antt"))
        self.assertFalse(os.path.exists(f"{folder}/proofs/+steps/Invariants.antt"))


class Printed(WithSample):
    def test_a_reason_is_whole_and_on_one_line(self):
        edit, why = self.sample.edit("lesser", ("kept < b", "kept > b")), f"sample::lesser: {'long ' * 100}\nend"
        text = str(Tried(edit, Refusal(Kind.FALSE, ("first", "second"), why), why))
        self.assertTrue(text.startswith("sample/01_lesser.turned.edit: refused: a goal is false: first, second: sample::lesser: long"))
        self.assertTrue(text.endswith("long end"))
        self.assertNotIn("\n", text)

    def test_how_many_of_each_kind(self):
        edit = self.sample.edit("lesser", ("kept < b", "kept > b"))
        tried = [Tried(edit, Refusal(it, (), ""), "") for it in (Kind.OPEN, Kind.FALSE, Kind.OPEN)] + [Tried(edit, None, "")]
        wanted = "3 of 4 edits refused: a goal is false 1, open goal 2, search limit 0, answers 0, requires 0, measure 0"
        self.assertEqual(counts_of(tried), wanted)


if __name__ == "__main__":
    unittest.main()
