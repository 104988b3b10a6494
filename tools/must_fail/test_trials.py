"""Tests, with the prover, of which edits of the crate in the folder sample count as refused."""

import tempfile
import unittest

from said import Kind
from sample import Sample
from trials import Crate, kit


class WithProver(unittest.TestCase):
    @classmethod
    def setUpClass(cls):
        cls.sample, kept = Sample(), tempfile.TemporaryDirectory(prefix="kept-")
        cls.addClassCleanup(cls.sample.room.cleanup)
        cls.addClassCleanup(kept.cleanup)
        cls.crate, cls.kept = Crate(cls.sample.root, "sample", kit()), kept.name

    def test_edits_of_different_functions(self):
        edit = self.sample.edit
        wrong = {
            "lesser": (edit("lesser", ("kept < b", "kept > b")), Kind.FALSE),
            "half": (edit("half", ("let many = 2;", "let many = total;")), Kind.REQUIRES),
            "steps": (edit("steps", ("steps(here + 1, end)", "steps(here, end)")), Kind.MEASURE),
            "doubled": (edit("doubled", ("    wide + wide", "    wide + 0")), Kind.ANSWERS),
        }
        harmless = [
            edit("above", ("let low = lesser", "let less = lesser"), ("a - low", "a - less")),
            edit("sum", ("a as u64 + b as u64", "b as u64 + a as u64")),
        ]
        # the proof of this one cites the name of the local
        unnamed = edit("there_and_back", ("let low = halved", "let less = halved"), ("    low", "    less"))
        edits = [*(it for it, _ in wrong.values()), *harmless, unnamed]
        with self.subTest("each of the functions is proved as it stands"):
            self.assertEqual(self.crate.not_proved(edits, self.kept), {})
        refused, again = self.crate.try_together(edits, self.kept)
        self.assertEqual([it.function for it in again], [it.function for it in (*harmless, unnamed)])
        self.assertEqual({it.edit.function.removeprefix("sample::"): it.refusal.kind for it in refused}, {name: it for name, (_, it) in wrong.items()})

    def test_a_callee_that_is_not_proved(self):
        tried = self.crate.try_alone(self.sample.edit("above", ("kept < b", "kept > b"), ("a - low", "a - low + 0")), self.kept)
        self.assertEqual((tried.edit.function, tried.refusal), ("sample::above", None))

    def test_a_crate_that_does_not_build(self):
        tried = self.crate.try_alone(self.sample.edit("lesser", ("let kept = a;", "let kept = c;")), self.kept)
        self.assertIsNone(tried.refusal)
        self.assertRegex(tried.why, r"BAD EDIT: it did not reach the prover: .*\berror\[")


if __name__ == "__main__":
    unittest.main()
