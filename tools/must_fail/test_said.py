"""Tests of said.py on what the prover said of real edits, in the folder outputs."""

import os
import unittest

from said import Kind, refusal_of, refusals_of

FOLDER = f"{os.path.dirname(os.path.abspath(__file__))}/outputs"


def said(name):
    with open(f"{FOLDER}/{name}.txt", encoding="utf-8") as file:
        return file.read()


def found(text):
    """Returns the kind and the clauses of each refusal, by the function's name."""
    return {path.rsplit("::", 1)[1]: (it.kind, it.clauses) for path, it in refusals_of(text).items()}


class Kinds(unittest.TestCase):
    def test_goals(self):
        wanted = {
            "addr": (Kind.OPEN, ("value",)),
            "endian": (Kind.LIMIT, ("returns",)),
            "kind": (Kind.FALSE, ("value", "lawful")),
            "decode": (Kind.LIMIT, ("decided",)),
        }
        self.assertEqual(found(said("goals")), wanted)

    def test_answers(self):
        self.assertEqual(found(said("answers")), {"add_parts": (Kind.ANSWERS, ("loop-part-preserved",))})
        clause = said("answers").replace("loop-part-preserved", "returns-clause-bytes")
        self.assertEqual(found(clause), {"add_parts": (Kind.ANSWERS, ("bytes",))})

    def test_answers_with_values(self):
        wanted = {"least": (Kind.FALSE, ("returns",)), "more": (Kind.ANSWERS, ("returns",)), "most": (Kind.FALSE, ("returns",))}
        self.assertEqual(found(said("values")), wanted)
        self.assertNotIn("\n", "".join(it.why for it in refusals_of(said("values")).values()))

    def test_weak_kinds_and_a_callee_that_is_not_proved(self):
        wanted = {
            "half": (Kind.REQUIRES, ("some",)),
            "steps": (Kind.MEASURE, ("steps-requires",)),
            "sum_below": (Kind.MEASURE, ("loop-at-smaller",)),
            "rounds": (Kind.MEASURE, ()),
        }
        self.assertEqual(found(said("weak")), wanted)

    def test_the_strongest_kind_counts(self):
        ensures = "note: src/lib.rt:30:1: it is not proved that what the function ensures holds when it returns (`returns-clause-part`)\n"
        self.assertEqual(found(ensures + said("weak"))["half"], (Kind.OPEN, ("part",)))

    def test_a_limit_in_a_proof(self):
        text = "proofs/half/Answers.antt:6:3: error: `returns`: antt ran out of the steps that the check of one declaration may take\n"
        self.assertEqual(refusal_of("sample::half", "not proved", [], text).kind, Kind.LIMIT)

    def test_proved(self):
        for verdict in ["proved", "no holes", "depends on a hole in `Rattle.sample.proofs.share.Proof.share_spec`"]:
            self.assertIsNone(refusal_of("sample::half", verdict, [], ""))


class OwnReasons(unittest.TestCase):
    def test_a_name_that_an_edit_took_away_is_no_reason(self):
        self.assertEqual(found(said("names")), {})

    def test_nor_is_it_where_answers_are_expected(self):
        verdict = "no proof: expected answers in ./proofs/there_and_back/Answers.antt; `search` did not prove `halved-less-requires`"
        text = said("names").replace("there_and_back: not proved", f"there_and_back: {verdict}")
        self.assertIn(verdict, text)
        self.assertEqual(found(text), {})

    def test_a_goal_beside_such_a_name_is_one(self):
        goal = "note: src/lib.rt:80:1: it is not proved that what the function ensures holds when it returns (`returns-clause-within`)"
        self.assertEqual(found(said("names").replace("fn sample::there", f"{goal}\nfn sample::there")), {"there_and_back": (Kind.OPEN, ("within",))})
        goal += "; the facts known there allow values at which this goal is false"
        self.assertEqual(found(said("names").replace("fn sample::doubled", f"{goal}\nfn sample::doubled")), {"doubled": (Kind.FALSE, ("within",))})

    def test_more_goals_than_answers_without_one(self):
        self.assertEqual(found(said("renamed")), {"are_traced": (Kind.LIMIT, ("returns-then-before", "loop-op-preserved"))})

    def test_a_goal_without_its_answer_counts_where_it_is_false(self):
        goal = "(`halved-less-requires`)"
        text = said("names").replace(goal, f"{goal}; the facts known there allow values at which this goal is false")
        self.assertEqual(found(text), {"there_and_back": (Kind.REQUIRES, ("halved-less-requires",))})

    def test_proofs_of_a_function_that_calls_itself(self):
        error = "./proofs/making/+has_maker/Answers.antt:14:3: error: `loop-place-init`: as printed, the two types first differ where one has `1`"
        refusal = refusal_of("chi_search::making::has_maker", "not proved", [], error)
        self.assertEqual((refusal.kind, refusal.clauses, refusal.why), (Kind.ANSWERS, ("loop-place-init",), error))
        self.assertIsNone(refusal_of("chi_search::making::may_make", "not proved", [], error))

    def test_a_function_at_the_top_of_a_crate(self):
        error = "./proofs/part/half/Answers.antt:14:3: error: `returns`: as printed, the two types first differ"
        self.assertIsNone(refusal_of("sample::half", "not proved", [], error))
        self.assertIsNotNone(refusal_of("sample::half", "not proved", [], error.replace("part/half", "half")))

    def test_a_long_reason_is_whole(self):
        error = f"./proofs/half/Answers.antt:14:3: error: `returns`: {'long ' * 200}"
        self.assertEqual(refusal_of("sample::half", "not proved", [], error).why, error)


if __name__ == "__main__":
    unittest.main()
