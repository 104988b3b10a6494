#!/usr/bin/env python3
"""Tests of run_cases.py: what agrees with an expected text, and which mistakes it finds."""

import sys
import tempfile
import unittest
from pathlib import Path
from unittest import mock

sys.dont_write_bytecode = True
sys.path.insert(0, str(Path(__file__).parent))

import run_cases


class Agreement(unittest.TestCase):
    def test_lines_that_are_skipped(self):
        for found in [b"a\nc\n", b"a\nb\nc\n", b"a\nb\nb\nc\n"]:
            self.assertTrue(run_cases.agrees(b"a\n...\nc\n", found))
        for found in [b"a\n", b"a\nc\nd\n", b"b\na\nc\n", b"a\nc"]:
            self.assertFalse(run_cases.agrees(b"a\n...\nc\n", found))

    def test_the_rest_of_a_line(self):
        self.assertTrue(run_cases.agrees(b"error: ...\n", b"error: no such file\n"))
        for found in [b"", b"warning: it\n", b"error: it\nmore\n"]:
            self.assertFalse(run_cases.agrees(b"error: ...\n", found))

    def test_points_that_are_written(self):
        self.assertTrue(run_cases.agrees(b"a...\n", b"a...\n"))
        self.assertFalse(run_cases.agrees(b"a.c\n", b"abc\n"))


class Mistakes(unittest.TestCase):
    """A case of a program that copies its input and writes its words to standard error."""

    def setUp(self):
        room = tempfile.TemporaryDirectory()
        self.addCleanup(room.cleanup)
        self.folder = Path(room.name, "copied")
        self.folder.mkdir()
        program = Path(room.name, "program")
        program.write_text('#!/bin/sh\ncat\necho "$@" >&2\nexit 3\n')
        program.chmod(0o755)
        for name, value in [("CASES", Path(room.name)), ("PROGRAMS", {"chicheck": program})]:
            patched = mock.patch.object(run_cases, name, value)
            patched.start()
            self.addCleanup(patched.stop)
        for name, text in [("args", "chicheck one 'and two'\n"), ("stdin", "7\n"), ("stdout", "7\n"), ("stderr", "one and two\n"), ("status", "3\n")]:
            (self.folder / name).write_text(text)
        self.case = run_cases.Case(self.folder)

    def test_none(self):
        self.assertEqual([], [*self.case.mistakes()])

    def test_each(self):
        for name, text in [("stdout", "8\n"), ("stderr", "one\n"), ("status", "0\n")]:
            with self.subTest(name):
                right = (self.folder / name).read_text()
                (self.folder / name).write_text(text)
                self.assertEqual(1, len([*self.case.mistakes()]))
                self.case.rewrite()
                self.assertEqual(right, (self.folder / name).read_text())

    def test_a_file_that_is_not_there(self):
        (self.folder / "stdin").unlink()
        (self.folder / "stdout").unlink()
        self.assertEqual([], [*self.case.mistakes()])


if __name__ == "__main__":
    unittest.main()
