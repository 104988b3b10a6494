#!/usr/bin/env python3
"""Runs the cases of tests/cases, side by side:

    tests/run_cases.py [NAME..]              those whose names begin so, or all
    tests/run_cases.py --rewrite NAME..      writes what the programs answer over what these expect

A case is a folder. Its file `args` has command lines of chihome or chicheck, and each of them gives what the case expects: `status`,
`stdout` and `stderr`. A file that is not there stands for status 0, and for nothing. `stdin` is the input, or `input` names a file of the
repository that is. `...` stands for the rest of a line, and alone in a line for any lines. CHIHOME and CHICHECK name other programs than those that make builds."""

import difflib
import os
import re
import shlex
import subprocess
import sys
import unittest
from concurrent.futures import ThreadPoolExecutor
from pathlib import Path
from typing import NamedTuple

ROOT = Path(__file__).resolve().parent.parent
CASES = ROOT / "tests" / "cases"
PROGRAMS = {
    "chihome": os.environ.get("CHIHOME", ROOT / "crates/chi_home/out/chi_home"),
    "chicheck": os.environ.get("CHICHECK", ROOT / "crates/chi_check/out/chi_check"),
}
# No run takes longer than this, in seconds.
LIMIT = 60


class Answer(NamedTuple):
    status: int
    stdout: bytes
    stderr: bytes


def bytes_of(path):
    """What a file has, or nothing where it is not there."""
    return path.read_bytes() if path.exists() else b""


class Case:
    """A case by its folder."""

    def __init__(self, folder):
        self.folder, self.name = folder, folder.relative_to(CASES).as_posix()

    def command_lines(self):
        return [shlex.split(it) for it in (self.folder / "args").read_text(encoding="utf-8").splitlines()]

    def stdin(self):
        named = bytes_of(self.folder / "input").decode().strip()
        return (ROOT / named).read_bytes() if named else bytes_of(self.folder / "stdin")

    def expected(self):
        return Answer(int(bytes_of(self.folder / "status") or 0), *(bytes_of(self.folder / it) for it in ("stdout", "stderr")))

    def answer(self, words):
        """What a program answers to one of the command lines."""
        ran = subprocess.run([PROGRAMS[words[0]], *words[1:]], input=self.stdin(), capture_output=True, cwd=ROOT, timeout=LIMIT)
        return Answer(ran.returncode, ran.stdout, ran.stderr)

    def mistakes(self):
        """What is not as the case expects, each a text."""
        expected = self.expected()
        for words in self.command_lines():
            found = self.answer(words)
            for name, wanted, it in zip(Answer._fields, expected, found):
                if not agrees(wanted, it):
                    yield f"{shlex.join(words)}: {name}:\n{difference(wanted, it)}"

    def rewrite(self):
        """Writes what the program answers, where all command lines have one answer."""
        answers = {self.answer(it) for it in self.command_lines()}
        if len(answers) != 1:
            sys.exit(f"run_cases: {self.name}: its command lines have different answers")
        (found,) = answers
        for name, text in [("status", f"{found.status}\n".encode() if found.status else b""), ("stdout", found.stdout), ("stderr", found.stderr)]:
            if text:
                (self.folder / name).write_bytes(text)
            else:
                (self.folder / name).unlink(missing_ok=True)


def agrees(wanted, found):
    """Whether this was found, where three points stand for any lines, or for the rest of a line."""
    if wanted == found or isinstance(wanted, int):
        return wanted == found
    return bool(re.fullmatch(b"".join(map(pattern_of, wanted.splitlines(keepends=True))), found))


def pattern_of(line):
    """The pattern of a line that is expected."""
    begin = line.removesuffix(b"...\n")
    if begin == line:
        return re.escape(line)
    return re.escape(begin) + b".*\n" if begin else b"(?:.*\n)*?"


def difference(wanted, found):
    """The lines in which they differ."""
    if isinstance(wanted, int):
        return f"{found} in place of {wanted}"
    texts = [it.decode(errors="backslashreplace").splitlines() for it in (wanted, found)]
    return "\n".join([*difflib.unified_diff(*texts, "expected", "found", lineterm="", n=1)][:40])


def cases_of(names):
    """The cases whose names begin with one of these."""
    found = [Case(it.parent) for it in sorted(CASES.glob("**/args"))]
    for name in names:
        if not any(it.name.startswith(name) for it in found):
            sys.exit(f"run_cases: no case has a name that begins with {name}")
    return [it for it in found if not names or it.name.startswith(tuple(names))]


def test_of(case, pool):
    """A test of a case, which runs already."""
    running = pool.submit(lambda: [*case.mistakes()])

    def test():
        if running.result():
            raise AssertionError("\n".join(running.result()))

    return unittest.FunctionTestCase(test, description=case.name)


def main(words):
    is_rewriting = words[:1] == ["--rewrite"]
    cases = cases_of([it.removeprefix("tests/cases/") for it in words[is_rewriting:]])
    if is_rewriting:
        if not words[1:]:
            sys.exit("run_cases: --rewrite wants the names of cases")
        for it in cases:
            it.rewrite()
        return 0
    subprocess.run([".ci/built", *(it for it in PROGRAMS if it.upper() not in os.environ)], cwd=ROOT, check=True)
    with ThreadPoolExecutor(len(os.sched_getaffinity(0))) as pool:
        ran = unittest.TextTestRunner(verbosity=0).run(unittest.TestSuite([test_of(it, pool) for it in cases]))
    print(f"run_cases: {len(cases)} cases, {len(ran.failures) + len(ran.errors)} fail")
    return 0 if ran.wasSuccessful() else 1


if __name__ == "__main__":
    sys.exit(main(sys.argv[1:]))
