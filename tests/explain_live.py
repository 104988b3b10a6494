#!/usr/bin/env python3
"""The line of chicheck explain on a terminal, as a process, and what explain and cover do where memory, reads or writes fail
(tests/faults.c)."""

import os
import re
import subprocess
import sys
import tempfile

os.chdir(f"{os.path.dirname(os.path.abspath(__file__))}/..")
sys.dont_write_bytecode = True

from process import CHECKER, build, end, fail_in_turn, faults_library, on_terminal, refuse_in_turn, run, told, trace
from samples import UNDECIDED, example, request, sums


def terminal():
    """How far a search is shows on a terminal once a second has gone by, and nowhere else."""
    whole = trace(sums(14))
    elsewhere = run(CHECKER, ["explain"], whole)
    told(f"a long search: {elsewhere}", elsewhere[0] == 1 and not elsewhere[2])
    status, out, shown = on_terminal(["explain"], whole, 1.2)
    lines = rb"(\rchicheck: \d+ states\x1b\[K)+\r\x1b\[K"
    told(f"on a terminal: {out} {shown}", (status, out) == elsewhere[:2] and re.fullmatch(lines, shown))


def lines_on_terminal(preload):
    """The lines by a clock that goes on by so many milliseconds each time that it is read: when the program begins, each 4,096
    states, at the verdict, and each 64 states after it. So the last look, which comes after the verdict, is four steps later than
    the one before it. A search of 2^17 states and more ends by its budget, so the number of states is known. Then the answer
    tries 4 of the 17 ends, and up to each an order of all 18 is found at the first try, whatever the words at the end. The
    swap, which may come anywhere, keeps the adds from being taken in one order alone."""
    swap = {it: value for it, value in request(17, 56, 4096, 255, "0" * 32, 0, 0, None).items() if it != "end"}
    whole = trace([*sums(17)[:-1], swap], final="ff" * 8)
    # the states of all searches, and the looks at the clock at which the line is written
    for case, states, step, looks in [
        ("a state before the line", 3 * 4096 - 1, 400, []),
        ("the line", 3 * 4096, 400, [3]),
        ("a state before the second", 4 * 4096 - 1, 400, [3]),
        ("the second", 4 * 4096, 400, [3, 4]),
        ("a second at each look", 10 * 4096, 1000, range(1, 11)),
        ("less than a second at the first look", 10 * 4096, 999, range(2, 11)),
        ("a tenth at each look", 12 * 4096, 100, [10, 11, 12]),
        ("less than a tenth at each look", 16 * 4096, 99, [11, 13, 15, 16]),
        ("half a tenth at each look", 25 * 4096, 50, [20, 22, 24, 25]),
        ("a second at the last look alone", 10 * 4096, 77, [10]),
        ("less than a second in all", 10 * 4096, 76, []),
    ]:
        budget = states - 4 * 18
        words, faults = ["explain", "--budget", str(budget)], {"LD_PRELOAD": preload, "FAULT_CLOCK": str(step)}
        elsewhere = run(CHECKER, words, whole, **faults)
        found = on_terminal(words, whole, **faults)
        wanted = "".join(f"\rchicheck: {4096 * it} states\x1b[K" for it in looks) + "\r\x1b[K" * (len(looks) > 0)
        told(f"line_after_a_second: {case}: {found}", found == (*elsewhere[:2], wanted.encode()))
        told(f"no_line_where_no_terminal_is: {case}: {elsewhere}", not elsewhere[2])
        wanted = UNDECIDED.format(budget, "  explained up to 9\n", 18).encode()
        told(f"states of {case}: {elsewhere}", elsewhere[:2] == (6, wanted))


def failing(preload):
    """Each block of memory, each read and each write fails in turn."""
    told_by = "examples/events/two_adds.jsonl"
    for case, words, text, *files in [
        ("trace_or_no_memory", "explain --witness", example("two_adds")),
        ("trace_or_no_memory", "explain", b"[7]"),
        ("object_or_no_memory", "explain --format json", example("final_word")),
        ("table_or_no_memory", "cover", example("two_adds")),
        ("counts_or_no_memory", "cover --format json", example("two_adds")),
        ("table_or_no_memory", f"cover --events {told_by}", b"", told_by),
    ]:
        refuse_in_turn(case, preload, words.split(), text, *files)
    fail_in_turn(preload, ["explain", "--witness"], example("two_adds"))


subprocess.run([".ci/need", "cc:gcc"], check=True)
build("chicheck")
terminal()
with tempfile.TemporaryDirectory() as folder:
    preload = faults_library(folder)
    lines_on_terminal(preload)
    failing(preload)
end(1900)
