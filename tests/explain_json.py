#!/usr/bin/env python3
"""What chicheck explain answers as JSON, beside its text: each says what the other does."""

import json
import os
import sys

os.chdir(f"{os.path.dirname(os.path.abspath(__file__))}/..")
sys.dont_write_bytecode = True
sys.path.append("tests/oracle")

from facts import facts_of_json, facts_of_text
from histories import told_by_chance
from process import CHECKER, build, end, run, told, trace
from run_cases import cases_of
from samples import adds_at_once, request


def as_json():
    """The answer as JSON says what its text does."""
    two = [request(src, 48, 4096, 255, f"01{0:030x}", 30, 40, f"{0:032x}") for src in (1, 2)]
    still_open = {**request(3, 4, 4096, 0, f"{0:032x}", 35, 0, None), "end": 2**64 - 1}
    for words, text in [
        *((words, it.stdin()) for it in cases_of(["explain/examples/"]) for words in ["", "--witness", "--around 1", "--budget 3"]),
        *((" ".join(words[2:]), it.stdin()) for it in cases_of(["explain/answers/"]) for words in it.command_lines()),
        ("", trace([*two, still_open])),
        ("", trace(adds_at_once(200, 150))),
        *(("--events", text) for text in told_by_chance(200)),
    ]:
        words = ["explain", *words.split()]
        written, found = run(CHECKER, words, text), run(CHECKER, [*words, "--format", "json"], text)
        told(f"as JSON: {words}: {found}", found[0] == written[0] and found[1].count(b"\n") == 1 and found[1].endswith(b"\n") and not found[2])
        facts, wanted = facts_of_json(json.loads(found[1])), facts_of_text(written[1].decode())
        told(f"as JSON: {words}: {facts} in place of {wanted}", facts == wanted)


build("chicheck")
as_json()
end(100)
