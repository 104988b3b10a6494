#!/usr/bin/env python3
"""What chicheck watch answers as JSON, beside its text: an object for each granule and one for the whole, on the cases of
tests/cases/watch and tests/cases/flits, on 200 histories by chance, and on input that ends early."""

import json
import os
import re
import sys

os.chdir(f"{os.path.dirname(os.path.abspath(__file__))}/..")
sys.dont_write_bytecode = True
sys.path.append("tests/oracle")

from facts import facts_of_json, facts_of_text
from histories import told_by_chance
from lines import LOST, adds, asks, done, ends, forgets
from process import CHECKER, build, end, run, told
from run_cases import cases_of

HISTORIES = 200
# How the line begins of each thing that is required, by its member of `missing`.
REQUIRED = {
    "end": "required: the last line tells the end",
    "operations": "required: at least ",
    "quiet": "required: no request is outstanding",
    "judged": "required: each granule is judged",
}
COUNTS = ["operations that ended", "requests outstanding", "granules", "granules not judged"]


def of_text(text):
    """What a text says of each granule, and of the whole."""
    granules = re.split("^(?=not explained: |undecided: )", text, flags=re.M)
    numbers = dict(re.findall(r"^  ([a-z ]+): (\d+)$", text, re.M))
    return [facts_of_text(it) for it in granules[1:]], {
        "answer": next(it for it in ["not explained", "undecided", "explained"] if re.search(f"^{it}", text, re.M)),
        "counts": [numbers[it] for it in COUNTS],
        "waiting": re.findall(r"^    line (\d+) since (\d+): (.*) waits for its (\w+)$", text, re.M),
        "missing": {it: line in text for it, line in REQUIRED.items()},
    }


def of_json(text):
    """The same of the objects, one on each line."""
    *granules, whole = map(json.loads, text.splitlines())
    line = lambda it: f"{it['src']} {it['txn']} {it['op']:02x} {it['name']} {it['size']} {it['addr']}"  # noqa: E731
    return [facts_of_json(it) for it in granules], {
        "answer": whole["answer"],
        "counts": [whole[it] for it in ["operations", "outstanding", "granules", "not_judged"]],
        "waiting": [(str(it["request"]), it["start"], line(it), it["waits_for"]) for it in whole["waiting"]],
        "missing": whole["missing"],
    }


def says_the_same(words, text):
    """Both forms of an answer have the same status and say the same; where there is no answer both have the same fault."""
    written, found = run(CHECKER, words, text), run(CHECKER, [*words, "--format", "json"], text)
    told(f"as JSON: {words}: {found} beside {written}", (found[0], found[2]) == (written[0], written[2]))
    if written[2] or written[0] not in (0, 1, 6):
        return
    facts, wanted = of_json(found[1].decode()), of_text(written[1].decode())
    told(f"as JSON: {words}: {facts} in place of {wanted}", facts == wanted)


def cases():
    """What the cases of watch try."""
    for case in cases_of(["watch/", "flits/"]):
        for words in case.command_lines():
            if words[:2] == ["chicheck", "watch"] and not any(it.startswith(("--format", "--save", "--html")) for it in words):
                says_the_same(words[1:], case.stdin())


def histories():
    """Events by chance, in half of which one mistake is made."""
    for number, text in enumerate(told_by_chance(HISTORIES)):
        says_the_same(["watch", *["--keep-going"][number % 2 :]], text)


def at_once():
    """A granule that was found is an object before a line that is refused, and no other object follows it."""
    status, answer, errors = run(CHECKER, ["watch", "--keep-going", "--format", "json"], LOST + adds(50, 9) + "{\n")
    told(f"a fault: {status}, {answer}, {errors}", (status, answer.count(b"\n"), errors) == (3, 1, b"chicheck: line 6 is not JSON\n"))
    told(f"a fault: {answer}", json.loads(answer)["line"] == 4)


def others():
    """Requests that are outstanding, granules that are not judged, and what is required."""
    required = ["--require-end", "--require-quiet", "--require-judged", "--require-operations", "3"]
    for text in ["", done(10, 0), done(10, 0) + asks(20, 7) + adds(21, 8, src=3), forgets(5, 4096, 8) + done(10, 0) + ends(20), LOST + adds(50, 9)]:
        says_the_same(["watch", *required], text)
        says_the_same(["watch", "--keep-going", "--budget", "0"], text)


build("chicheck")
cases()
histories()
at_once()
others()
end(600)
