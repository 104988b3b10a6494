#!/usr/bin/env python3
"""The program chihome as a process: its scripts by chance, what chicheck reads of its traces, and files that cannot be read or
written. `tests/cases/chihome` has what it answers to command lines."""

import json
import os
import re
import sys
from collections import Counter

os.chdir(f"{os.path.dirname(os.path.abspath(__file__))}/..")
sys.dont_write_bytecode = True

from process import CHECKER, HOME, build, end, run, told

ADD = "examples/fetch_add.json"
REASONS = ["UnknownOpcode", "ReservedSize", "SizeOutOfProfile", "Misaligned", "OutOfRegion", "BadByteEnable"]
# How many requests and granules a script by chance has.
COUNTS = {
    "": (1000, 8),
    "--requests 4096 --seed 18446744073709551615": (4096, 8),
    "--requests 0": (0, 8),
    "--requests 64 --granules 512 --base 4503599627366400 --image": (64, 512),
    "--requests 200 --granules 1 --requesters 8 --hot 100 --mix compare=1,swap=1": (200, 1),
}
# What chicheck counts of one add of eight bytes that finds 0: it is of two bins.
ONE_ADD = [
    "operations: 1 of 1200",
    "AtomicLoad.ADD little 8: 1 0",
    "AtomicLoad.ADD 8: kept 0, changed sign 0, wrapped 0",
    "open 1: 1",
    "covered: 2 of 1410 (0%)",
    "refusals: 0 of 6",
    *(f"{it}: 0" for it in REASONS),
    *(f"missing: {it}" for it in REASONS),
]


def output(words, text="", program=HOME):
    """What a program writes, which ends with status 0 and has no errors."""
    status, out, errors = run(program, words.split(), text)
    told(f"{words}: {status}, {errors}", status == 0 and not errors)
    return out.decode()


def by_chance(words):
    """The lines of the transcript of a script by chance."""
    return output("run", output(f"generate {words}")).splitlines()


def scripts():
    """A script has as many requests as are asked for, and only such; a seed makes one script."""
    for words, counts in COUNTS.items():
        kinds = Counter(it[0] == "m" for it in by_chance(words))
        told(f"generate {words}: {kinds}", (kinds[False], kinds[True]) == counts)
    found = Counter(it.split(" refused ")[1] for it in by_chance("--refused 1") if " refused " in it)
    told(f"each refusal: {found}", found == dict(zip(REASONS, [2, 2, 2, 2, 1, 1])))
    found = [it for it in by_chance("--hot 100 --mix load=1,read=0") if not re.search(r"^m| AtomicLoad.* 000000000000100[0-7] data ", it)]
    told(f"hot and of one kind: {found}", not found)
    first, second, again = (output(f"generate --seed {it}") for it in (1, 2, 1))
    told("a seed makes one script", first == again != second)


def covered(trace, *heads):
    """How many lines the counts of a trace have, those of them that begin so, and those from the refusals on."""
    lines = output("cover", trace, CHECKER).splitlines()
    at = [it.startswith("refusals:") for it in lines].index(True)
    return len(lines), [it for it in lines[:at] if it.startswith(heads)] + lines[at:]


def traces():
    """Of 300 refused requests the six reasons take turns, and each of the 700 others is open alone. The order of the script explains them."""
    script = output("generate --requests 1000 --refused 30 --image --seed 1")
    trace, transcript = output("run --trace", script), output("run", script)
    told("a trace is a script that is executed as its own is", output("run", trace) == transcript)
    lines = transcript.splitlines(True)
    witness = "".join(["explained\n", *(it for it in lines if " refused " not in it)])
    told("a trace is explained by the order of its script", output("explain --witness", trace, CHECKER) == witness)
    found = covered(trace, "open 1:")[1]
    told(f"each refusal is counted: {found}", found == ["open 1: 700", "refusals: 6 of 6", *(f"{it}: 50" for it in REASONS)])
    place = [" refused Misaligned" in it for it in lines].index(True)
    found = run(CHECKER, ["explain"], trace.replace('"refused":"Misaligned"', '"refused":"OutOfRegion"'))
    told(f"a refusal for another reason is none: {found}", found == (3, b"", f"chicheck: request {place} is not refused so\n".encode()))


def one_add():
    """A trace of one add is counted the same with each option."""
    with open(ADD, encoding="utf-8") as file:
        script = file.read()
    for words in ["", "--store lock", "--attempts 1 --policy return"]:
        found = covered(output(f"run --trace {words}", script), "operations:", "AtomicLoad.ADD little 8:", "AtomicLoad.ADD 8:", "open 1:", "covered:")
        told(f"one add is counted {words}: {found}", found == (1746, ONE_ADD))


def outcome_of(line):
    """What became of a request, as its line in the transcript has it."""
    if "reply" in line:
        return line["reply"] if line["reply"] == "comp" else f"data {line['reply']}"
    return "retry" if "retry" in line else f"refused {line['refused']}"


def lines_of(it):
    """The lines of a transcript, by its JSON."""
    lines = [f"{op['src']} {op['txn']} {op['op']:02x} {op['name']} {op['size']} {op['addr']:016x} {outcome_of(op)}" for op in it["requests"]]
    words = re.findall("." * 16, it["final"])
    told(f"granules: {it['granules']}", len(words) == it["granules"])
    return lines + [f"m {it['base'] + 8 * place:016x} {word}" for place, word in enumerate(words)]


def as_json():
    """The transcript as JSON says what its text does, and has the script's requests. A race by one requester and 0 has one transcript."""
    for seed in range(200):
        script = output(f"generate --requests 40 --refused 20 --image --seed {seed} --requesters 2")
        asked = json.loads(script)["requests"]
        for task in ["run", "run --store lock", "race --workers 1"]:
            it = json.loads(output(f"{task} --format json", script))
            told(f"{task} as JSON: seed {seed}: {it}", lines_of(it) == output(task, script).splitlines())
            ordered = asked if task != "race --workers 1" else sorted(asked, key=lambda op: op["src"] == 0)
            found = [{name: op[name] for name in asked[0]} for op in it["requests"]]
            told(f"{task}: requests as JSON: seed {seed}: {found}", found == ordered)


def ends(words, status, fault=""):
    """Tries a command line with files of the shell: nothing comes on standard output."""
    found = run("bash", ["-c", f'"$0" {words}', HOME], "")
    told(f"{words}: {found}", found == (status, b"", fault.encode()))


def files():
    """Outputs and inputs fail, and errors that cannot be written change no status."""
    for task in ["run", "run --trace", "run --format json", "race", "race --format json", "generate", "--help"]:
        ends(f"{task} < {ADD} > /dev/full", 5, "chihome: output could not be written\n")
    for task in ["run", "race"]:
        ends(f"{task} <&-", 5, "chihome: input could not be read\n")
        ends(f"{task} < examples", 5, "chihome: input could not be read\n")
    for task, status in [("run", 3), ("race", 3), ("walk", 2)]:
        ends(f"{task} <<< {{}} 2> /dev/full", status)
        ends(f"{task} <<< {{}} 2>&-", status)


build("chihome", "chicheck")
for tried in [scripts, traces, one_add, as_json, files]:
    tried()
end(1800)
