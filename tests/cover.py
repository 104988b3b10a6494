#!/usr/bin/env python3
"""What chicheck cover counts, as a process: the table of a trace, of several files and of events, as text and as JSON, by plans, and its
page."""

import json
import os
import random
import sys
import tempfile
from collections import Counter

os.chdir(f"{os.path.dirname(os.path.abspath(__file__))}/..")
sys.dont_write_bytecode = True
sys.path += ["page", "tests/oracle"]

import cover_sample
from coverage import counted_as_json, text_of
from histories import told_by_chance
from meeting import meeting, met
from process import CHECKER, HOME, build, data_of, end, run, told, trace, wants
from samples import REASONS, adds, example, refused_request

# Of two_adds, whose adds overlap at the upper granule and which has a read after them: lines of the table, in their order.
COVERED = [
    "operations: 2 of 1200",
    "ReadNoSnp little 8: 0 1",
    "AtomicLoad.ADD little 8: 0 2",
    "compares: 0 of 16",
    "writes: 0 of 11",
    "results: 0 of 68",
    "open at once: 2 of 5",
    "open 1: 2",
    "open 2: 1",
    "overlaps: 1 of 36",
    "AtomicLoad while AtomicLoad was open: 1",
    "requesters: 1 of 2",
    "of another requester: 1",
    "sequences: 1 of 36",
    "ReadNoSnp after AtomicLoad: 1",
    "line sequences: 0 of 36",
    "covered: 7 of 1410 (0%)",
    "missing: ReadNoSnp, little-endian, 1 byte, lane 0",
]

# The same by the names of the bins.
COVERED_BINS = {
    "ReadNoSnp, little-endian, 8 bytes, lane 8": 1,
    "AtomicLoad.ADD, little-endian, 8 bytes, lane 8": 2,
    "open 1": 2,
    "open 2": 1,
    "AtomicLoad while AtomicLoad was open": 1,
    "an overlap with an earlier operation of another requester": 1,
    "ReadNoSnp after AtomicLoad": 1,
}

OVERLAP = "AtomicLoad while AtomicLoad was open"

# The groups of operations that overlap or follow one another.
MET = ["overlaps", "sequences", "line sequences"]

TRACES = [it.removesuffix(".json") for it in os.listdir("examples/traces")]


def counts():
    """The table of what a trace covered, and whether that is as much as is required. Whether the trace is explained does not count."""
    whole = example("two_adds")
    status, table, errors = run(CHECKER, ["cover"], whole)
    lines = table.decode().splitlines()
    told(f"table: {status} {errors}", (status, errors) == (0, b"") and lines[0] == COVERED[0])
    told(f"table: its lines {lines}", [it for it in lines if it in COVERED] == COVERED)
    told("table: those that are missing", sum(it.startswith("missing: ") for it in lines[:-13]) == 1410 - 7)
    told("table: no refusals", lines[-13:] == refusals_of([]))
    for percent, status in [("0", 0), ("1", 1), ("100", 1), (str(2**64 - 1), 1)]:
        wants(f"table: {percent} of a hundred", ["cover", "--require", percent], whole, status, table.decode())
    for percent, goal, status in [("1", "0", 0), ("100", "0", 0), ("0", "3", 0), ("1", "3", 1)]:
        _, table, _ = run(CHECKER, ["cover", "--goal", goal], whole)
        words = ["cover", "--goal", goal, "--require", percent]
        wants(f"table: {percent} of a hundred at a goal of {goal}", words, whole, status, table.decode())
    requests = [refused_request("OutOfRegion"), *adds(2), *map(refused_request, REASONS)]
    status, table, errors = run(CHECKER, ["cover"], trace(requests, 2))
    lines = table.decode().splitlines()
    told(f"table: refusals {status} {errors}", (status, errors) == (0, b"") and lines[-7:] == refusals_of(["OutOfRegion", *REASONS]))
    told("table: refusals are no operations", lines[0] == "operations: 1 of 1200" and "AtomicLoad.ADD little 8: 0 2" in lines)
    status, table, errors = run(CHECKER, ["cover"], example("lost_update"))
    told(f"table: not explained {status} {errors}", (status, errors) == (0, b"") and table.startswith(b"operations: 2 of 1200\n"))
    for words in ["cover", "cover --require 1"]:
        wants(f"{words}: no trace", words.split(), "[]", 3, errors="chicheck: trace is not an object\n")


def goals():
    """At a goal a bin is covered if it counted so many operations or more."""
    whole = example("two_adds")
    wanted = ["operations: 1 of 1200", "AtomicLoad.ADD little 8: 0 2", "open at once: 1 of 5", "open 2: 1", "overlaps: 0 of 36"]
    wanted += ["covered: 2 of 1410 (0%), each at least 2", "missing: ReadNoSnp, little-endian, 8 bytes, lane 8: 1 of 2", "missing: open 2: 1 of 2"]
    table = counted("a goal of 2", ["--goal", "2"], whole, wanted).decode().splitlines()
    told("a goal of 2: those that are missing", sum(it.startswith("missing: ") for it in table[:-13]) == 1410 - 2)
    told("a goal of 2: those with a count", sum(it.endswith(": 1 of 2") for it in table) == sum(it == 1 for it in COVERED_BINS.values()))
    told("a goal of 1", run(CHECKER, ["cover", "--goal", "1"], whole) == run(CHECKER, ["cover"], whole))
    table = counted("a goal of 0", ["--goal", "0"], whole, ["covered: 1410 of 1410 (100%), each at least 0"]).decode().splitlines()
    told("a goal of 0: none is missing", not any(it.startswith("missing: ") for it in table[:-13]))
    most = str(2**64 - 1)
    counted("the greatest goal", ["--goal", most], whole, [f"covered: 0 of 1410 (0%), each at least {most}", f"missing: open 1: 2 of {most}"])
    found = json.loads(run(CHECKER, ["cover", "--goal", "2", "--format", "json"], whole)[1])
    told(f"a goal of 2 as JSON: {found}", [found[it] for it in ("covered", "percent", "goal")] == ["2", "0", "2"])


def counts_as_json():
    """What is counted as JSON says what its text does. Of two traces it is worked by hand, all of it."""
    two, lost = "examples/traces/two_adds.json", "examples/traces/lost_update.json"
    refusing = trace([refused_request("OutOfRegion"), *adds(2), *map(refused_request, REASONS)], 2)
    for words, text in [
        *((words, example(name)) for name in sorted(TRACES) for words in ["", "--require 0", "--require 100", "--goal 2", "--goal 0 --require 100"]),
        (f"{two} {lost} {two}", b""),
        ("--events examples/events/two_adds.jsonl", b""),
        ("--flits examples/flits/stale_read.jsonl", b""),
        ("", refusing),
        *(("--events", text) for text in told_by_chance(200)),
        ("", run(HOME, ["run", "--trace"], run(HOME, ["generate", "--refused", "30"], b"")[1])[1]),
    ]:
        counted_as_json(f"counts: {words}", ["cover", *words.split()], text)
    added = {"AtomicLoad.ADD, little-endian, 8 bytes, lane 8": 2, "open 1": 2, "AtomicLoad after AtomicLoad": 1}
    for case, text, bins, reasons in [
        ("two adds and a read", example("two_adds"), COVERED_BINS, []),
        ("two adds and refusals", refusing, added, ["OutOfRegion", *REASONS]),
    ]:
        wanted = cover_sample.written(cover_sample.coverage(lambda name, bins=bins: bins.get(name, 0), reasons))
        wants(f"counts as JSON: {case}", ["cover", "--format=json"], text, 0, f"{wanted}\n")
    text = run(CHECKER, ["cover", "--format", "text"], refusing)
    told("counts as text where that is asked for", text == run(CHECKER, ["cover"], refusing))
    wants("counts as JSON: no trace", ["cover", "--format", "json"], "[]", 3, errors="chicheck: trace is not an object\n")
    found = run(CHECKER, ["cover", "--format", "xml"], refusing)
    told(f"another form of counts: {found}", found[:2] == (2, b"") and b"the option '--format' takes 'text' or 'json'" in found[2])


def met_as_defined():
    """Of operations by chance the bins of overlaps and of sequences count those that these definitions say, and no others."""
    for number in range(60):
        text = trace([*meeting(random.Random(f"met/{number}"))], 16)
        status, found, errors = run(CHECKER, ["cover", "--format", "json"], text)
        told(f"met: {number}: {status} {errors}", (status, errors) == (0, b""))
        bins = [it for group in json.loads(found)["groups"] if group["name"] in MET for it in group["bins"]]
        told(f"met: {number}: {bins}", {name: int(count) for name, count in bins if count != "0"} == met(json.loads(text)))


def counts_alone(file):
    """How many operations of a file alone each bin counts."""
    groups = json.loads(run(CHECKER, ["cover", "--format", "json", file], b"")[1])["groups"]
    return {(group["name"], name): int(count) for group in groups for name, count in group["bins"]}


def added():
    """What each file added: how many bins are covered with it that were not before it, in the order of the files."""
    two, lost, swaps = files = [f"examples/traces/{it}.json" for it in ("two_adds", "lost_update", "overlapping_swaps")]
    alone = {file: counts_alone(file) for file in files}
    for goal in (0, 1, 2, 3):
        for files in [two], [two, two], [two, lost, swaps], [swaps, two, lost], [lost, lost, two]:
            covered = [sum(sum(alone[file][it] for file in files[:place]) >= goal for it in alone[two]) for place in range(len(files) + 1)]
            wanted = [with_it - before for before, with_it in zip(covered, covered[1:])]
            words = ["cover", "--goal", str(goal), *files]
            found = json.loads(run(CHECKER, [*words, "--format", "json"], b"")[1])["added"]
            told(f"added: {words}: {found} and not {wanted}", found == [*map(str, wanted)])
            lines = run(CHECKER, words, b"")[1].decode().splitlines()
            last = [f"added by {file}: {number}" for file, number in zip(files, wanted)] if len(files) > 1 else []
            told(f"added: {words}: {lines[-3:]}", [it for it in lines if it.startswith("added")] == last == lines[len(lines) - len(last) :])
    twice = run(CHECKER, ["cover", two, two], b"")[1]
    told(f"added: by a file twice: {twice[-100:]}", twice.endswith(f"added by {two}: 7\nadded by {two}: 0\n".encode()))


def worked_out(words, files, text, goal, rules):
    """What the rules of a plan make of the counts of runs without it: of each file in turn, with those before it, or of a text."""
    covered = [int(cover_sample.coverage(lambda name: 0, (), goal, rules)["covered"])]
    for place in range(1, max(len(files), 1) + 1):
        alone = json.loads(run(CHECKER, ["cover", "--format", "json", *words, *files[:place]], text)[1])
        bins = {name: int(count) for group in alone["groups"] for name, count in group["bins"]}
        refused = [name for name, count in alone["refused"] for _ in range(int(count))]
        wanted = cover_sample.coverage(bins.get, refused, goal, rules)
        covered.append(int(wanted["covered"]))
    return {**wanted, "added": [str(with_it - before) for before, with_it in zip(covered, covered[1:])]}


def planned(case, path, rules, words=(), files=(), text=b"", goal=1):
    """By a plan of these rules the text, the JSON, the page and the status are as worked out, however the file writes its texts."""
    wanted = worked_out(words, files, text, goal, rules)
    table, percent, page = text_of(wanted, files), int(wanted["percent"]), f"{path}.html"
    case, words = f"plan: {case}: {words} {files}", ["cover", "--plan", path, "--goal", str(goal), *words, *files]
    with open(path, "w", encoding="utf-8") as file:
        json.dump(rules, file, ensure_ascii=False)
    wants(case, words, text, 0, table)
    wants(f"{case} as JSON", [*words, "--format", "json"], text, 0, f"{cover_sample.written(wanted)}\n")
    wants(f"{case} with a page", [*words, "--html", page], text, 0, table)
    with open(page, encoding="utf-8") as file:
        told(f"{case}: other data of the page", data_of(file.read(), "coverage") == wanted)
    with open(path, "w", encoding="ascii") as file:
        json.dump(rules, file, indent=2)
    for least, status in [(percent, 0), (percent + 1, 1)]:
        wants(f"{case}: {least} of a hundred", [*words, "--require", str(least)], text, status, table)


def plans():
    """Rules exclude bins or give them a goal of their own; the last one that fits a bin decides. What a plan makes of some inputs is
    worked out from their counts, and some lines of two_adds by hand."""
    one = '{"bins":"open 2","why":"no"}'
    faults = [
        ("", "plan is not JSON"),
        (f"[{one}", "plan is not JSON"),
        (b'[{"bins":"open 2","why":"\xff"}]', "plan is not JSON"),
        (one, "plan is not an array"),
        ("null", "plan is not an array"),
        ("[1]", "rule 1 is not an object"),
        (f"[{one},[]]", "rule 2 is not an object"),
        ("[{}]", "rule 1 member bins is missing"),
        (f'[{one},{{"goal":1}}]', "rule 2 member bins is missing"),
        ('[{"bins":5,"why":"no"}]', "rule 1 member bins is 5, and not a text"),
        (f'[{one},{{"bins":"*"}}]', "rule 2 member why is missing"),
        ('[{"bins":"*","why":null}]', "rule 1 member why is null, and not a text that says something"),
        ('[{"bins":"*","goal":1,"why":[]}]', "rule 1 member why is a list, and not a text that says something"),
        ('[{"bins":"*","why":""}]', 'rule 1 member why is "", and not a text that says something'),
        ('[{"bins":"*","goal":-1}]', "rule 1 member goal is -1, and not a whole number below 2^64"),
        (f'[{one},{{"bins":"*","goal":"3"}}]', 'rule 2 member goal is "3", and not a whole number below 2^64'),
        ('[{"bins":"*","goal":1.5}]', "rule 1 member goal is a number, and not a whole number below 2^64"),
        (f'[{{"bins":"*","goal":{2**64}}}]', "rule 1 member goal is a number, and not a whole number below 2^64"),
        ('[{"bins":"*","goal":1,"foo":1}]', "rule 1 has an unknown member foo"),
        (f'[{one},{{"bins":"*","why":"no","Goal":1}}]', "rule 2 has an unknown member Goal"),
        ('[{"bins":"","why":"no"}]', "rule 1 has a pattern that no bin fits"),
        ('[{"bins":"open","why":"no"}]', "rule 1 has a pattern that no bin fits"),
        (f'[{one},{{"bins":"open ?","goal":1}},{one}]', "rule 2 has a pattern that no bin fits"),
        ('[{"bins":"open [12]","goal":1}]', "rule 1 has a pattern that no bin fits"),
        ('[{"bins":"OPEN *","goal":1}]', "rule 1 has a pattern that no bin fits"),
        ('[{"bins":"AtomicLoad?*","goal":1}]', "rule 1 has a pattern that no bin fits"),
    ]
    met = [f"excluded but met: {name}: {count}" for name, count in COVERED_BINS.items()]
    signs, most = 'a <b> & "c" \\ d</script>|größer als 1 € \U0001f642', 2**64 - 1
    tried = [
        ("no rule", [], COVERED),
        (
            "big-endian reads excluded",
            [{"bins": "ReadNoSnp, big-endian, *", "why": "flits have no byte order of reads"}],
            ["operations: 2 of 1170", "covered: 7 of 1380 (0%)", "excluded by ReadNoSnp, big-endian, *: 30 (flits have no byte order of reads)"],
        ),
        (
            "a goal of 3 of overlaps",
            [{"bins": "* while *", "goal": 3}],
            ["overlaps: 0 of 36", "covered: 6 of 1410 (0%)", "at least 3 by * while *: 36", f"missing: {OVERLAP}: 1 of 3"],
        ),
        (
            "all but reads excluded",
            [{"bins": "*", "why": "reads alone"}, {"bins": "ReadNoSnp, *", "goal": 1, "why": "these"}],
            ["compares: 0 of 0", "covered: 1 of 60 (1%)", "excluded by *: 1410 (reads alone)", "at least 1 by ReadNoSnp, *: 60 (these)", *met[1:]],
        ),
        (
            "a part excluded again",
            [{"bins": "*", "goal": 2}, {"bins": "open *", "why": "no"}, {"bins": "open 1", "goal": 3}],
            ["open at once: 0 of 1", "covered: 1 of 1406 (0%)", "missing: open 1: 2 of 3", "excluded but met: open 2: 1"],
        ),
        (
            "all excluded",
            [{"bins": "*", "why": "none"}],
            ["operations: 0 of 0", "line sequences: 0 of 0", "covered: 0 of 0 (100%)", "excluded by *: 1410 (none)", *met],
        ),
        (
            "an excluded bin that is met",
            [{"bins": "open 2", "why": "one at a time"}],
            ["open at once: 1 of 4", "covered: 6 of 1409 (0%)", "excluded by open 2: 1 (one at a time)", "excluded but met: open 2: 1"],
        ),
        ("the greatest goal", [{"bins": "open 1", "goal": most}], [f"at least {most} by open 1: 1", f"missing: open 1: 2 of {most}"]),
        ("a goal of 0", [{"bins": "**", "goal": 0}], ["covered: 1410 of 1410 (100%)", "at least 0 by **: 1410"]),
        (
            "stars within patterns",
            [{"bins": "*.*, *-endian, 8 bytes, lane *", "goal": 2}, {"bins": "*Atomic*Atomic*", "why": "no"}, {"bins": "A*p while *", "goal": 1}],
            ["at least 2 by *.*, *-endian, 8 bytes, lane *: 64", "excluded by *Atomic*Atomic*: 48 (no)", "at least 1 by A*p while *: 6"],
        ),
        (
            "a reason of many signs",
            [{"bins": "open *", "why": signs.replace("|", "\n")}, {"bins": "open 1", "goal": 1, "why": signs.replace("|", "\t")}],
            [f"excluded by open *: 5 ({signs.replace('|', ' ')})", f"at least 1 by open 1: 1 ({signs.replace('|', ' ')})"],
        ),
        ("other members", [{"x-of": {"bins": [1]}, "why": "no", "bins": "open 2", "x-": None}], ["excluded by open 2: 1 (no)"]),
    ]
    whole = example("two_adds")
    mixed = run(HOME, ["run", "--trace"], run(HOME, ["generate", "--refused", "30"], b"")[1])[1]
    files = [f"examples/traces/{it}.json" for it in ("two_adds", "lost_update", "overlapping_swaps")]
    with tempfile.TemporaryDirectory() as folder:
        path, page = f"{folder}/plan.json", f"{folder}/cover.html"
        for case, rules, lines in tried:
            planned(case, path, rules, text=whole)
            planned(case, path, rules, text=mixed)
            planned(case, path, rules, files=files)
            planned(case, path, rules, files=files, goal=3)
            planned(case, path, rules, ["--events"], ["examples/events/two_adds.jsonl"])
            counted(f"plan: {case}", ["--plan", path], whole, lines)
            counted_as_json(f"plan: {case}", ["cover", "--plan", path, *files], b"")
        with open(path, "w", encoding="ascii") as file:
            file.write("[]")
        told("plan: no rule: another text", run(CHECKER, ["cover", "--plan", path], whole) == run(CHECKER, ["cover"], whole))
        for text, fault in faults:
            with open(path, "wb") as file:
                file.write(text if isinstance(text, bytes) else text.encode())
            wants(f"plan: {text}", ["cover", "--plan", path, "--html", page], whole, 3, errors=f"chicheck: {path}: {fault}\n")
        path = f"{folder}/none.json"
        wants("plan: no file", ["cover", "--plan", path, "--html", page], whole, 5, errors=f"chicheck: {path}: input could not be read\n")
        told("plan: a page in spite of a fault", not os.path.exists(page))


def refusals_of(reasons):
    """The lines of the table of requests that were refused for these reasons."""
    lines = [f"refusals: {len(set(reasons))} of 6", *(f"{it}: {reasons.count(it)}" for it in REASONS)]
    return [*lines, *(f"missing: {it}" for it in REASONS if it not in reasons)]


def counted(what, words, text, wanted):
    """The counts that are wanted stand in the table."""
    status, table, errors = run(CHECKER, ["cover", *words], text)
    lines = table.decode().splitlines()
    told(f"{what}: {status} {errors} {lines[:8]}", (status, errors) == (0, b"") and all(it in lines for it in wanted))
    return table


def inputs(folder):
    """Files are added up, and the standard input is not read then; events are those operations that they tell."""
    two, lost = "examples/traces/two_adds.json", "examples/traces/lost_update.json"
    alone = counted("a file", [two], b"no trace", COVERED)
    told("a file: another table than its trace", alone == run(CHECKER, ["cover"], example("two_adds"))[1])
    twice = ["ReadNoSnp little 8: 0 2", "AtomicLoad.ADD little 8: 0 4", "open 1: 4", "AtomicLoad while AtomicLoad was open: 2", COVERED[-2]]
    counted("a file twice", [two, two], b"", twice)
    both = ["ReadNoSnp little 8: 0 2", "AtomicLoad.ADD little 8: 0 4", "open 1: 5", "open 2: 1", "AtomicLoad while AtomicLoad was open: 1"]
    counted("two files", [lost, two], b"", both)
    counted("the same in the other order", [two, lost], b"", both)
    refused = []
    for reasons in [["Misaligned", "Misaligned", "BadByteEnable"], ["BadByteEnable"], []]:
        refused.append(f"{folder}/refused{len(refused)}.json")
        with open(refused[-1], "w", encoding="ascii") as file:
            file.write(trace([*map(refused_request, reasons), *adds(1)], 2))
    table = counted("refusals of files", refused, b"", ["AtomicLoad.ADD little 8: 0 3"])
    of_files = refusals_of(["Misaligned", "Misaligned", "BadByteEnable", "BadByteEnable"])
    told("refusals of files: added up", table.decode().splitlines()[-14:-3] == of_files)
    for words, text in [(["--events"], None), (["--events", "examples/events/two_adds.jsonl"], b"")]:
        with open("examples/events/two_adds.jsonl", "rb") as file:
            table = counted(f"events: {words}", words, file.read() if text is None else text, COVERED)
        told(f"events: {words}: another table than the trace", table == alone)
    for words, text, status, fault in [
        (["--events"], b"[]\n", 3, "line 1 is not an object"),
        ([two, f"{folder}/none.json"], b"", 5, f"{folder}/none.json: input could not be read"),
        ([two, "README.md"], b"", 3, "README.md: trace is not JSON"),
        (["--events", "README.md"], b"", 3, "README.md: line 1 is not JSON"),
    ]:
        wants(f"inputs: {words}", ["cover", *words], text, status, errors=f"chicheck: {fault}\n")
    path = f"{folder}/cover.html"
    told("a page of counts: another table", run(CHECKER, ["cover", "--html", path], example("two_adds")) == (0, alone, b""))
    with open(path, encoding="ascii") as file:
        data = data_of(file.read(), "coverage")
    told(f"a page of counts: its data {data}", data == cover_sample.coverage(lambda name: COVERED_BINS.get(name, 0)))
    words = ["cover", "--format", "json", lost]
    whole = run(CHECKER, words, b"")
    told("a page beside JSON: another object", run(CHECKER, [*words, "--html", path], b"") == whole)
    with open(path, encoding="ascii") as file:
        told("a page beside JSON: other data", data_of(file.read(), "coverage") == json.loads(whole[1]))
    found = run(CHECKER, ["cover", "--html", f"{folder}/none/cover.html"], example("two_adds"))
    told(f"a page of counts that cannot be written: {found}", found == (5, b"", b"chicheck: page could not be written\n"))


build("chihome", "chicheck")
counts()
goals()
counts_as_json()
met_as_defined()
added()
plans()
with tempfile.TemporaryDirectory() as folder:
    inputs(folder)
end(1300)
