#!/usr/bin/env python3
"""The lines that chicheck watch refuses, as a process: each member of each event left out, of the wrong kind and past its bounds, traces,
scripts and flits in place of events, and more lines after one that is refused."""

import gzip
import json
import os
import sys
from pathlib import Path

os.chdir(f"{os.path.dirname(os.path.abspath(__file__))}/..")
sys.dont_write_bytecode = True

from lines import asks, done, ends, example, reads
from process import CHECKER, build, end, is_not, run, told, wants
from run_cases import cases_of


def faulty(case, text, at, fault):
    """The line is refused with this fault, with --keep-going and by explain too."""
    for words in [["watch"], ["watch", "--keep-going"], ["explain", "--events"]]:
        wants(f"{case} by {words}", words, text, 3, errors=f"chicheck: line {at} {fault}\n")


def examples():
    names = {it.removesuffix(".jsonl") for it in os.listdir("examples/events")}
    told(f"examples of which no answer is known: {names}", names <= {it.folder.name for it in cases_of(["watch/examples/"])})

EVENTS = {
    "request": {"id": "3", "src": "1", "txn": "2", "op": "48", "size": "3", "addr": "4104", "endian": "0", "be": "65280",
                "lanes": '"00000000000000000100000000000000"'},
    "data": {"id": "0", "be": "65280", "lanes": '"00000000000000000100000000000000"'},
    "reply": {"id": "0", "reply": '"00000000000000000000000000000000"'},
    "dropped": {"id": "0"},
    "refused": {"id": "0", "reason": '"OutOfRegion"'},
    "word": {"addr": "4096", "bytes": '"0000000000000000"', "final": "true"},
    "unknown": {"addr": "4096", "length": "1"},
    "end": {},
}  # fmt: skip

PAST = {
    "event": ['"Request"', '"final"', '""'],
    "time": ["18446744073709551616"],
    "id": ["18446744073709551616"],
    "src": ["65536"],
    "txn": ["65536"],
    "op": ["256"],
    "size": ["8"],
    "addr": ["18446744073709551616"],
    "endian": ["2"],
    "be": ["65536"],
    "lanes": ['""', '"0000000000000000010000000000000"', '"000000000000000001000000000000000"', '"0000000000000000010000000000000g"'],
    "reply": ['""', '"Comp"', '"0000000000000000010000000000000"', '"000000000000000001000000000000000"'],
    "reason": ['""', '"misaligned"', '"OutOfRegion "'],
    "bytes": ['""', '"000000000000000"', '"00000000000000000"', '"000000000000000g"'],
    "final": ['"true"', "1"],
    "length": ["0", "4097"],
}


def written(event, changed={}):
    """A line of an event as text, some members of it with another value, or left out where that is empty."""
    values = {"event": f'"{event}"', "time": "10", **EVENTS[event], **changed}
    return "{" + ",".join(f'"{name}":{value}' for name, value in values.items() if value) + "}\n"


def fits(event):
    return asks(9, 0) if event in ("data", "reply", "dropped", "refused") else reads(9, 0, 0x2000)


def members_of_lines():
    """Each member of each event left out, of the wrong kind, and past its bounds."""
    for event, members in EVENTS.items():
        status, _, errors = run(CHECKER, ["watch"], fits(event) + written(event))
        told(f"{event} as it is: {errors}", status == 0)
        for name in ["event", "time", *members]:
            if name not in ("final", "reason"):
                faulty(f"{event} without {name}", fits(event) + written(event, {name: ""}), 2, f"member {name} is missing")
            wrong = ["null", "true", "[]", "{}", "-1", "0.5", "1e1", '"3"', *PAST[name]]
            for value in wrong:
                if (name, value) not in [("reply", "null"), ("final", "true")]:
                    faulty(f"{event} {name} {value}", fits(event) + written(event, {name: value}), 2, is_not(name, json.loads(value)))
        for name in ["more", "Id", "x", "start", "final" if event != "word" else "id"]:
            faulty(f"{event} with {name}", fits(event) + written(event, {name: "0"}), 2, f"has an unknown member {name}")
        explained_or_not = run(CHECKER, ["watch"], fits(event) + written(event, {"x-more": "0"}))
        told(f"{event} with x-more", explained_or_not[0] == 0)
    for name, value in [("addr", "4097"), ("addr", "4503599627370496")]:
        faulty(f"word {name} {value}", written("word", {name: value}), 1, is_not(name, int(value)))
    for addr, length in [("4503599627370496", "1"), ("4503599627370495", "2"), ("18446744073709551615", "1")]:
        faulty(f"unknown {addr} {length}", written("unknown", {"addr": addr, "length": length}), 1, is_not("length", int(length)))

OF_TRACE, OF_FLITS = "is of a trace, which chicheck explain reads", "is of flits, which the option --flits reads"

NOT_WHOLE = "is not one whole JSON object, as an event is; chicheck explain reads a trace"


def traces_in_place_of_events():
    """A trace or a script on one line is told by it, and one on several lines by its first."""
    paths = [f"examples/traces/{it}" for it in sorted(os.listdir("examples/traces"))]
    for path in [*paths, "examples/fetch_add.json"]:
        with open(path, encoding="utf-8") as file:
            text = file.read()
        one_line, lines = f"{json.dumps(json.loads(text))}\n", json.dumps(json.loads(text), indent=1)
        for words in ["watch", "watch --keep-going", "explain --events", "cover --events"]:
            for whole, fault in [(one_line, OF_TRACE), (lines, NOT_WHOLE), (text, NOT_WHOLE if path in paths else OF_TRACE)]:
                wants(f"{path} to {words}", words.split(), whole, 3, errors=f"chicheck: line 1 {fault}\n")
    packed = gzip.compress(example("two_adds").encode())
    for words in ["watch", "explain --events", "cover --events"]:
        wants(f"gzip to {words}", words.split(), packed, 3, errors="chicheck: line 1 is compressed by gzip, and gunzip -c gives its text\n")
    wants("gzip after events", ["watch"], ends(1).encode() + packed, 3, errors="chicheck: line 2 is not JSON\n")
    faulty("a trace after events", done(10, 0) + '{"requests": []}\n', 3, OF_TRACE)
    faulty("a trace on several lines after events", done(10, 0) + '{\n"requests": []}\n', 3, "is not JSON")
    faulty("a flit after a word", "".join(Path("examples/flits/stale_read.jsonl").read_text().splitlines(True)[:2]), 2, OF_FLITS)
    faulty("an event with requests", '{"requests": [], "event": "none"}\n', 1, is_not("event", "none"))
    faulty("a trace without requests", '{"base": 4096, "granules": 1}\n', 1, "member event is missing")


def more_lines():
    """A line is refused whatever follows it."""
    for case in cases_of(["watch/events_that_cannot_come/"]):
        for words in case.command_lines():
            found = run(CHECKER, words[1:], case.stdin() + b"{\n")
            told(f"{case.name}, and more lines, by {words}: {found}", found == case.expected())


build("chicheck")
for tried in [examples, members_of_lines, traces_in_place_of_events, more_lines]:
    tried()
end(900)
