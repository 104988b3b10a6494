#!/usr/bin/env python3
"""What the Python module chi reads: transcripts and answers that the pages show, events of examples/, texts that are none of them;
and the examples of each of its parts."""

import dataclasses
import doctest
import importlib
import os
import pkgutil
import re
import sys
from pathlib import Path

os.chdir(f"{os.path.dirname(os.path.abspath(__file__))}/..")
sys.dont_write_bytecode = True
sys.path.insert(0, "python")

import chi
from process import end, told
from chi import GranuleLine, Request, RequestLine
from lines import answers, asks, drops, ends, forgets, refuses

# Answers that pages show: verdict, each granule with its time, the time up to which it is explained, what is blamed and the line of a
# watch, the counts, and how many lines a witness has.
ANSWERS = {
    "chicheck explain examples/traces/lost_update.json": ("not explained", [(0x1008, 40, 39, 1, None)], [], 0),
    "chicheck explain examples/traces/lost_swap.json": ("not explained", [(0x1000, 88, 87, 4, None)], [], 0),
    "chicheck explain examples/traces/final_word.json": ("not explained", [(0x1000, None, None, None, None)], [], 0),
    "chicheck explain examples/traces/two_adds.json": ("explained", [], [], 0),
    "chicheck explain --budget 3 examples/traces/two_adds.json": ("undecided", [(0x1008, None, 40, None, None)], [], 0),
    "chicheck explain --witness examples/traces/overlapping_swaps.json": ("explained", [], [], 4),
    "chicheck watch examples/events/two_adds.jsonl": ("explained", [], [3, 0, 2, 0], 0),
    "chicheck watch --flits examples/flits/stale_read.jsonl": ("not explained", [(0x1000, 24, 23, 6, 7)], [2, 0, 1, 0], 0),
}
ONE = "0 1 30 AtomicLoad.ADD 3 0000000000001000 comp\n"
MEMORY = "m 0000000000001000 0100000000000000\n"
# Texts that none of the programs writes, by what reads them, and the fault.
CUT = [
    (chi.read_transcript, ONE[:-1], "line 1 is cut: it has no line feed"),
    (chi.read_transcript, MEMORY + ONE, f"line 2 is after the memory, and no line of a granule: {ONE[:-1]!r}"),
    (chi.read_transcript, ONE.replace("ADD", "SET"), "line 1 has the name AtomicLoad.SET, and AtomicLoad.ADD is that of the opcode 30"),
    (chi.read_transcript, ONE.replace("comp", "refused Busy"), f"line 1 has the refusal Busy, which is none of {', '.join(chi.REFUSALS)}"),
    (chi.read_transcript, ONE.replace("0 1", "0 01"), f"line 1 is no line of a transcript: {ONE[:-1].replace('0 1', '0 01')!r}"),
    (chi.read_events, "{", "line 1 is not JSON"),
    (chi.read_events, "[]", "line 1 is not an object"),
    (chi.read_events, '{"time":1}', "line 1 member event is missing"),
    (chi.read_events, '{"time":1,"event":"word "}', 'line 1 member event is "word ", and not the name of an event'),
    (chi.read_events, '{"time":1,"event":"end"}\n{"time":0,"event":"end"}', "line 2 is earlier than the event before it"),
    (chi.read_events, '{"time":1,"event":"end"}\n\n{"time":1,"event":"end"}', "line 2 is not JSON"),
    (chi.read_events, '{"time":1,"event":"end","more":1}', "line 1 has an unknown member more"),
    (chi.read_events, '{"time":1.0,"event":"end"}', f"line 1 member time is 1.0, and not a whole number up to {2**64 - 1}"),
    (chi.read_events, '{"time":1,"event":"reply","id":0,"reply":"done"}', 'line 1 member reply is "done", and not comp, 32 hex digits or null'),
    (chi.read_events, '{"time":1,"event":"refused","id":0,"reason":"Busy"}', 'line 1 member reason is "Busy", and not the name of a refusal'),
    (chi.read_events, '{"time":1,"event":"word","addr":4100,"bytes":"0000000000000000"}',
     "line 1 member addr is 4100, and not the address of a granule: a multiple of 8 below 2^52"),
    (chi.read_events, '{"time":1,"event":"unknown","addr":0,"length":0}',
     "line 1 member length is 0, and not a whole number from 1 to 4096, of bytes below 2^52"),
    (chi.read_events, '{"time":1,"event":"request","id":0,"src":1,"txn":1,"op":48,"size":3,"addr":0,"endian":0,"be":255}',
     "line 1 member lanes is missing"),
    (chi.read_answer, "", "line 1 is missing: explained, or a granule that is not explained or undecided"),
    (chi.read_answer, "chicheck: line 1 is not JSON\n", "line 1 is no line of an answer: 'chicheck: line 1 is not JSON'"),
    (chi.read_answer, f"explained\n{ONE}hello\n", "line 3 is no line of a transcript: 'hello'"),
    (chi.read_answer, "explained\n  granules: 1\nhello\n", "line 3 is no line of an answer: 'hello'"),
    (chi.read_answer, "not explained: granule 0000000000001008\n  hello\n", "line 2 is no line of an answer: '  hello'"),
    (chi.read_answer, "explained", "line 1 is cut: it has no line feed"),
]


def fault_of(call, *arguments):
    """What a call refuses its arguments with."""
    try:
        return f"nothing, but {call(*arguments)!r}"
    except ValueError as fault:
        return str(fault)


def shown():
    """What the pages show of each command, by the command."""
    found = {}
    for page in sorted(Path("docs").glob("*.md")):
        for block in re.findall(r"^```console\n(.*?)^```$", page.read_text(encoding="utf-8"), re.M | re.S):
            found.update(it.split("\n", 1) for it in re.split(r"^\$ ", block, flags=re.M)[1:])
    return found


def shown_answers():
    pages = shown()
    for command, wanted in ANSWERS.items():
        answer = chi.read_answer(pages.get(command, "explained\n"))
        granules = [(it.addr, it.time, it.explained_to, it.blamed, it.line) for it in answer.granules]
        found = (answer.verdict, granules, list(answer.counts.values()), len(answer.witness))
        told(f"{command}: {found}", found == wanted and not answer.missing)
        lines = sum(len(it.text) + len(answer.counts) + len(answer.outstanding) for it in answer.granules)
        told(f"{command}: lines", lines == (0 if answer.verdict == "explained" else pages[command].count("\n")))
    waits = "".join(f"    line {it} since 1{it}: 2 {it} 38 AtomicSwap 3 0000000000001000 waits for its {what}\n" for it, what in enumerate(["data", "reply", "DBID"]))
    found = chi.read_answer(f"explained\n  operations that ended: 0\n  requests outstanding: 3\n{waits}  granules: 1\n  granules not judged: 0\n")
    wanted = [chi.Outstanding(it, 10 + it, f"2 {it} 38 AtomicSwap 3 0000000000001000", what) for it, what in enumerate(["data", "reply", "DBID"])]
    told(f"outstanding: {found}", (found.outstanding, list(found.counts.values())) == (wanted, [0, 3, 1, 0]))
    missing = chi.read_answer("explained\n  granules: 1\nrequired: the last line tells the end\n").missing
    told(f"missing: {missing}", missing == ["the last line tells the end"])


def transcripts():
    """All that pages show of chihome is read, and this is what some of it says."""
    pages = {it: text for it, text in shown().items() if it.startswith(("chihome run <", "chihome race "))}
    told(f"transcripts that pages show: {list(pages)}", len(pages) >= 2)
    for command, text in pages.items():
        lines = chi.read_transcript(text)
        told(f"{command}: {lines}", len(lines) == text.count("\n") and {type(it) for it in lines} == {RequestLine, GranuleLine})
    held = bytes(8) + b"\xff" + bytes(7)
    wanted = [RequestLine(0, 1, 0x30, 3, 0x1008, "data", held), GranuleLine(0x1000, b"\x07" + bytes(7)), GranuleLine(0x1008, b"\0\1" + bytes(6))]
    found = chi.read_transcript(pages["chihome run < examples/image.json"])
    told(f"the transcript of image: {found}", found == wanted)
    found = chi.read_transcript(f"7 255 38 AtomicSwap 3 0000000000000ffc refused Misaligned\n{ONE.replace('comp', 'retry')}")
    told(f"refused and retry: {found}", found == [RequestLine(7, 255, 0x38, 3, 0xFFC, "refused", refusal="Misaligned"), RequestLine(0, 1, 0x30, 3, 0x1000, "retry")])


def events():
    adds = [Request.atomic_load("ADD", 0x1008, 1, length=8, src=it, txn=1) for it in (1, 2)]
    reply = [bytes(8) + it.to_bytes(8, "little") for it in (0, 1, 2)]
    read = chi.RequestEvent(50, 0, Request.read(0x1008, 8, src=1, txn=2), False)
    wanted = [
        chi.RequestEvent(10, 0, adds[0], True),
        chi.RequestEvent(15, 1, dataclasses.replace(adds[1], be=0, lanes=bytes(16)), False),
        chi.ReplyEvent(20, 0, reply[0]),
        chi.DataEvent(25, 1, adds[1].be, adds[1].lanes),
        chi.ReplyEvent(40, 1, reply[1]),
        read,
        chi.ReplyEvent(60, 0, reply[2]),
        chi.WordEvent(70, 0x1000, bytes(8), True),
        chi.WordEvent(70, 0x1008, b"\x02" + bytes(7), True),
    ]
    found = chi.read_events(Path("examples/events/two_adds.jsonl").read_text())
    told(f"two_adds: {found}", found == wanted)
    told("lost_update", [it.time for it in chi.read_events(Path("examples/events/lost_update.jsonl").read_text())] == [10, 20, 30, 40, 50, 60])
    text = asks(1, 7) + drops(2, 7) + refuses(2, 8) + refuses(2, 9, "Misaligned") + answers(3, 1, None) + answers(3, 2, "comp") + forgets(3, 5, 4096) + ends(4)
    wanted = [
        chi.RequestEvent(1, 7, Request(48, 3, 0x1008, src=1, txn=2), False),
        chi.DroppedEvent(2, 7), chi.RefusedEvent(2, 8), chi.RefusedEvent(2, 9, "Misaligned"), chi.ReplyEvent(3, 1, None),
        chi.ReplyEvent(3, 2, "comp"), chi.UnknownEvent(3, 5, 4096), chi.EndEvent(4),
    ]
    for written in [text, f"\ufeff{text}\n\n", text.replace("{", '{"x-at": 1, ')]:
        found = chi.read_events(written)
        told(f"one of each event: {found}", found == wanted)
    told("no event", chi.read_events("") == [])


def faults():
    for read, text, wanted in CUT:
        found = fault_of(read, text)
        told(f"{found} in place of {wanted}", found == wanted)


def examples():
    for it in ["chi", *(f"chi.{module.name}" for module in pkgutil.iter_modules(chi.__path__))]:
        found = doctest.testmod(importlib.import_module(it))
        told(f"the examples of {it}", found.attempted > 0 and found.failed == 0)


for tried in [shown_answers, transcripts, events, faults, examples]:
    tried()
end(60)
