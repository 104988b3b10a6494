#!/usr/bin/env python3
"""What chicheck does with flits beside its answer, as a process: the lines that it saves, and what they cover, with points and without,
beside the same operations told by events (docs/FLITS.md)."""

import os
import sys
import tempfile
from pathlib import Path

os.chdir(f"{os.path.dirname(os.path.abspath(__file__))}/..")
sys.dont_write_bytecode = True
sys.path.append("page")

from coverage import counted_as_json
from lines import ADD, HIGH, LOW, READ, STORE, WRITE, answers, asks, drops, ends, point, rdat, req, rsp, sends, wdat
from process import CHECKER, build, end, run, told

RETRY, COMP, DBID, CANCEL = 3, 4, 6, 7


def begins(time, op=WRITE, addr=LOW, **more):
    """A request of requester 1 and its DBIDResp."""
    return req(time, 1, 4, op, addr, **more) + rsp(time + 1, 1, 4, DBID, 0)


def writes(time, number, addr=LOW, **more):
    """A write by requester 1, which is complete three times later."""
    return begins(time, WRITE, addr) + wdat(time + 2, 1, 0, number, addr, **more) + rsp(time + 3, 1, 4, COMP)


def cancels(time, addr=LOW):
    """A WriteDataCancel of which neither the data nor the byte enables are known."""
    return wdat(time, 1, 0, "z" * 32, addr, opcode=CANCEL, be="x" * 4)


def saved():
    """The lines that are saved are those up to the time at which the granule was found, or all."""
    told("other flits than those of which the answer is known", os.listdir("examples/flits") == ["stale_read.jsonl"])
    text = Path("examples/flits/stale_read.jsonl").read_text()
    with tempfile.TemporaryDirectory() as folder:
        for words, lines in [([], 7), (["--keep-going"], 10)]:
            status = run(CHECKER, ["watch", "--flits", *words, "--save", f"{folder}/saved"], text)[0]
            told(f"lines saved by {words}", status == 1 and Path(f"{folder}/saved").read_text() == "".join(text.splitlines(True)[:lines]))


def covered():
    """The same operations, told by flits and by events, are counted alike."""
    swapped = 1 << 56  # 1, big-endian
    text = writes(10, 6) + begins(20, ADD, HIGH, endian=1) + wdat(22, 1, 0, swapped, HIGH) + rdat(23, 1, 4, 0, HIGH)
    text += req(30, 2, 4, READ, size=4) + rdat(31, 2, 4, swapped << 64 | 6) + begins(40) + cancels(42) + req(50, 1, 5, STORE) + rsp(51, 1, 5, RETRY)
    same = asks(10, 0, WRITE, LOW) + sends(12, 0, 6, LOW) + answers(13, 0, "comp")
    same += asks(20, 0, ADD, HIGH, endian=1) + sends(22, 0, swapped) + answers(23, 0, 0)
    same += asks(30, 0, READ, LOW, src=2) + asks(30, 1, READ, HIGH, src=2) + answers(31, 0, 6, LOW) + answers(31, 1, swapped)
    same += asks(40, 0, WRITE, LOW) + drops(42, 0) + asks(50, 0, STORE, LOW) + drops(51, 0)
    answer = run(CHECKER, ["cover", "--flits"], text)
    told(f"cover: {answer}", answer == run(CHECKER, ["cover", "--events"], same))
    for line in ["operations: 4 of 1200", "WriteNoSnpPtl 8: none 0, some 0, all 1", "covered: 10 of 1410 (0%)"]:
        told(f"cover: {line}: {answer}", f"{line}\n" in answer[1].decode() and answer[0] == 0)
    counted_as_json("cover", ["cover", "--flits"], text)


def covered_with_points():
    """A point changes nothing of what is covered."""
    wide = begins(10, size=4) + point(12, 1, 4) + wdat(13, 1, 0, 8 << 64 | 6, be="ffff") + rsp(14, 1, 4, COMP)
    same = run(CHECKER, ["cover", "--flits"], wide.replace(point(12, 1, 4), ""))
    told(f"cover of points: {same}", run(CHECKER, ["cover", "--flits", "--points"], wide + ends(20)) == same and same[0] == 0)


build("chicheck")
for tried in [saved, covered, covered_with_points]:
    tried()
end(11)
