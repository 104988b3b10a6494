#!/usr/bin/env python3
"""What chicheck reads of a trace, as a process: any order of its members, members that are ignored or stand twice, a trace as a script of
chihome, a long trace, and one of little memory."""

import itertools
import json
import os
import subprocess
import sys

os.chdir(f"{os.path.dirname(os.path.abspath(__file__))}/..")
sys.dont_write_bytecode = True

from process import CHECKER, HOME, build, end, explained, refused, run, told, trace
from samples import MOST, adds, line

# One completed request of each kind, one after the other but for their places in the list.
READ, WRITE, STORE, LOAD, SWAP, COMPARE = range(6)
KINDS = [
    {"src": 0, "txn": 1, "op": 4, "size": 2, "addr": 4100, "endian": 1, "be": 0,
     "lanes": "00000000000000000000000000000000", "start": 0, "end": 0, "reply": "00000000aabbccdd0000000000000000"},
    {"src": 1, "txn": 2, "op": 28, "size": 3, "addr": 4104, "endian": 0, "be": 16896,
     "lanes": "a0a1a2a3a4a5a6a7a8a9aaabacadaeaf", "start": 2, "end": 3, "reply": "comp"},
    {"src": 7, "txn": 3, "op": 40, "size": 2, "addr": 4108, "endian": 0, "be": 61440,
     "lanes": "00000000000000000000000044337211", "start": 8, "end": 9, "reply": "comp"},
    {"src": 8, "txn": 4, "op": 48, "size": 3, "addr": 4096, "endian": 0, "be": 255,
     "lanes": "01000000000000000000000000000000", "start": 5, "end": 6, "reply": "ff010000aabbccdd0000000000000000"},
    {"src": 200, "txn": 5, "op": 56, "size": 0, "addr": 4107, "endian": 0, "be": 2048,
     "lanes": "00000000000000000000005a00000000", "start": 11, "end": 11, "reply": "0000000000000000000000A500000000"},
    {"src": 255, "txn": 255, "op": 57, "size": 3, "addr": 4108, "endian": 1, "be": 65280,
     "lanes": "0000000000000000aabbccdd44332012", "start": 13, "end": MOST, "reply": "00000000000000000000000044332012"},
]  # fmt: skip
OPENING = {"image": "ff010000aabbccdd000000a500000000"}
CLOSING = {"final": "00020000aabbccdd00a9005aaabbccdd"}
AFTER_KINDS = "m 0000000000001000 00020000aabbccdd\nm 0000000000001008 00a9005aaabbccdd\n"
IN_TIME = [READ, WRITE, LOAD, STORE, SWAP, COMPARE]


def as_a_script():
    """A trace is a script of chihome, whose transcript is its witness."""
    script = trace([{**KINDS[it], "src": it} for it in IN_TIME], 2, **OPENING, **CLOSING)
    transcript = run(HOME, ["run"], script)
    told(f"trace_as_a_script: {transcript}", transcript[0] == 0)
    explained("trace_as_a_script", script, transcript[1].decode())


def other_forms():
    """A trace is read the same in any order of its members, with values that keep its requests from being read one after another, and with
    many members."""
    whole = {"base": 4096, "granules": 2, **OPENING, **CLOSING, "requests": KINDS}
    wide = {name: [{"addr": 4096, "bytes": it[:16]}, {"addr": 4104, "bytes": it[16:], "x-it": None}] for name, it in {**OPENING, **CLOSING}.items()}
    lines = "".join(line(KINDS[it]) for it in IN_TIME) + AFTER_KINDS
    for members in [whole, {**wide, "requests": KINDS}]:
        for order in itertools.permutations(members):
            explained(f"order_of_members: {order}", json.dumps({it: members[it] for it in order}), lines)
    for other in [None, True, 7, 0.5, -1, 1 << 64, "text", "\u00e9", [], [7], [{}, {"a": 1}], [[]], {}, {"a": {}}]:
        explained(f"ignored_members: {other} of the trace", json.dumps({"x-it": other, **whole}), lines)
        explained(f"ignored_members: {other} after the requests", json.dumps({**whole, "x-it": other}), lines)
        explained(f"ignored_members: {other} of requests", json.dumps({**whole, "requests": [{**it, "x-it": other} for it in KINDS]}), lines)
    for count in [3, 4, 5, 20]:
        many = {f"x-{it}": it for it in range(count)}
        explained(f"ignored_members: {count}", json.dumps({**many, **whole, "requests": [{**many, **it} for it in KINDS]}), lines)
    wrong = json.dumps([{**KINDS[READ], "reply": "comp"}])
    explained("doubled_requests", f'{{"requests":{wrong},{json.dumps(whole)[1:]}', lines)
    refused("doubled_requests: the last is no list", f'{json.dumps(whole)[:-1]},"requests":7}}', "trace member requests is 7, and not a list")
    for after in ["x", "{}", "]"]:
        refused(f"more_than_a_trace: {after}", json.dumps(whole) + after, "trace is not JSON")


def long_trace():
    requests = adds(601)
    left = f"m 0000000000001000 {0:016x}\nm 0000000000001008 {(601).to_bytes(8, 'little').hex()}\n"
    explained("trace_of_many_requests", trace(requests, 2), "".join(line(it) for it in requests) + left)


def little_memory():
    """The requests of traces of some 8 MB, of a region and of all addresses, are read one after another, within four times their bytes and
    16 MB."""
    requests = adds(40_000)
    words = {name: [{"addr": 4104, "bytes": word.to_bytes(8, "little").hex()}] for name, word in [("image", 0), ("final", 40_000)]}
    for text in [trace(requests, 2), json.dumps({"image": words["image"], "requests": requests, "final": words["final"]})]:
        limit = (4 * len(text) >> 10) + 16384
        ran = subprocess.run(["bash", "-c", f'ulimit -v {limit}; exec "$0" explain', CHECKER], input=text.encode(), capture_output=True, timeout=60)
        told(f"little_memory: {len(text)} bytes: {ran}", (ran.returncode, ran.stdout, ran.stderr) == (0, b"explained\n", b""))


build("chihome", "chicheck")
for tried in [as_a_script, other_forms, long_trace, little_memory]:
    tried()
end(150)
