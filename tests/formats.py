#!/usr/bin/env python3
"""The tables of docs/FORMATS.md, tried on chihome as a process. Operations, refusals and faults are taken out of the page itself, so
that a row that is wrong fails."""

import json
import os
import re
import sys
import tempfile
from pathlib import Path

os.chdir(f"{os.path.dirname(os.path.abspath(__file__))}/..")
sys.dont_write_bytecode = True

from process import HOME, build, end, run, told

NAME, NUMBER, BYTES = r"`([A-Za-z]+)`", r"(\d+)", r"`(\w\w) (\w\w)`"


def rows(what, count, *cells):
    """The groups of each row of the page that has these cells, of which there are so many."""
    found = re.findall(rf"^\| {r' [|] '.join(cells)} \|$", Path("docs/FORMATS.md").read_text(encoding="utf-8"), re.M)
    told(f"{len(found)} rows of {what}", len(found) == count)
    return found


def request(op, size, addr, be, endian=0, lanes=""):
    """A request by its numbers, with data of zeros but for the first hex digits of its lanes."""
    numbers = {"op": int(op), "size": int(size), "addr": int(addr), "endian": endian, "be": int(be)}
    return {"src": 0, "txn": 1, **numbers, "lanes": f"{lanes:0<32}"}


def script(requests):
    return json.dumps({"base": 4096, "granules": 2, "requests": requests})


def transcript(*requests):
    """The fields of each line of the transcript."""
    return [it.split() for it in run(HOME, ["run"], script(requests))[1].decode().splitlines()]


def opcodes():
    for op, digits, name in rows("opcodes with one number", 4, NUMBER, r"0x(\w\w)", NAME, ".*", ".*"):
        found = transcript(request(op, 1, 4096, 3))[0]
        told(f"opcode {op}: {found}", found[2:4] == [digits, name])


def operations():
    """What each makes of the bytes ff 01 with 01 80 sent, in both byte orders."""
    write, both = request(28, 1, 4096, 3, lanes="ff01"), rf"{NUMBER}, 0x(\w\w)"
    for name, store, store_digits, load, load_digits, *made in rows("operations", 8, NAME, both, both, ".*", BYTES, BYTES):
        for endian in (0, 1):
            found = transcript(write, request(load, 1, 4096, 3, endian, "0180"), write, request(store, 1, 4096, 3, endian, "0180"))
            wanted = [
                ["0", "1", load_digits, f"AtomicLoad.{name}", "1", "0000000000001000", "data", f"{'ff01':0<32}"],
                ["0", "1", store_digits, f"AtomicStore.{name}", "1", "0000000000001000", "comp"],
                ["m", "0000000000001000", f"{''.join(made[2 * endian :][:2]):0<16}"],
            ]
            told(f"{name}, endian {endian}: {found}", [found[1], *found[3:5]] == wanted)


def refusals():
    for name, *numbers in rows("refusals", 6, NAME, ".*", ", ".join([NUMBER] * 4)):
        found = transcript(request(*numbers))[0]
        told(f"{name}: {found}", found[6:] == ["refused", name])


def faults(folder):
    """Of each a script, a command, or a text that the code has for a fault of a call."""
    code = [it.read_text(encoding="utf-8") for it in Path("crates").glob("*/src/**/*.rt")]
    for fault, text, status, example in rows("faults", 13, r"(`[A-Za-z`, ]+)", r"`([^`]*)`", r"(\d)", "(.*)"):
        shown, named = re.match(r"(?:`([^`]*)`)?.*?(?: \(`(\w+)`\))?$", example).groups()
        wanted = int(status), b"", f"chihome: {re.sub('NAME|FAULT', named or '', text)}\n".encode()
        if "TooManyRequests" in fault:
            shown = script([request(4, 3, 4096, 0)] * 4097)
        if not shown:
            told(f"{fault}: the code has no text {text}", any(f'#[error("{text}")]' in it for it in code))
        elif "chihome" in shown:
            told(f"{fault}: {shown}", run("bash", ["-c", shown], "", PATH=f"{folder}:{os.environ['PATH']}") == wanted)
        else:
            for task in ["run", "race"]:
                told(f"{task} of {fault}", run(HOME, [task], shown) == wanted)


build("chihome")
opcodes()
operations()
refusals()
with tempfile.TemporaryDirectory() as folder:
    os.symlink(os.path.realpath(HOME), f"{folder}/chihome")
    faults(folder)
end(42)
