#!/usr/bin/env python3
"""The files that chicheck explain reads and writes, as a process: traces and events by their names, and pages."""

import json
import os
import sys
import tempfile

os.chdir(f"{os.path.dirname(os.path.abspath(__file__))}/..")
sys.dont_write_bytecode = True

from process import CHECKER, build, data_of, end, run, told, wants
from samples import example


def named(folder):
    """A trace is read from the file that is named, and the standard input is not then; a fault names the file."""
    wants("a file", ["explain", "examples/traces/two_adds.json"], b"no trace", 0, "explained\n")
    wants("a file of events", ["explain", "--events", "examples/events/two_adds.jsonl"], b"no event", 0, "explained\n")
    lost = ["explain", "examples/traces/lost_update.json"]
    told("a file that is not explained", run(CHECKER, lost, b"") == run(CHECKER, ["explain"], example("lost_update")))
    for words, status, fault in [
        ([f"{folder}/none.json"], 5, f"{folder}/none.json: input could not be read"),
        ([folder], 5, f"{folder}: input could not be read"),
        (["README.md"], 3, "README.md: trace is not JSON"),
        (["--events", "README.md"], 3, "README.md: line 1 is not JSON"),
    ]:
        wants(f"a file: {words}", ["explain", *words], b"{}", status, errors=f"chicheck: {fault}\n")


def pages(folder):
    """The file that --html names has all granules with what was found of each, and operations, and none of the trace's own text."""
    path = f"{folder}/page.html"
    for name, findings, blamed in [
        ("two_adds", {"0000000000001008": "explained"}, None),
        ("lost_swap", {"0000000000001000": "not explained"}, 4),
        ("lost_update", {"0000000000001008": "not explained"}, 1),
        ("final_word", {"0000000000001000": "not explained", "0000000000001008": "explained"}, None),
    ]:
        text = example(name).replace(b'"src"', b'"x-</script><b>": "</script><b>", "src"')
        without = run(CHECKER, ["explain"], text)
        found = run(CHECKER, ["explain", "--html", path], text)
        told(f"{name}: another answer with a page: {found}", found == without)
        both = [run(CHECKER, ["explain", "--format", "json", *words], text) for words in ([], ["--html", path])]
        told(f"{name}: another JSON with a page: {both}", both[0] == both[1])
        with open(path, encoding="ascii") as file:
            page = file.read()
        told(f"{name}: markup of the trace", page.count("</script>") == 2 and "x-" not in page.split('id="trace">', 1)[1].split("</script>", 1)[0])
        data = data_of(page, "trace")
        shown = {it["granule"]: it["finding"] for it in data["granules"]}
        told(f"{name}: {shown}", {it: shown.get(it) for it in findings} == findings)
        told(f"{name}: its operations", len(data["operations"]) == len(json.loads(text)["requests"]))
        told(f"{name}: blamed {data['blame']}", (data["blame"] and data["blame"]["blamed"]["request"]) == blamed)
        answer = json.loads(both[0][1])
        told(f"{name}: blamed otherwise than as JSON: {answer}", all(answer[member] == it for member, it in (data["blame"] or {}).items()))
        os.remove(path)
    found = run(CHECKER, ["explain", "--html", f"{folder}/none/page.html"], example("two_adds"))
    told(f"a page that cannot be written: {found}", found == (5, b"", b"chicheck: page could not be written\n"))
    found = run(CHECKER, ["explain", "--html", path], b"[7]")
    told(f"a page of a trace that is refused: {found}", found[0] == 3 and not os.path.exists(path))


build("chicheck")
with tempfile.TemporaryDirectory() as folder:
    named(folder)
    pages(folder)
end(30)
