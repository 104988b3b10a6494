#!/usr/bin/env python3
"""What chicheck explain answers, as a process: witnesses beside runs of chihome, which operation is blamed, the limits of a search and of what
follows a verdict."""

import json
import os
import re
import sys
import time

os.chdir(f"{os.path.dirname(os.path.abspath(__file__))}/..")
sys.dont_write_bytecode = True

from process import CHECKER, HOME, build, end, refused, run, told, trace, wants
from run_cases import cases_of
from samples import UNDECIDED, adds_at_once, example, request, sums


def reordered(text, witness):
    """The script of the trace, with its requests in the order of the witness's lines."""
    script = json.loads(text)
    by_number = {(it["src"], it["txn"]): it for it in script["requests"]}
    lines = [it.split() for it in witness.decode().splitlines() if not it.startswith("m ")]
    script["requests"] = [by_number[int(it[0]), int(it[1])] for it in lines]
    return json.dumps(script).encode()


def witnesses():
    """The witness of a trace that is explained is the transcript of a run of chihome; one that is not has the same answer with it."""
    for case in cases_of(["explain/examples/"]):
        text, expected = case.stdin(), case.expected()
        witness = run(CHECKER, ["explain", "--witness"], text)
        if expected.status:
            told(f"{case.name}: a witness of what is not explained", witness == run(CHECKER, ["explain"], text))
            continue
        lines = witness[1].split(b"\n", 1)[1]
        told(f"{case.name}: another run than the witness", run(HOME, ["run"], reordered(text, lines)) == (0, lines, b""))
    named = {it.removesuffix(".json") for it in os.listdir("examples/traces")}
    told(f"examples of which no answer is known: {named}", named == {it.folder.name for it in cases_of(["explain/examples/"])})


def blames():
    """Of two that end together: any of two adds that both answered 0, and the read that answered 9, though it is listed after an
    add that answered rightly. Its answer would be the word before the add or after it."""
    add = [request(src, 48, 4096, 255, f"01{0:030x}", start, 40, f"{0:032x}") for src, start in [(1, 30), (2, 32)]]
    found = run(CHECKER, ["explain"], trace(add))[1].decode().splitlines()
    told(f"either_of_two_adds: {found}", "  any one of these answers may be the wrong one: requests 0 1" in found)
    told(f"either_of_two_adds: the first {found}", found[1].startswith("at 40: 1 1 30 ") and any(it.startswith("  > request 0 ") for it in found))
    legal = [it for it in found if it.startswith("    legal would be:")]
    told(f"either_of_two_adds: {legal}", legal == ["    legal would be:  returned 0100000000000000"])
    read = request(2, 4, 4096, 0, f"{0:032x}", 34, 40, f"09{0:030x}")
    found = run(CHECKER, ["explain"], trace([add[0], read]))[1].decode().splitlines()
    told(f"the_wrong_one_of_two: {found}", found[1].startswith("at 40: 2 1 04 ") and any(it.startswith("  > request 1 ") for it in found))
    told(f"the_wrong_one_of_two: no other {found}", not any(it.startswith("  any one of these") for it in found))
    legal = {it for it in found if it.startswith("    legal would be:")}
    told(f"the_wrong_one_of_two: {legal}", legal == {f"    legal would be:  returned 0{it}{0:014x}" for it in (0, 1)})
    told(f"the_wrong_one_of_two: its byte {found}", "    unlike each of these: +0 is 09" in found)


def too_long():
    whole = example("two_adds")
    refused("a trace that is too long", whole + b" " * 536870913, "trace is over 536870912 bytes")
    for budget in [1 << 32, 2**64 - 1]:
        wants(f"a budget of {budget}", ["explain", "--budget", str(budget)], whole, 0, "explained\n")


def limits():
    """No search begins that may go beyond the seconds or the bytes: the first of 65,536 states, and then twice as many each."""
    whole = trace(sums(24))
    for words in ["--seconds 1", "--seconds 0", "--memory 30000000", "--memory 0", "--seconds 1 --memory 30000000"]:
        began = time.monotonic()
        status, out, _ = run(CHECKER, ["explain", "--budget", "1000000000", *words.split()], whole)
        took, found = time.monotonic() - began, re.match(rb"undecided: granule 0000000000001000 after (\d+) states\n", out)
        tried = found and int(found[1])
        told(f"limits: {words}: {status} {out} {took}", status == 6 and tried in [1 << it for it in range(16, 30)] and took < 20)
        told(f"limits: {words}: the least {tried}", "0" not in words.split() or tried == 1 << 16)
    later = trace(sums(17))
    found = run(CHECKER, ["explain"], later)
    told("limits: a trace that the first states do not decide", found[0] == 1 and run(CHECKER, ["explain", "--budget", "65536"], later)[0] == 6)
    told("limits: it goes on while there is time", run(CHECKER, ["explain", "--seconds", "60"], later) == found)
    both = run(CHECKER, ["explain", "--budget", "1000", "--seconds", "60"], whole)
    told(f"limits: the budget first {both}", both[:2] == (6, UNDECIDED.format(1000, "", 25).encode()))


def cut_short():
    """What follows a verdict may take 16 times its states, 64 for each operation, and 100,000, and of 200 that are pending at once the
    fourth part of that: here the verdict takes none, since no operation leaves what one of them found. Up to most ends the adds of 1
    to 200 that are pending can leave more words than that."""
    began = time.monotonic()
    status, out, errors = run(CHECKER, ["explain"], trace(adds_at_once(200, 150, step=1)))
    took, lines = time.monotonic() - began, out.decode().splitlines()
    told(f"cut_short: {status} {lines} {took}", (status, errors, lines[0]) == (1, b"", "not explained: granule 0000000000001000") and took < 60)
    told(f"cut_short: {lines}", lines[-1] == f"  what is not shown was not found within {(64 * 200 + 100000) // 4} more states")


def many_at_once():
    """200 adds of 1 that are pending at once: the number that one of them has to answer is the one that the others leave out, and all
    that can be said is found. So it is with all 200 pending at the time before, at which the granule can hold 201 words."""
    for wrong, ends, words in [(150, 1150, None), (0, 1000, 201)]:
        status, out, errors = run(CHECKER, ["explain"], trace(adds_at_once(200, wrong)))
        lines = out.decode().splitlines()
        told(f"many_at_once: {status} {lines}", (status, errors, lines[0]) == (1, b"", "not explained: granule 0000000000001000"))
        told(f"many_at_once: {lines}", lines[1].startswith(f"at {ends}: {wrong % 8} 1 30 ") and not any("not shown" in it for it in lines))
        told(f"many_at_once: {lines}", f"    legal would be:  returned {wrong.to_bytes(8, 'little').hex()}" in lines)
        told(f"many_at_once: {lines}", lines[-1] == f"  a legal response of request {wrong} explains the granule to its end")
        told(f"many_at_once: {lines}", words is None or f"  and {words - 16} more" in lines)


build("chihome", "chicheck")
for tried in [witnesses, blames, too_long, limits, cut_short, many_at_once]:
    tried()
end(30)
