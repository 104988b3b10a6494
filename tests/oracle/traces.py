#!/usr/bin/env python3
"""Tries chicheck explain on small traces by chance: traces.py [COUNT [SEED]]

What it answers has to be what trying every order finds of each (small.py, orders.py): whether the trace is explained, and by the order
that it says; else the granule, the first time, an operation of the granule that ended then, the words that the granule can hold before,
and which other granules of its line of 64 bytes are not explained; or its words at the end. CHICHECK names the program."""

import collections
import json
import os
import random
import sys
from concurrent.futures import ProcessPoolExecutor

os.chdir(f"{os.path.dirname(os.path.abspath(__file__))}/../..")
sys.dont_write_bytecode = True

from checker import run
from memory import execute, granule_of
from orders import can_come, first_unexplained, is_explained, known_by, operations_of, words_left, words_of
from small import WAYS, small_trace

COUNT, SEED = [int(it) for it in sys.argv[1:3]] + [100_000, 1][len(sys.argv[1:3]) :]


def explains(trace, order):
    """Whether an order of all operations explains the trace."""
    operations, words, taken = operations_of(trace), words_of(trace, "image"), set()
    for at in order:
        it = operations[at]
        words[granule_of(it.request)], reply = execute(words[granule_of(it.request)], it.request)
        if at in taken or not can_come(operations, taken, it) or it.reply not in (None, reply):
            return False
        taken.add(at)
    return all(at in taken or it.reply is None for at, it in enumerate(operations)) and words.items() >= words_of(trace, "final").items()


def first_time(trace, granule):
    return first_unexplained(words_of(trace, "image")[granule], operations_of(trace, granule))


def fault_at_end(trace, granule, words):
    word, operations = words_of(trace, "image")[granule], operations_of(trace, granule)
    if any(first_time(trace, it) is not None for it in words_of(trace, "image")):
        return "it breaks at a time"
    if is_explained(word, operations, words_of(trace, "final").get(granule)):
        return "the granule can be explained"
    return "" if set(words_left(word, operations)) == words else "the granule can hold other words"


def unexplained_beside(trace, granule):
    """The other granules of a line of 64 bytes that no order explains."""
    openings, final = words_of(trace, "image"), words_of(trace, "final")
    beside = [it for it in sorted(openings) if it // 64 == granule // 64 and it != granule]
    return [it for it in beside if not is_explained(openings[it], operations_of(trace, it), final.get(it))]


def fault_at(trace, granule, time, number, words, beside):
    word, operations = words_of(trace, "image")[granule], operations_of(trace, granule)
    times = [it for it in (first_time(trace, it) for it in words_of(trace, "image")) if it is not None]
    if time != min(times, default=None) or time != first_time(trace, granule):
        return "it breaks at another time"
    if not any(it.number == number and it.end == time and it.reply is not None for it in operations):
        return "another operation ended then"
    if beside != unexplained_beside(trace, granule):
        return "other granules of its line are not explained"
    return "" if not time or set(words_left(word, known_by(operations, time - 1))) == words else "the granule can hold other words"


def fault(trace, status, answer):
    """What is wrong with an answer, if something is."""
    if answer["answer"] == "explained":
        return "" if status == 0 and explains(trace, answer["order"]) else "this order does not explain the trace"
    if answer["answer"] != "not explained" or status != 1:
        return "this is no answer"
    granule, words = int(answer["granule"], 16), set(map(bytes.fromhex, answer["words"] or []))
    if "at_end" in answer:
        return fault_at_end(trace, granule, words)
    beside = [int(it, 16) for it in answer["also_not_explained"]]
    return fault_at(trace, granule, int(answer["time"]), answer["blamed"]["request"], words, beside)


def tried(number):
    """Tries a trace. Returns how it was broken and what was answered, and what is wrong with that."""
    way = list(WAYS)[number % len(WAYS)]
    trace = small_trace(random.Random(f"{SEED}/{number}"), way)
    status, text = run(["explain", "--witness", "--format", "json"], json.dumps(trace))
    try:
        answer = json.loads(text)
    except ValueError:
        return way, "fault", (trace, text, "this is no answer")
    wrong = fault(trace, status, answer)
    kind = "explained" if status == 0 else "ended otherwise" if "at_end" in answer else "broken"
    return way, kind, (trace, text, wrong) if wrong else None


def main():
    counts, disagreed = collections.Counter(), []
    with ProcessPoolExecutor(len(os.sched_getaffinity(0))) as pool:
        for way, kind, wrong in pool.map(tried, range(COUNT), chunksize=20):
            counts[way, kind] += 1
            disagreed += [wrong] if wrong else []
    for (way, kind), count in sorted(counts.items()):
        print(f"{way}: {count} {kind}")
    if disagreed:
        trace, text, wrong = min(disagreed, key=lambda it: len(it[0]["requests"]))
        print(f"{json.dumps(trace)}\n{text}{wrong}")
    print(f"{COUNT} traces of seed {SEED}, {len(disagreed)} disagreed on")
    sys.exit(len(disagreed) > 0)


main()
