#!/usr/bin/env python3
"""Measures `explain` of whole traces beside the same search in plain Rust (bench/verdict): verdict.py [SEED [ROUNDS [SEEDS]]]

Large traces first, whose best times of ROUNDS (5) count; then, SEEDS (3) of each kind, ones of one granule with many operations open at
once. Both have to decide alike. The program that calls `explain` is Rattle.

verdict.py instructions [OPEN..]     the instructions of both, which valgrind counts, the reading of the trace left out
verdict.py events KIND OPEN SEED     writes a trace of one granule as events for `chicheck watch`"""

import itertools
import os
import re
import statistics
import struct
import subprocess
import sys

os.chdir(f"{os.path.dirname(os.path.abspath(__file__))}/..")
sys.dont_write_bytecode = True

from traffic import READ, line

PLAIN, TELL, TRACES = "bench/out/release/verdict", "bench/out/tell_verdict", "bench/out/traces"
WAYS = ["intact", "a reply's bits turned", "two replies exchanged", "an update lost", "an interval moved", "a final word changed"]
KINDS = {"every": WAYS, "words": WAYS[:1], "stores": WAYS[:1], "writes": WAYS[:1]}
OPEN = [4, 8, 14, 19, 23, 32]
# The rows of large traces, of which each has six.
LARGE = [(kind, *row) for kind in ("8 bytes", "every kind") for row in [(1, "none"), (4, "none"), (512, "none"), (512, "one in 20")]]


def build():
    subprocess.run(["bench/build.sh"], check=True)
    subprocess.run("bench/program.sh tell_verdict verdict chi_fields chi_lanes chi_history chi_trace chi_search chi_verdict".split(), check=True)


def traces(*words):
    """Traces by chance."""
    return subprocess.run([PLAIN, *map(str, words)], stdout=subprocess.PIPE, check=True).stdout


def told(program, text):
    """What a program says of each trace, and how many nanoseconds that took."""
    ran = subprocess.run(program, input=text, stdout=subprocess.PIPE, check=True, timeout=7200)
    return [(it.split()[0], int(it.split()[1])) for it in ran.stdout.decode().splitlines()]


def by_both(text):
    """What both say of each trace. They have to say the same where both decided."""
    both = told([TELL], text), told([PLAIN, "search"], text)
    for (one, _), (two, _) in zip(*both, strict=True):
        if one != two and "undecided" not in (one, two):
            sys.exit(f"they disagree: {one} and {two}")
    return both


def show_large(seed, rounds):
    print("| operations | granules | without a reply | traces | undecided | µs | plain Rust | ratio |")
    text = traces("large", seed)
    rounds = [by_both(text) for _ in range(rounds)]
    best = [[min(its) for its in zip(*([time for _, time in both[which]] for both in rounds))] for which in (0, 1)]
    for at, (kind, granules, share) in enumerate(LARGE):
        part = slice(6 * at, 6 * at + 6)
        own, plain = (sum(its[part]) // 1000 for its in best)
        undecided = sum(it == "undecided" for it, _ in rounds[-1][0][part])
        print(f"| 4,000 of {kind} | {granules} | {share} | 6 | {undecided} | {own} | {plain} | {own / plain:.2f} |")


def show_hot(seeds):
    print("| requests | open | trace | decided | median ms | by plain Rust | median ms |")
    for kind, ways in KINDS.items():
        for count, way in itertools.product(OPEN, ways):
            cells = [
                f"{sum(it != 'undecided' for it, _ in its)} of {seeds} | {statistics.median_high(time for _, time in its) / 1e6:.1f}"
                for its in by_both(traces("hot", kind, way, count, 1, seeds))
            ]
            print(f"| {kind} | {count} | {way} | {' | '.join(cells)} |", flush=True)


def instructions(program, function, text):
    """How many instructions a program takes in a function and what it calls."""
    counted = ["valgrind", "--tool=callgrind", "--callgrind-out-file=/dev/null", f"--toggle-collect={function}", *program]
    said = subprocess.run(counted, input=text, stdout=subprocess.DEVNULL, stderr=subprocess.PIPE, check=True).stderr
    return int(re.search(rb"Collected : (\d+)", said)[1])


def show_instructions(counts):
    print("| open | seed | explain | plain Rust | ratio |")
    for count, seed in itertools.product(counts, (1, 2, 3)):
        text = traces("hot", "every", "intact", count, seed, seed)
        own, plain = instructions([TELL], "*explain_operations*", text), instructions([PLAIN, "search"], "verdict::search::explain", text)
        print(f"| {count} | {seed} | {own} | {plain} | {own / plain:.2f} |", flush=True)


def hexed(numbers):
    return b"".join(it.to_bytes(8, "little") for it in numbers).hex()


def events(text):
    """A trace as events in the order of their times, at each time the requests first."""
    numbers = iter(struct.unpack(f"<{len(text) // 8}Q", text)[1:])
    words = [[(next(numbers), next(numbers)) for _ in range(next(numbers))] for _ in ("opening", "final")]
    steps = []
    for place in range(next(numbers)):
        start, end, op, size, addr, endian, be, *lanes, kind, low, high = itertools.islice(numbers, 12)
        sent = {} if op == READ else {"be": be, "lanes": hexed(lanes)}
        members = {"src": 0, "txn": 0, "op": op, "size": size, "addr": addr, "endian": endian} | sent
        reply = [None, "comp", hexed([low, high])][kind]
        steps.append({"time": start, "event": "request", "id": place} | members)
        steps += [{"time": end, "event": "reply", "id": place, "reply": reply}] if end != 2**64 - 1 else []
    steps.sort(key=lambda it: (it["time"], it["event"] == "reply"))
    return [{"time": 0, "event": "word", "addr": 8 * granule, "bytes": hexed([word])} for granule, word in words[0]] + steps


def main(words):
    if words[:1] == ["events"]:
        kind, count, seed = words[1:]
        sys.stdout.writelines(line(it) + "\n" for it in events(traces("hot", kind, "intact", count, seed, seed)))
    elif words[:1] == ["instructions"]:
        subprocess.run([".ci/need", "valgrind:valgrind"], check=True)
        build()
        show_instructions(words[1:] or [4, 8, 14, 19])
    else:
        seed, rounds, seeds = [int(it) for it in words] + [1, 5, 3][len(words) :]
        build()
        show_large(seed, rounds)
        print()
        show_hot(seeds)


main(sys.argv[1:])
