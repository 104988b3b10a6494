#!/usr/bin/env python3
"""Measures chihome and the lock-free store beside plain Rust: chihome.py [RUNS [ROUNDS]]

A script of 4,096 requests of `chihome generate`, one in sixteen refused, is worked from file to file by both programs in turn, RUNS times
(40) after a run that is not counted. A race has as many workers in both, and goes to any granule, each worker to one of its own, or all
to one. Then programs time an AtomicLoad ADD of eight bytes by themselves, ROUNDS times (20) in turn: the bare loop, the store's call in
plain Rust, and the store, which is Rattle."""

import collections
import json
import os
import statistics
import subprocess
import sys

os.chdir(f"{os.path.dirname(os.path.abspath(__file__))}/..")
RUNS, ROUNDS = [int(it) for it in sys.argv[1:3]] + [40, 20][len(sys.argv[1:3]) :]
PROGRAM, BUILT = "crates/chi_home/out/chi_home", "bench/out/release"
SCRIPT, TRANSCRIPT = "bench/out/script.json", "bench/out/transcript"
# The words of the task, its workers, how many granules there are, and which the workers go to.
ROWS = [(f"{task} --store {store}", 2, 8, "any") for task in ("run", "race") for store in ("book", "lock")]
ROWS += [("run --store book", 2, 512, "any"), ("race --store book", 2, 512, "any")]
ROWS += [("race --store book", workers, workers if places == "own" else 1, places) for workers in (1, 2, 4, 7) for places in ("own", "one")]
COLUMNS = ["best ms", "median ms", "median processor ms", "peak KiB"]
# How many attempts each thread makes in a round.
ATTEMPTS = 1_000_000


def said(*words):
    return subprocess.run(words, stdout=subprocess.PIPE, text=True, check=True, timeout=1800).stdout


def script(workers, granules, places):
    """A region that ends where the addresses do, and requests of 0 to the workers' number, or of the workers alone."""
    base = 2**52 - 64 * -(-granules // 8)
    options = {"requests": 4096, "refused": 6, "base": base, "granules": granules, "requesters": workers + (places == "any")}
    words = [word for name, it in options.items() for word in (f"--{name}", str(it))]
    script = json.loads(said(PROGRAM, "generate", *words))
    for it in script["requests"]:
        if places == "one":
            it["src"] += 1
        if places == "own":
            it["src"] = (it["addr"] - base) // 8 % workers + 1
    return json.dumps(script)


def measured(programs):
    """The columns of each program's runs, which are taken in turn."""
    runs = [[] for _ in programs]
    for _ in range(RUNS + 1):
        for program, its in zip(programs, runs):
            its.append(list(map(int, said(f"{BUILT}/measure", SCRIPT, TRANSCRIPT, *program).split())))
    for its in runs:
        walls, processors, peaks = zip(*its[1:])
        yield [min(walls) / 1e6, statistics.median_high(walls) / 1e6, statistics.median_high(processors) / 1e6, statistics.median_high(peaks)]


def show_row(words, workers, granules, places):
    with open(SCRIPT, "w", encoding="ascii") as file:
        file.write(script(workers, granules, places))
    plain, more = words.split()[0], ["--workers", str(workers)] if words.startswith("race") else []
    chihome, other = measured([[PROGRAM, *words.split(), *more], [f"{BUILT}/plain", plain, *more]])
    ratios = [one / two for one, two in zip(chihome, other)]
    for name, its in [(f"chihome {words} {' '.join(more)}", chihome), (f"plain {plain} {' '.join(more)}", other), ("ratio", ratios)]:
        print(f"| {name.strip()} | {places} of {granules} |" + "".join(f" {it:.2f} |" for it in its), flush=True)


def show_attempts():
    """Nanoseconds for an attempt of each thread, the best and the median, and how many attempts of a million were not done."""
    programs = {"bare loop": [f"{BUILT}/attempts", "bare"], "plain Rust": [f"{BUILT}/attempts", "row"], "store": ["bench/out/time_attempts"]}
    times, left = collections.defaultdict(list), collections.Counter()
    for _ in range(ROUNDS):
        for name, program in programs.items():
            for threads, granules, taken, done in map(str.split, said(*program).splitlines()):
                times[threads, granules, name].append(int(taken) / ATTEMPTS)
                left[threads, granules, name] += int(threads) * ATTEMPTS - int(done)
    print(f"| threads | granules | {' | '.join(programs)} | store to plain Rust | store to bare loop | RetryAck |\n{'|---' * 8}|")
    for threads, granules in dict.fromkeys(it[:2] for it in times):
        both = {it: (min(times[threads, granules, it]), statistics.median_high(times[threads, granules, it])) for it in programs}
        ratios = [[one / two for one, two in zip(both["store"], both[it])] for it in ("plain Rust", "bare loop")]
        cells = [f"{one:.1f} / {two:.1f}" for one, two in both.values()] + [f"{one:.2f} / {two:.2f}" for one, two in ratios]
        print(f"| {threads} | {granules} | {' | '.join(cells)} | {left[threads, granules, 'plain Rust']} and {left[threads, granules, 'store']} |")


subprocess.run(["bench/build.sh"], check=True)
subprocess.run("bench/program.sh time_attempts attempts chi_fields chi_lanes chi_history chi_rule chi_bookstore".split(), check=True)
print(f"| {RUNS} runs of each, in turn | granules | {' | '.join(COLUMNS)} |\n{'|---' * 6}|")
for row in ROWS:
    show_row(*row)
print()
show_attempts()
