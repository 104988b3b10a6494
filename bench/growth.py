#!/usr/bin/env python3
"""How what chicheck needs grows with its input: growth.py [--instructions] [CHECKER [OPERATIONS]]

Each row is timed from file to answer at so many operations, twice and four times as many, the best of three runs of each, with the start
of a Python that tells the most memory. An exponent is that between the first and the last: 1 is in proportion, 2 is with the square. With
--instructions valgrind counts those of a row at the first and the last number, and a row that grows faster than it may fails."""

import json
import math
import os
import re
import shutil
import subprocess
import sys
import tempfile
import time

sys.dont_write_bytecode = True

from traffic import ADD, READ, events, of_trace, packet, request

TOP = f"{os.path.dirname(os.path.abspath(__file__))}/.."
COUNTS = "--instructions" in sys.argv[1:]
WORDS = [it for it in sys.argv[1:] if it != "--instructions"]
CHECKER = os.path.abspath(WORDS[0]) if WORDS else f"{TOP}/crates/chi_check/out/chi_check"
FIRST = int(WORDS[1]) if len(WORDS) > 1 else 250 if COUNTS else 10_000


def addition(granule, found, start, **more):
    """An AtomicLoad ADD of 1 as a trace has it, with the word that its reply says it found."""
    reply = {} if found is None else {"reply": packet(8 * granule, found)}
    return request(ADD, 8 * granule, 1, start % 8) | {"start": start} | reply | more


def trace(requests):
    return json.dumps({"requests": requests})


def watched(number, time, granule, found):
    """The events of an AtomicLoad ADD of 1."""
    it = request(ADD, 8 * granule, 1, number % 8)
    return [*events(time, number, it, None), *events(time + 1, number, it, packet(8 * granule, found))]


def hung(number, granule):
    """The event of a read that never ends."""
    return events(0, number, request(READ, 8 * granule, 0, 9), None)


def lines(told):
    return "".join(json.dumps(it) + "\n" for it in told)


def around(count):
    """One granule, whose last answer is wrong: two in five of its operations are shown."""
    found = [*range(count - 1), count]
    return trace([addition(0, it, 10 * place, end=10 * place + 5) for place, it in enumerate(found)]), ["explain", "--around", str(2 * count // 5)]


def page(count):
    """As many granules as operations."""
    return trace([addition(it, 0, 10 * it, end=10 * it + 5) for it in range(count)]), ["explain", "--html", os.devnull]


def first(count):
    """Half as many granules, each with a wrong answer: the higher ones stop being explained first."""
    granules = count // 2
    starts = [20 * (granules - it) for it in range(granules)]
    right = [addition(it, 0, start, end=start + 3) for it, start in enumerate(starts)]
    return trace(right + [addition(it, 7, start + 5, end=start + 8) for it, start in enumerate(starts)]), ["explain"]


def hanging(count):
    """One granule, where a read that comes before all others never ends."""
    read = of_trace(request(READ, 0, 0, 9), start=0)
    return trace([read] + [addition(0, it, 10 * it + 1, end=10 * it + 6) for it in range(count)]), ["explain"]


def hanging_watched(count):
    """The same as events."""
    return lines(hung(count, 0) + [event for it in range(count) for event in watched(it, 2 * it + 1, 0, it)]), ["watch"]


def outstanding(count):
    """Operations on one granule while a quarter as many reads of others never end."""
    reads = [event for it in range(count // 4) for event in hung(count + it, it + 1)]
    return lines(reads + [event for it in range(count) for event in watched(it, 2 * it + 1, 0, it)]), ["watch"]


def granules(count):
    """As many granules as operations, of events."""
    return lines([event for it in range(count) for event in watched(it, 2 * it, it, 0)]), ["watch"]


def settled(count):
    """The same, of which nothing is to be shown: a granule that is settled is kept as its word."""
    return lines([event for it in range(count) for event in watched(it, 2 * it, it, 0)]), ["watch", "--around", "0"]


def usual(count):
    """Operations on 64 granules, one after the other."""
    return trace([addition(it % 64, it // 64, 10 * it, end=10 * it + 5) for it in range(count)]), ["explain"]


def still_open(count):
    """Operations of one granule that never end."""
    return trace([addition(0, None, 10 * it) for it in range(count)]), ["cover"]


# The exponent of instructions that a row may have at most.
MOST = 1.1
ROWS = [around, page, first, hanging, hanging_watched, outstanding, granules, settled, usual, still_open]


def exponent(least, most):
    return math.log(most / least, 4)


# Starts a program, and says how many kilobytes it had at most: the memory of what starts it counts too.
STARTED = "import os, sys; print(os.wait4(os.spawnvp(os.P_NOWAIT, sys.argv[1], sys.argv[1:]), 0)[2].ru_maxrss, file=sys.stderr)"


def needs(file, words):
    """The seconds of the best of three runs, and the most kilobytes."""
    times, most = [], 0
    for _ in range(3):
        file.seek(0)
        began = time.perf_counter()
        started = [sys.executable, "-ISc", STARTED, CHECKER, *words]
        said = subprocess.run(started, stdin=file, stdout=subprocess.DEVNULL, stderr=subprocess.PIPE, text=True).stderr
        times.append(time.perf_counter() - began)
        most = max(most, int(said.split()[-1]))
    return min(times), most


def instructions(file, words):
    counted = ["valgrind", "--tool=callgrind", "--callgrind-out-file=/dev/null", CHECKER, *words]
    said = subprocess.run(counted, stdin=file, stdout=subprocess.DEVNULL, stderr=subprocess.PIPE, text=True).stderr
    return int(re.search(r"Collected : (\d+)", said)[1])


def measured(row, count, measure):
    text, words = row(count)
    with tempfile.TemporaryFile() as file:
        file.write(text.encode())
        file.seek(0)
        return measure(file, words)


def count_instructions():
    """Whether no row grows faster than it may."""
    if not shutil.which("valgrind"):
        print("growth: skipped, since valgrind is not on the path")
        return True
    fast = []
    for row in ROWS:
        found = exponent(*(measured(row, FIRST * more, instructions) for more in (1, 4)))
        if found > MOST:
            fast.append(f"growth: {row.__name__} grows with exponent {found:.2f}, and may with {MOST}")
    print("\n".join(fast) or f"growth: {len(ROWS)} rows grow no faster than they may")
    return not fast


def show():
    for row in ROWS:
        seconds, memory = zip(*(measured(row, FIRST * more, needs) for more in (1, 2, 4)))
        shown = "  ".join(f"{it:7.3f} s" for it in seconds) + "  " + "  ".join(f"{it / 1024:6.1f} MB" for it in memory)
        print(f"{row.__name__:15} {shown}  exponents {exponent(seconds[0], seconds[2]):.2f} and {exponent(memory[0], memory[2]):.2f}", flush=True)
    return True


sys.exit(0 if (count_instructions if COUNTS else show)() else 1)
