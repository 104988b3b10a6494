#!/usr/bin/env python3
"""Times chicheck from file to answer: chicheck.py [SEED [GRANULES [REQUESTERS [OPERATIONS]]]]

The trace is of the traffic of traffic.py with 30 % reads, 15 % swaps, 15 % compares, the rest AtomicLoad ADD, of OPERATIONS for each
requester (500). It is checked as it is, and once with one reply changed; the best of five runs of each counts."""

import json
import os
import random
import subprocess
import sys
import time

os.chdir(f"{os.path.dirname(os.path.abspath(__file__))}/..")
sys.dont_write_bytecode = True

from traffic import ADD, BASE, WITH_COMPARES, packet, steps, traced

CHECKER = "crates/chi_check/out/chi_check"
SEED, GRANULES, REQUESTERS, COUNT = [int(it) for it in sys.argv[1:]] + [1, 512, 8, 500][len(sys.argv) - 1 :]


def best(name, requests):
    text = json.dumps({"base": BASE, "granules": GRANULES, "image": "0" * (16 * GRANULES), "final": b"".join(words).hex(), "requests": requests}).encode()
    times = []
    for _ in range(5):
        began = time.perf_counter()
        ran = subprocess.run([CHECKER, "explain"], input=text, capture_output=True, timeout=600)
        times.append(time.perf_counter() - began)
    first = ran.stdout.decode().split("\n")[0]
    print(f"{name}: {len(requests)} operations, {len(text)} bytes, {min(times) * 1000:.1f} ms, status {ran.returncode}, {first}")


chance, words = random.Random(SEED), [bytes(8)] * GRANULES
requests = list(traced(steps(chance, REQUESTERS * COUNT, words, REQUESTERS, mix=WITH_COMPARES)))
chance.shuffle(requests)
best("intact", requests)
broken = chance.choice([it for it in requests if it["op"] == ADD])
broken["reply"] = packet(broken["addr"], 999_999_999)
best("broken", requests)
