#!/usr/bin/env python3
"""Tries chihome on scripts by chance: scripts.py [COUNT [SEED [PROGRAM]]]

`chihome generate` writes them. Small ones have up to 12 requests, a quarter of them refused, and half of the scripts are then broken in
one place; a run or a race works them, over either store, and the examples first. One in a hundred has 4,096 requests, and is run. The
answer to each has to be the one that the plain program (bench/plain) gives: the same status, the same fault text alone on standard
error, and of a run the same transcript. A race's transcript has each request once, or with a `retry` before it, and as many memory
lines. The plain program's memory opens with zeros, and a run's transcript has to be that of memory.py too."""

import collections
import glob
import json
import os
import random
import subprocess
import sys
import time
from concurrent.futures import ThreadPoolExecutor

os.chdir(f"{os.path.dirname(os.path.abspath(__file__))}/../..")
sys.dont_write_bytecode = True

from memory import execute, granule_of


def bytes_of(name):
    with open(name, "rb") as file:
        return file.read()


COUNT, SEED = [int(it) for it in sys.argv[1:3]] + [10_000, time.time_ns()][len(sys.argv[1:3]) :]
PROGRAM = sys.argv[3] if len(sys.argv) > 3 else "crates/chi_home/out/chi_home"
PLAIN = "bench/out/release/plain"
# Where the script that was answered wrongly is left.
WRONG = "bench/out/wrong.json"
ADDRESSES = 2**52
# The greatest number of a requester by the task, and of granules by the store.
TASKS = {"run": 7, "race --workers 2": 2, "race --workers 4": 4}
STORES = {"book": 512, "lock": 8}
EXAMPLES = [it for it in map(bytes_of, sorted(glob.glob("examples/*.json"))) if b'"image"' not in it]
# The members that are numbers, and the first number that is past their bound.
PAST = [("base", 2**64), ("base", ADDRESSES), ("granules", 513), ("granules", 65536), ("src", 8), ("txn", 256), ("op", 256), ("size", 8)]
PAST += [("endian", 2), ("be", 65536)]


def answer_of(program, words, text=b""):
    """Returns the status, the output and the errors."""
    ran = subprocess.run([program, *words.split()], input=text, capture_output=True, timeout=60)
    return ran.returncode, ran.stdout, ran.stderr


def generated(**options):
    """A script by chance."""
    status, text, errors = answer_of(PROGRAM, "generate " + " ".join(f"--{name} {it}" for name, it in options.items()))
    if status:
        sys.exit(f"chihome generate {options}: {errors}")
    return text


def small(chance, requesters):
    granules = chance.randint(1, chance.choice([8, 512]))
    last = ADDRESSES - 64 * -(-granules // 8)
    base = chance.choice([64 * chance.randrange(64), last, 64 * chance.randrange(last // 64)])
    words = {"requests": chance.randrange(13), "refused": 25, "hot": chance.choice([0, 50]), "requesters": requesters}
    return generated(seed=chance.randrange(2**32), base=base, granules=granules, **words)


def large(chance):
    words = {"refused": chance.choice([0, 10, 10]), "hot": chance.choice([0, 25, 50, 75])}
    return generated(seed=chance.randrange(2**32), requests=4096, granules=chance.randint(1, 64), **words)


def past_bound(chance, text):
    """The text with a number of one of its members past its bound."""
    name, number = chance.choice(PAST)
    parts = text.split(f'"{name}":'.encode())
    if len(parts) > 1:
        at = chance.randrange(1, len(parts))
        parts[at] = str(number).encode() + parts[at].lstrip(b"0123456789")
    return f'"{name}":'.encode().join(parts)


def broken(chance, text):
    """The text with a bit flipped, cut, with a byte twice, or with a number past its bound."""
    at = chance.randrange(len(text))
    flipped = bytes([text[at] ^ 1 << chance.randrange(8)])
    ways = [text[:at] + flipped + text[at + 1 :], text[:at], text[: at + 1] + text[at:], past_bound(chance, text)]
    return chance.choice(ways)


def told(transcript):
    """The requests that a race tells of, in its order, each once where a `retry` stands before its completion; and its memory lines."""
    requests, granules, is_retried = [], 0, False
    for line in transcript.decode().splitlines():
        if line.startswith("m "):
            granules += 1
            continue
        request, is_completed = line.split(" ")[:6], " data " in line or line.endswith(" comp")
        if not (is_retried and is_completed and requests[-1] == request):
            requests.append(request)
        is_retried = line.endswith(" retry")
    return requests, granules


def wanted(task, store, text):
    """What the plain program answers, and the fault of a store that has too few granules."""
    status, out, errors = answer_of(PLAIN, task, text)
    if status == 0 and out.count(b"\nm ") + out.startswith(b"m ") > STORES[store]:
        return 3, b"", b"chihome: region is over one line\n"
    return status, out, errors


def is_of_memory(text, transcript):
    """Whether a run's transcript has what a memory of zeros answers to the accepted requests, and what they leave of it."""
    words, lines = collections.defaultdict(lambda: bytes(8)), transcript.decode().splitlines()
    for request, line in zip(json.loads(text)["requests"], lines):
        if " refused " not in line:
            words[granule_of(request)], reply = execute(words[granule_of(request)], request)
            if line.split(" ")[-1] != reply:
                return False
    left = [it.split(" ") for it in lines if it.startswith("m ")]
    return all(words[int(addr, 16)].hex() == word for _, addr, word in left)


def is_right(task, text, found, plain):
    if task.startswith("race") and found[0] == plain[0] == 0:
        return told(found[1]) == told(plain[1]) and found[2] == plain[2]
    return found == plain and (found[0] != 0 or is_of_memory(text, found[1]))


def tried(number):
    """Tries a script. Returns what the right answer was, and the script with its words where another was given."""
    chance = random.Random(f"{SEED}/{number}")
    task, store = chance.choice(list(TASKS)), chance.choice(list(STORES))
    if number < len(EXAMPLES):
        text = EXAMPLES[number]
    elif number % 100 == 99:
        task, store, text = "run", "book", large(chance)
    else:
        text = small(chance, TASKS[task] + 1)
        text = broken(chance, text) if chance.random() < 0.5 else text
    words = f"{task} --store {store} --attempts {chance.randint(1, 16)} --policy {chance.choice(['resend', 'return'])}"
    found, plain = answer_of(PROGRAM, words, text), wanted(task, store, text)
    kind = f"{task}: {plain[2].decode().strip() or 'a transcript'}"
    return kind, None if is_right(task, text, found, plain) else (number, words, text, found, plain)


def main():
    print(f"seed {SEED}, {COUNT} scripts")
    counts = collections.Counter()
    with ThreadPoolExecutor(len(os.sched_getaffinity(0))) as pool:
        for kind, wrong in pool.map(tried, range(COUNT)):
            counts[kind] += 1
            if wrong:
                number, words, text, found, plain = wrong
                with open(WRONG, "wb") as file:
                    file.write(text)
                pool.shutdown(cancel_futures=True)
                sys.exit(f"script {number}, `chihome {words}`: {found[0]} {found[2]}, and {plain[0]} {plain[2]} of the plain program\nthe script is {WRONG}")
    for kind, count in sorted(counts.items()):
        print(f"{count:6} {kind}")


main()
