#!/usr/bin/env python3
"""The program chi_soak, and chicheck watch on what it tells: soak [SECONDS]

Four workers race over the lock-free store for ten seconds, and nothing that they are told is unexplained; what is settled is
forgotten, so the memory of chicheck stays small. A race of one second has requests of each kind, byte order and length. A lost
exchange, once it is planted, is found long before the time is over."""

import os
import re
import subprocess
import sys
import time

os.chdir(f"{os.path.dirname(os.path.abspath(__file__))}/..")
sys.dont_write_bytecode = True

from process import CHECKER, end, told

SOAK = "crates/chi_soak/out/chi_soak"
SECONDS = int(sys.argv[1]) if len(sys.argv) > 1 else 10
ALU = ["ADD", "CLR", "EOR", "SET", "SMAX", "SMIN", "UMAX", "UMIN"]
# The most memory that chicheck may have at once, in kilobytes; the operations of ten seconds would take more than ten times as much.
MEMORY = 8000
KINDS = ["ReadNoSnp", "WriteNoSnpPtl", "AtomicSwap", "AtomicCompare", *(f"Atomic{it}.{op}" for it in ("Store", "Load") for op in ALU)]


def peak(process):
    """The most memory that a process had at once, in kilobytes; 0 where it has ended."""
    with open(f"/proc/{process.pid}/status", encoding="ascii") as file:
        return next((int(it.split()[1]) for it in file if it.startswith("VmHWM:")), 0)


def watched(*words):
    """The statuses of both programs, the first line of the answer, how many operations ended, the seconds that went by, and the most
    memory that chicheck had at once."""
    began, memory = time.monotonic(), 0
    soak = subprocess.Popen([SOAK, *words], stdout=subprocess.PIPE, stderr=subprocess.PIPE)
    checker = subprocess.Popen([CHECKER, "watch"], stdin=soak.stdout, stdout=subprocess.PIPE, stderr=subprocess.DEVNULL)
    soak.stdout.close()
    while checker.poll() is None and time.monotonic() - began < 2 * SECONDS + 60:
        memory = max(memory, peak(checker))
        time.sleep(0.05)
    checker.kill()
    lines = checker.communicate()[0].decode().split("\n")
    soak.stderr.read()
    ended = [int(it.split(": ")[1]) for it in lines if it.startswith("  operations that ended: ")]
    return soak.wait(60), checker.returncode, lines[0], ended, time.monotonic() - began, memory


def counted():
    """How many operations a race of one second has of each kind, byte order and length, as chicheck cover counts them."""
    soak = subprocess.Popen([SOAK, "1"], stdout=subprocess.PIPE)
    checker = subprocess.run([CHECKER, "cover", "--events"], stdin=soak.stdout, capture_output=True, timeout=120)
    soak.stdout.close()
    rows = [line.split(": ") for line in checker.stdout.decode().splitlines()]
    counts = {row[0]: sum(map(int, row[1].split())) for row in rows if row[0].split(" ")[0] in KINDS and re.fullmatch(r"[\d ]+", row[-1])}
    return soak.wait(60), checker.returncode, counts


status, answer, counts = counted()
wanted = {f"{kind} {order} {length}" for kind in KINDS for order in ("little", "big") for length in (1, 2, 4, 8)}
told(f"requests of each kind: {status}, {answer}, {counts}", (status, answer) == (0, 0) and {it for it in counts if counts[it]} >= wanted)
status, answer, first, ended, seconds, memory = watched(str(SECONDS))
told(f"a race of {SECONDS} seconds: {status}, {answer}, {first}, {ended}", (status, answer, first) == (0, 0, "explained") and ended[0] > 0)
told(f"what is settled is forgotten: {memory} kB", memory < MEMORY)
print(f"soak: {ended[0]} operations in {seconds:.0f} s, within {memory} kB")
status, answer, first, ended, seconds, _ = watched(str(SECONDS), "--plant")
told(f"a lost exchange: {status}, {answer}, {first}", (status, answer) == (5, 1) and first.startswith("not explained: granule "))
told(f"a lost exchange is found within {seconds:.2f} seconds", seconds < SECONDS)
print(f"soak: a lost exchange is found after {seconds:.2f} s")
end(5)
