#!/usr/bin/env python3
"""chihome where memory, threads, reads or writes fail. `serde_json` and `clap` take the global allocator, so no test of a
crate can refuse them a block: here a small C library is preloaded (faults.c) that refuses the N-th block, or each from the
N-th on, and fails the N-th read or write, for each N until the program asks for fewer.

Right is the whole transcript with status 0; where a block was refused, status 4 with `no memory` and whole lines that
begin the transcript (of a race: the list of each requester), and never a memory line; where a device failed, status 5
with its text, and what was taken before it; where both, status 4, and what was taken of these lines."""

import itertools
import os
import subprocess
import sys
import tempfile
from concurrent.futures import ThreadPoolExecutor

os.chdir(f"{os.path.dirname(os.path.abspath(__file__))}/..")
sys.dont_write_bytecode = True

from process import HOME, build, end, faults_library, run, told

NO_MEMORY, READ_FAULT, WRITE_FAULT = [
    f"chihome: {it}\n".encode() for it in ("no memory", "input could not be read", "output could not be written")
]
STORES = ["book", "lock"]
# How many blocks are refused beside a failed write at each end of a run, and how many writes are failed.
FIRST = 10


class Faulty:
    """Some words of chihome, a script, and the requesters in the order of the transcript's lists. It keeps what was told
    of its runs, pairs of a case and whether it holds."""

    def __init__(self, folder, script, words, order="0"):
        self.name, self.words, self.order, self.told = f"chihome {words} of {script}", words.split(), order.split(), []
        if script == "forty":
            first = self.read("fetch_add")
            request = first[first.index(b"[") + 1 : first.rindex(b"]")]
            self.text = first.replace(request, b",".join([request] * 40))
        else:
            self.text = self.read(script)
        self.faults = {"LD_PRELOAD": f"{folder}/faults.so"}
        self.met = tempfile.mkdtemp(dir=folder) + "/met"
        status, self.whole, errors = run(HOME, self.words, self.text)
        self.tell("with nothing refused", (status, errors) == (0, b""))

    @staticmethod
    def read(script):
        with open(f"examples/{script}.json", "rb") as file:
            return file.read()

    def tell(self, case, holds):
        self.told.append((f"{self.name}: {case}", holds))

    def run(self, **faults):
        """Returns the status, the output and the errors with these faults, and whether one of them was met."""
        faults = {f"FAULT_{name}": str(value) for name, value in faults.items()}
        found = run(HOME, self.words, self.text, **self.faults, FAULT_MET=self.met, **faults)
        is_met = os.path.exists(self.met)
        if is_met:
            os.remove(self.met)
        return *found, is_met

    def begins(self, out):
        """Whether the output is whole lines that begin the transcript, by requesters in the order of the lists."""
        wanted, lines = [], out.splitlines(keepends=True)
        for src in self.order:
            mine = f"{src} ".encode()
            count = sum(it.startswith(mine) for it in lines)
            wanted += [it for it in self.whole.splitlines(keepends=True) if it.startswith(mine)][:count]
        return lines == wanted

    def refuse_in_turn(self, on):
        """Refuses blocks until none is met, each alone or with all after it. Returns status and output by block."""
        found = []
        for block in itertools.count(1):
            status, out, errors, is_met = self.run(MEMORY=block, ON=int(on))
            if not is_met:
                self.tell("no block refused", (status, out, errors) == (0, self.whole, b"") and block > 1)
                return found
            found.append((status, out))
            right = out == self.whole and not errors if status == 0 else self.begins(out) and errors == NO_MEMORY
            self.tell(f"block {block} refused: {status} {errors} {out}", right and status in (0, 4))

    def refuse_forty(self, on):
        """The list of lines is begun with room for 4 and then doubled, each time that two more have no room in it."""
        counts = [out.count(b"\n") for status, out in self.refuse_in_turn(on) if status == 4]
        self.tell(f"lines written: {counts}", [it for it, _ in itertools.groupby(counts)] == [0, 3, 7, 15, 31])

    def refuse_and_fail(self):
        """Refuses one of the first or last blocks, each of which alone ends the program or does not, and fails one of the
        first writes, one byte a call: the status is that of the block, and what was written begins the transcript."""
        statuses, cut = [status for status, _ in self.refuse_in_turn(False)], 0
        blocks = range(1, len(statuses) + 1)
        for block, write in itertools.product([*blocks[:FIRST], *blocks[-FIRST:]], range(1, FIRST + 1)):
            status, out, errors, _ = self.run(MEMORY=block, WRITE=write, BYTES=2)
            wanted = (4, NO_MEMORY) if statuses[block - 1] == 4 else (5, WRITE_FAULT)
            right = (status, errors) == wanted and len(out) < write and self.whole.startswith(out)
            self.tell(f"block {block} refused, write {write} failed: {status} {errors} {out}", right)
            cut += status == 4 and out != b""
        self.tell("no work without memory met a failed write", cut > 0)

    def fail_in_turn(self, device, text):
        """Fails a device by each of its calls in turn, one byte a call."""
        for call in itertools.count(1):
            status, out, errors, is_met = self.run(**{device: call, "BYTES": 1})
            if not is_met:
                self.tell(f"one byte a {device}", (status, out, errors) == (0, self.whole, b"") and call > 100)
                return
            taken = self.whole[: call - 1] if device == "WRITE" else b""
            self.tell(f"{device} {call} failed: {status} {errors} {out}", (status, out, errors) == (5, taken, text))

    def refuse_threads(self):
        """Gives a race no thread: its requests are executed by one."""
        self.tell("no thread", self.run(THREADS=1) == (0, self.whole, b"", True))


def plans(folder):
    """What is tried: calls that return what was told."""

    def of(script, words, how, *values, order="0"):
        def tried():
            faulty = Faulty(folder, script, words, order)
            getattr(faulty, how)(*values)
            return faulty.told

        return tried

    # None of these writes anything before it has the whole text, and generate reads nothing.
    for on, words in itertools.product([False, True], ["generate --requests 3 --image", "run --trace", "run --format json", "race --format json"]):
        yield of("fetch_add", words, "refuse_in_turn", on, order="")
    yield of("fetch_add", "generate --requests 3", "fail_in_turn", "WRITE", WRITE_FAULT)
    four = "race_of_four", "--workers 4", "1 2 3 4 0"
    for store in STORES:
        run_words, race_words = f"run --store {store}", f"race --store {store}"
        for task in run_words, race_words:
            yield of("forty", task, "refuse_and_fail")
        for on in False, True:
            yield of("forty", run_words, "refuse_forty", on)
            for task in run_words, race_words:
                yield of("fetch_add", task, "refuse_in_turn", on)
                yield of("race", task, "refuse_in_turn", on, order="1 2 0")
            yield of(four[0], f"{race_words} {four[1]}", "refuse_in_turn", on, order=four[2])
        yield of("fetch_add", run_words, "fail_in_turn", "WRITE", WRITE_FAULT)
        yield of("race", race_words, "fail_in_turn", "WRITE", WRITE_FAULT)
        yield of(four[0], f"{race_words} {four[1]}", "fail_in_turn", "WRITE", WRITE_FAULT)
        yield of("race", race_words, "refuse_threads")
        yield of(four[0], f"{race_words} {four[1]}", "refuse_threads")
    yield of("fetch_add", "run --store book", "fail_in_turn", "READ", READ_FAULT)
    yield of("race", "race --store lock", "fail_in_turn", "READ", READ_FAULT)


subprocess.run([".ci/need", "cc:gcc"], check=True)
build("chihome")
with tempfile.TemporaryDirectory() as folder, ThreadPoolExecutor(len(os.sched_getaffinity(0))) as pool:
    faults_library(folder)
    for those in pool.map(lambda it: it(), plans(folder)):
        for case, holds in those:
            told(case, holds)
end(9000)
