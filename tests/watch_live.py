#!/usr/bin/env python3
"""chicheck watch while its input is open, as a process: an answer while more could come, its line on a terminal, what it does where
memory, reads or writes fail (tests/faults.c), and 200 histories of tests/oracle/watch.py."""

import os
import re
import select
import signal
import subprocess
import sys
import tempfile
import time

os.chdir(f"{os.path.dirname(os.path.abspath(__file__))}/..")
sys.dont_write_bytecode = True

from lines import HIGH, LOST, LOW, MOST, READ, adds, answers, asks, counts, done, drops, example, forgets, found, holds, leaves, overlapping, sends, waits, without_reach
from process import CHECKER, build, end, fail_in_turn, faults_library, on_terminal, refuse_in_turn, run, told


class Open:
    """A run of chicheck whose input stays open."""

    def __init__(self, words, errors=subprocess.PIPE):
        self.ran = subprocess.Popen([CHECKER, *words], stdin=subprocess.PIPE, stdout=subprocess.PIPE, stderr=errors, bufsize=0)

    def write(self, text):
        """Writes lines, or answers that nothing reads them any more."""
        try:
            self.ran.stdin.write(text.encode())
            return True
        except BrokenPipeError:
            return False

    def answers_within(self, seconds):
        """Whether something stands on the output or the errors by then, or they are closed."""
        files = [it for it in (self.ran.stdout, self.ran.stderr) if it]
        return bool(select.select(files, [], [], seconds)[0])

    def end(self):
        """Waits for the end, with the input open. Returns the status, the output and the errors."""
        try:
            status = self.ran.wait(20)
        except subprocess.TimeoutExpired:
            self.ran.kill()
            status = None
        found = [it.read() if it else b"" for it in (self.ran.stdout, self.ran.stderr)]
        is_read = self.write("{}\n")
        told(f"an input that is read after the end: {status}", not is_read)
        self.ran.stdin.close()
        return (status, *found)

NONE = "is of no outstanding request"


def while_more_could_come():
    """A line is answered before another one is written, and before the input is closed; and nothing is before that. A granule
    that is not explained is found by the first line of a later time."""
    answer = found((HIGH, 4)) + counts(2)
    for case, words, before, last, wanted in [
        ("a granule that is not explained", "watch", LOST, adds(50, 9), (1, answer, b"")),
        ("a fault", "watch", done(10, 0) + adds(30, 0), drops(40, 1), (3, "", f"chicheck: line 4 {NONE}\n".encode())),
        ("a fault", "watch --keep-going", done(10, 0), "{\n", (3, "", b"chicheck: line 3 is not JSON\n")),
    ]:
        it = Open(words.split())
        for text in before.splitlines(True):
            it.write(text)
        told(f"{case}, and an answer before it", not it.answers_within(0.2))
        it.write(last[:-1])
        told(f"{case}, and an answer to part of its line", not it.answers_within(0.2))
        it.write("\n")
        status, out, errors = it.end() if it.answers_within(20) else (None, b"", b"")
        told(f"{case} by {words} while the input is open", (status, without_reach(out), errors) == wanted)
    it = Open(["watch", "--keep-going"])
    it.write(LOST)
    told("an answer though it keeps going", not it.answers_within(0.2))
    it.ran.stdin.close()
    ended = (it.ran.wait(20), without_reach(it.ran.stdout.read()), it.ran.stderr.read())
    told("an answer at the end of the input", ended == (1, answer, b""))


def told_when_found():
    """A granule is told by the first line of a later time, also where the run keeps going, and stays told where that is ended."""
    for ending in [signal.SIGTERM, signal.SIGINT, signal.SIGKILL, None]:
        it = Open(["watch", "--keep-going"])
        it.write(LOST)
        told("a granule within its time", not it.answers_within(0.2))
        it.write(adds(50, 9))
        answer = os.read(it.ran.stdout.fileno(), 65536) if it.answers_within(20) else b""
        told(f"a granule when it is found: {answer}", without_reach(answer) == found((HIGH, 4)))
        if ending:
            it.ran.send_signal(ending)
        it.ran.stdin.close()
        rest = it.ran.stdout.read().decode()
        told(f"after {ending}: {rest}", rest == ("" if ending else counts(2, 1, waiting=waits(5, 50, "reply"))) and it.ran.wait(20) == (-ending if ending else 1))
        it.ran.stdout.close()
        it.ran.stderr.close()


def writer_without_end():
    """One that writes on and on is told when the answer is given."""
    it = Open(["watch"])
    for at in range(1000):
        told("a writer that is right", it.write(done(at, at)))
    it.write(done(2000, 0))
    until = time.monotonic() + 20
    while it.write(done(3000, 0, READ)) and time.monotonic() < until:
        pass
    told("a writer that goes on after the answer", time.monotonic() < until and it.end()[0] == 1)


def shown_on(screen, seconds):
    """What stands on a terminal, as soon as something does."""
    return os.read(screen, 1 << 16) if select.select([screen], [], [], seconds)[0] else b""

LINE = rb"\rchicheck: (\d+) operations, (\d+) granules, (\d+) open, time (\d+)\x1b\[K"


def terminal():
    """How far it is shows on a terminal once a second has gone by, is written over, and is gone before the answer."""
    screen, line_of_screen = os.openpty()
    it, shown, began, first, count = Open(["watch"], line_of_screen), b"", time.monotonic(), 0, 0
    it.write(adds(0, 1, LOW) + adds(0, 2, 0x2000) + asks(0, 3, addr=0x3000))
    while shown.count(b"\r") < 3 and time.monotonic() < began + 20:
        it.write("".join(done(at, at) for at in range(count, count + 100)))
        count += 100
        shown += shown_on(screen, 0.01)
        first = first or shown and time.monotonic() - began
    told(f"a line after {first} seconds", first and first >= 0.9)
    it.write(done(count, count + 7, READ) + adds(count + 10, count + 8))
    status, out, _ = it.end()
    while part := shown_on(screen, 0.2):
        shown += part
    os.close(line_of_screen)
    os.close(screen)
    told(f"the answer beside a line on a terminal: {out}", (status, without_reach(out)) == (1, terminal_answer(count)))
    told(f"on a terminal: {shown}", re.fullmatch(rb"(" + LINE + rb")+\r\x1b\[K", shown))
    numbers = [[int(it) for it in line] for line in re.findall(LINE, shown)]
    told(f"numbers on a terminal: {numbers} of {count}", all(is_state(*it, count) for it in numbers) and numbers == sorted(numbers))


def terminal_answer(count):
    return found((HIGH, 5 + 2 * count)) + counts(count + 1, 3, 4)


def is_state(ended, granules, outstanding, at, most):
    """Whether so much can be told by that time: each operation ends as the next one starts, the first of them at 1."""
    return 0 < ended <= most and granules == 4 and outstanding in (3, 4) and at in (ended, ended + 1)


def terminal_by_a_clock(preload):
    """The same by a clock that goes on by 400 ms each time that it is read, and nothing where no terminal is."""
    text = "".join(done(at, at) for at in range(50000)) + done(50000, 7)
    faults = {"LD_PRELOAD": preload, "FAULT_CLOCK": "400"}
    elsewhere = run(CHECKER, ["watch"], text, **faults)
    shown = (elsewhere[0], without_reach(elsewhere[1]), elsewhere[2])
    told(f"where no terminal is: {elsewhere[2]}", shown == (1, found((HIGH, 100002)) + counts(50001), b""))
    status, out, shown = on_terminal(["watch"], text, **faults)
    told(f"on a terminal by a clock: {shown[:300]}", (status, out) == elsewhere[:2] and re.fullmatch(rb"(" + LINE + rb")+\r\x1b\[K", shown))
    status, out, shown = on_terminal(["watch"], LOST)
    told(f"on a terminal at once: {shown}", (status, without_reach(out), shown) == (1, found((HIGH, 4)) + counts(2), b""))


def failing(preload):
    """Each block of memory, each read and each write fails in turn."""
    every = holds(1, 0) + asks(2, 7, addr=LOW) + adds(3, 8) + answers(4, 8, 0) + forgets(5, 0x2000, 20) + adds(6, 9) + drops(7, 9)
    every += sends(8, 7, 1, LOW) + leaves(9, 1) + done(10, 3, addr=0x3000)
    for words, text in [
        ("watch", example("two_adds")),
        ("watch", example("lost_update")),
        ("watch", done(10, 0) + "{\n"),
        ("watch --keep-going", example("lost_update") + every.replace('"time": ', '"time": 10').replace("4104", "8200")),
        ("watch --keep-going", example("lost_update") + "{\n"),
        ("watch --save /dev/null", example("lost_update")),
        ("watch --save /dev/null", done(10, 0) + leaves(20, 7)),
        ("watch --html /dev/null", example("lost_update")),
        ("watch --save /dev/null --html /dev/null", done(10, 0) + leaves(20, 7)),
        ("watch", overlapping(5, LOW) + leaves(200, MOST, LOW)),
        ("explain --events --witness", every),
        ("explain --events", example("lost_update")),
    ]:
        refuse_in_turn("events_or_no_memory", preload, words.split(), text)
    fail_in_turn(preload, ["watch"], example("lost_update"))
    fail_in_turn(preload, ["watch", "--keep-going"], example("two_adds"))
    fail_in_turn(preload, ["watch", "--keep-going"], example("lost_update") + "{\n")
    fail_in_turn(preload, ["explain", "--events"], example("lost_update"))


def histories():
    ran = subprocess.run(["tests/oracle/watch.py", "200", "7"], env={**os.environ, "CHICHECK": CHECKER}, capture_output=True, text=True, timeout=600)
    last = ran.stdout.splitlines()[-1:]
    told(f"histories by chance: {ran.stdout}{ran.stderr}", ran.returncode == 0 and last == ["200 histories, 0 disagreed on"])


subprocess.run([".ci/need", "cc:gcc"], check=True)
build("chicheck")
for tried in [while_more_could_come, told_when_found, writer_without_end, terminal]:
    tried()
with tempfile.TemporaryDirectory() as folder:
    preload = faults_library(folder)
    terminal_by_a_clock(preload)
    failing(preload)
histories()
end(2000)
