#!/usr/bin/env python3
"""The files that chicheck watch reads and writes, as a process: events by the name of a file or of a pipe, the lines that it saves, its
pages, and devices that fail."""

import os
import subprocess
import sys
import tempfile

os.chdir(f"{os.path.dirname(os.path.abspath(__file__))}/..")
sys.dont_write_bytecode = True

from lines import HIGH, LOST, LOW, adds, answers, asks, counts, done, drops, ends, example, forgets, found, holds, leaves, sends, without_reach
from process import CHECKER, build, end, run, told, wants


# Runs that list no granule, each with its words, its events and its status.
UNLISTED = [
    ("explained", ["watch"], example("two_adds"), 0),
    ("undecided", ["watch", "--budget", "0"], adds(10, 0) + adds(11, 1) + answers(12, 0, 1) + answers(13, 1, 0), 6),
    ("required and missing", ["watch", "--require-end"], done(10, 0), 1),
    ("a fault", ["watch"], f"{adds(10, 0)}{{\n", 3),
    ("a fault after a granule was found", ["watch", "--keep-going"], LOST + adds(50, 9) + "{\n", 3),
]
# Events of a granule that is listed, and what is written by the line at which it is found.
LISTED = [("found by a line", LOST, found((HIGH, 4))), ("found at the end", done(10, 0) + leaves(20, 7), "")]
# Events of two granules that come one between the other, with numbers that both have in turn; and those of the one that is not explained.
RIGHT = holds(1, 0, LOW), asks(10, 7, addr=LOW), sends(11, 7, addr=LOW), answers(12, 7, 0, LOW), forgets(13, LOW, 8)
WRONG = holds(1, 0), adds(10, 0), answers(11, 0, 0), adds(12, 7), answers(14, 7, 0)
TWO = WRONG[0] + RIGHT[0] + RIGHT[1] + WRONG[1] + RIGHT[2] + WRONG[2] + RIGHT[3] + WRONG[3] + RIGHT[4] + WRONG[4]


def devices():
    """An input that cannot be read, and an output that cannot be written."""
    for case, files, fault in [
        ("a folder", {"stdin": os.open("examples", os.O_RDONLY)}, "input could not be read"),
        ("a full device", {"stdin": subprocess.DEVNULL, "stdout": os.open("/dev/full", os.O_WRONLY)}, "output could not be written"),
    ]:
        ran = subprocess.run([CHECKER, "watch"], stderr=subprocess.PIPE, timeout=60, **{"stdout": subprocess.DEVNULL, **files})
        told(f"{case}: {ran}", (ran.returncode, ran.stderr) == (5, f"chicheck: {fault}\n".encode()))


def named(folder):
    """Events are read from the file or the named pipe that is named, as they come, and the standard input is not then; a fault names
    the file, also after what was found."""
    wants("a file of events", ["watch", "examples/events/two_adds.jsonl"], b"no event", 0, f"explained\n{counts(3, 0, 2)}")
    path = f"{folder}/cut.jsonl"
    with open(path, "w", encoding="ascii") as file:
        file.write(LOST + adds(50, 9) + "{")
    for words, out, status, fault in [
        ([f"{folder}/none.jsonl"], "", 5, f"{folder}/none.jsonl: input could not be read"),
        (["README.md"], "", 3, "README.md: line 1 is not JSON"),
        (["--keep-going", path], found((HIGH, 4)), 3, f"{path}: line 6 is not JSON"),
    ]:
        ended, answer, errors = run(CHECKER, ["watch", *words], b"")
        told(f"a file: {words}: {answer} {errors}", (ended, without_reach(answer), errors) == (status, out, f"chicheck: {fault}\n".encode()))
    pipe = f"{folder}/events"
    os.mkfifo(pipe)
    with subprocess.Popen([CHECKER, "watch", pipe], stdin=subprocess.DEVNULL, stdout=subprocess.PIPE) as ran:
        with open(pipe, "w", encoding="ascii") as file:
            file.write(LOST + adds(50, 9))
            file.flush()
            answer = ran.stdout.read()
        told(f"a named pipe that stays open: {answer}", (ran.wait(20), without_reach(answer)) == (1, found((HIGH, 4)) + counts(2)))


def saves(case, text, granule, lines, folder, words="watch"):
    """The lines that are saved are these, of these events the ones that tell of the granule; and watch and explain find it in them."""
    path = f"{folder}/saved.jsonl"
    status, answer, errors = run(CHECKER, [*words.split(), "--save", path], text)
    told(f"{case}: {status}, {answer}, {errors}", (status, answer, errors) == (1, run(CHECKER, words.split(), text)[1], b""))
    with open(path, "rb") as file:
        told(f"{case}: the lines", file.read() == lines.encode())
    first = f"not explained: granule {granule:016x}\n".encode()
    for reader in (["watch"], ["explain", "--events"]):
        found = run(CHECKER, [*reader, path], b"")
        told(f"{case}: {reader} of the lines: {found}", found[0] == 1 and found[1].startswith(first) and found[1].count(b"not explained") == 1 and not found[2])
    os.remove(path)


def saved(folder):
    """The lines that tell of the granule that is listed first are written to a file: of two granules that come one between the other,
    with numbers that both have in turn, up to the time by which it was found."""
    saves("two granules", TWO, HIGH, "".join(WRONG), folder)
    saves("without a line feed after the last line", TWO[:-1], HIGH, "".join(WRONG)[:-1], folder)
    saves("with blank lines", TWO + " \n\n", HIGH, "".join(WRONG), folder)
    saves("not what comes later", TWO + adds(15, 8), HIGH, "".join(WRONG), folder)
    last = "".join(WRONG) + drops(14, 9) + adds(14, 8) + ends(14)
    dropped = TWO.replace(WRONG[3], WRONG[3] + adds(12, 9)) + drops(14, 9) + adds(14, 8) + ends(14)
    saves("all of the time at which it was found", dropped, HIGH, last.replace(WRONG[3], WRONG[3] + adds(12, 9)), folder)
    saves("with --keep-going what comes later too", TWO + done(20, 2, number=3) + ends(30), HIGH, "".join(WRONG) + done(20, 2, number=3) + ends(30), folder, "watch --keep-going")
    both = done(10, 3) + done(20, 5, addr=LOW) + ends(30)
    saves("the first of two", both, HIGH, done(10, 3) + ends(30), folder, "watch --keep-going")
    at_end = done(10, 0, addr=LOW) + leaves(20, 7, LOW) + done(30, None) + ends(40)
    saves("at the end", at_end, LOW, done(10, 0, addr=LOW) + leaves(20, 7, LOW) + ends(40), folder)
    path, none = f"{folder}/saved.jsonl", f"{folder}/none/saved.jsonl"
    for case, words, events, status in UNLISTED:
        wanted = run(CHECKER, words, events)
        for where in (path, none):
            ended = run(CHECKER, [*words, "--save", where], events)
            told(f"{case}: {ended}", ended == wanted and ended[0] == status and not os.path.exists(where))
    for case, events, out in LISTED:
        for words in (["watch"], ["watch", "--keep-going"]):
            status, answer, errors = run(CHECKER, [*words, "--save", none], events)
            told(f"{case}, to no folder: {status}, {answer}, {errors}", (status, without_reach(answer), errors) == (5, out, b"chicheck: lines could not be saved\n"))


def bytes_of(path):
    with open(path, "rb") as file:
        return file.read()


def shows(case, text, granule, read, folder, words="watch", budget=()):
    """The page is the one that explain makes of this granule, and of the lines that were read."""
    made, wanted = f"{folder}/made.html", f"{folder}/wanted.html"
    words = [*words.split(), *budget]
    status, answer, errors = run(CHECKER, [*words, "--html", made], text)
    told(f"{case}: {status}, {answer}, {errors}", (status, answer, errors) == (1, run(CHECKER, words, text)[1], b""))
    run(CHECKER, ["explain", "--events", "--granule", str(granule), *budget, "--html", wanted], read)
    told(f"{case}: the page", bytes_of(made) == bytes_of(wanted) and f"{granule:016x}".encode() in bytes_of(made))
    os.remove(made)
    os.remove(wanted)


def shown(folder):
    """A page is made of the granule that is listed first, by a line or at the end, of the lines that were read by then; after the
    file of its lines, where that is asked for too; and none where no granule is listed."""
    shows("a page of two granules", TWO, HIGH, TWO, folder)
    shows("without a line feed after the last line", TWO[:-1], HIGH, TWO, folder)
    shows("with blank lines", TWO + " \n\n", HIGH, TWO, folder)
    shows("not what comes later", TWO + adds(15, 8), HIGH, TWO, folder)
    last = TWO.replace(WRONG[3], WRONG[3] + adds(12, 9)) + drops(14, 9) + adds(14, 8) + ends(14)
    shows("all of the time at which it was found", last, HIGH, last, folder)
    many = TWO + done(20, 2, number=3) + ends(30)
    shows("with --keep-going what comes later too", many, HIGH, many, folder, "watch --keep-going")
    both = done(10, 3) + done(20, 5, addr=LOW) + ends(30)
    shows("the first of two", both, HIGH, both, folder, "watch --keep-going")
    at_end = done(10, 0, addr=LOW) + leaves(20, 7, LOW) + done(30, None) + ends(40)
    shows("at the end", at_end, LOW, at_end, folder)
    lost = example("lost_update")
    for budget in "239":
        shows(f"with a budget of {budget}", lost, HIGH, "".join(lost.splitlines(True)[:4]), folder, budget=["--budget", budget])
    made, none, lines = f"{folder}/made.html", f"{folder}/none/made.html", f"{folder}/lines.jsonl"
    for case, words, events, status in UNLISTED:
        wanted = run(CHECKER, words, events)
        for where in (made, none):
            ended = run(CHECKER, [*words, "--html", where, "--save", lines], events)
            told(f"no page: {case}: {ended}", ended == wanted and ended[0] == status and not os.path.exists(where) and not os.path.exists(lines))
    for case, events, out in LISTED:
        alone = run(CHECKER, ["watch", "--save", lines], events)
        saved_alone = bytes_of(lines)
        os.remove(lines)
        status, answer, errors = run(CHECKER, ["watch", "--save", lines, "--html", none], events)
        refused = (status, without_reach(answer), errors) == (5, out, b"chicheck: page could not be written\n")
        told(f"a page {case}, to no folder: {status}, {answer}, {errors}", refused and bytes_of(lines) == saved_alone)
        status, answer, errors = run(CHECKER, ["watch", "--html", made, "--save", none], events)
        refused = (status, without_reach(answer), errors) == (5, out, b"chicheck: lines could not be saved\n")
        told(f"lines {case}, to no folder: {status}, {answer}, {errors}", refused and not os.path.exists(made))
        ended = run(CHECKER, ["watch", "--html", made, "--save", lines], events)
        told(f"lines and a page, {case}: {ended}", ended == alone and bytes_of(lines) == saved_alone and len(bytes_of(made)) > 1000)
        os.remove(lines)
        os.remove(made)


build("chicheck")
devices()
with tempfile.TemporaryDirectory() as folder:
    named(folder)
    saved(folder)
    shown(folder)
end(91)
