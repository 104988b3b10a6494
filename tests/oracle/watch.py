#!/usr/bin/env python3
"""Tries chicheck watch on histories by chance: watch.py [COUNT [SEED [prefixes]]]

Each history is told as events (histories.py). What has to be answered on them, with and without --keep-going, is found by
trying every order (telling.py, orders.py): which granules are not explained, by which line, and where each stops being so.
With --around 0, where settled granules are kept as their words, the same has to be said but for what is shown of them. `chicheck explain`
has to give the same verdict on the same operations, told as a trace and as events, and of each such granule by
itself it has to say the same and to show the same operations; each of these has to have the line that told its request. Which bytes
are wrong and who wrote them last is compared with the other lines (written.py), and whether a legal response explains the granule to
its end with every order of it (to_the_end.py). A history that the program disagrees on is shown. With `prefixes` each is the beginning
of a history in which granules are never quiet. CHICHECK names the program."""

import collections
import json
import os
import random
import re
import sys
from concurrent.futures import ThreadPoolExecutor

os.chdir(f"{os.path.dirname(os.path.abspath(__file__))}/../..")
sys.dont_write_bytecode = True

from checker import run
from histories import history, prefix
from orders import MOST, TooMany, is_end_of_order, operations_of, words_of
from telling import Told, Watched
from to_the_end import end_lines, wanted_ends
from written import UNLIKE, WRITTEN, told_lines, wanted_lines

COUNT, SEED = [int(it) for it in sys.argv[1:3]] + [20000, 1][len(sys.argv[1:3]) :]
CHOSEN = prefix if sys.argv[3:] == ["prefixes"] else history
# How many disagreements are shown.
SHOWN = 3
# How many operations are shown at most before the one that is blamed.
SHOWN_BEFORE = 16
# Of so many operations that ended, and more, none may be kept any longer, so that no order of them is shown.
MANY = 16
# The status where an event is refused.
REFUSED = 3
# How the lines of a granule's last operations begin, and what stands in one of them.
LAST = "  the last operations of the granule"
ROW = re.compile(r"  (?:  |> )(?:request|line) +(\d+) \|([ =#]*)\|(  +(\d+) .* requester (\d+) txn (\d+))")
LEGAL = "    legal would be: "
# The line of an order of what had happened before.
ORDER = re.compile(r"  up to (\d+) in an order that ends with lines((?: \d+)+)")
# How the line begins of the answers that may be the wrong one.
SUSPECTS = "  any one of these answers may be the wrong one: "


def lines_of(events):
    return "".join(f"{json.dumps(it)}\n" for it in events)


def parted(lines):
    """The lines with each run of a granule's words as one, in which their order is left open: the words that are told, and how
    many there are."""
    parts = []
    for line in lines:
        more = re.fullmatch(r"  and (\d+) more", line)
        if line.startswith("  the granule can hold "):
            if not parts or isinstance(parts[-1], str):
                parts.append((set(), 0))
            parts[-1] = (parts[-1][0] | {line}, parts[-1][1] + 1)
        elif more:
            parts[-1] = (parts[-1][0], parts[-1][1] + int(more[1]))
        else:
            parts.append(line)
    return parts


def is_same(found, wanted):
    """Whether lines are those that have to be, where those have every word, and the lines that are looked at 16 of them at most."""
    found, wanted = parted(found), parted(wanted)
    return len(found) == len(wanted) and all(is_same_part(*both) for both in zip(found, wanted))


def is_same_part(found, wanted):
    if isinstance(found, str) or isinstance(wanted, str):
        return found == wanted
    return found[1] == wanted[1] and len(found[0]) == min(16, wanted[1]) and found[0] <= wanted[0]


def without_rows(lines):
    """Lines without those of a granule's last operations, of their bytes, and of their order."""
    return [it for it in lines if not (it.startswith((LAST, LEGAL, UNLIKE, WRITTEN)) or ROW.fullmatch(it) or ORDER.fullmatch(it))]


def rows_of(lines):
    """The rows among lines, but for their numbers and for which of them is blamed, in the order of their texts."""
    rows = filter(None, map(ROW.fullmatch, lines))
    return sorted(it[2].replace("#", "=") + it[3] for it in rows) + [it for it in lines if it.startswith(LAST)]


def by_granule(answer):
    """The lines of each granule that is not explained."""
    parts = answer.split("not explained: granule ")[1:]
    return {int(it[:16], 16): it.splitlines() for it in parts}


def rows_by_granule(answer):
    """The rows of each granule that is not explained."""
    return {granule: rows_of(lines) for granule, lines in by_granule(answer).items()}


def is_right_order(lines, before):
    """Whether the order among a granule's lines is how one ends that explains what is known before it stops being explained, up to
    that time. There is none where no operation had ended by then, and there may be none where many had."""
    told = next(filter(None, map(ORDER.fullmatch, lines)), None)
    numbers = [int(it) for it in told[2].split()] if told else []
    times = [it for it in lines if told and it.startswith(f"  explained up to {told[1]}")]
    ended = sum(it.reply is not None for it in before[1])
    return is_end_of_order(*before, numbers) and bool(times) == bool(told) and (bool(told) or ended == 0 or ended >= MANY)


def lines_by_granule(answer):
    """The line by which each granule was found that is not explained."""
    parts = [(it[:16], re.search(r"^  at line (\d+)$", it, re.MULTILINE)) for it in answer.split("not explained: granule ")[1:]]
    return {int(granule, 16): int(line[1]) for granule, line in parts if line}


def is_told_there(row, events):
    """Whether the line whose number a row has told its request, or the word for which its write stands."""
    line, _, _, start, src, txn = row.groups()
    event = events[int(line) - 1]
    told = (event["time"], event.get("src", 0), event.get("txn", 0))
    return event["event"] in ("request", "word") and told == (int(start), int(src), int(txn))


def stop_of(lines):
    """The lines of where a granule stops being explained, however many operations an order has up to then, and whatever line of
    the input told an answer that may be the wrong one."""
    shown = [re.sub(r"^(  explained up to \d+) .*", r"\1", it) for it in lines]
    return [it for it in shown if not it.startswith(SUSPECTS)]


def is_same_stop(answer, granule, lines):
    """Whether explain says of the granule by itself what watch said of it."""
    first, *found = answer[1].split(LAST)[0].splitlines()
    return answer[0] == 1 and first == f"not explained: granule {granule:016x}" and is_same(stop_of(found), stop_of(lines))


def is_same_verdict(found, unexplained):
    """Whether an answer of explain names one of the granules that are not explained, or says that all are."""
    if not unexplained:
        return found == (0, "explained\n")
    return found[0] == 1 and found[1].split("\n")[0] in [f"not explained: granule {it:016x}" for it in unexplained]


def are_last_clear(trace, lines):
    """Whether it is clear which operations are the last that are shown before the one that is blamed: of those that ended at one time
    all are shown, or none is."""
    stop = re.match(r"at (\d+): ", lines[0])
    if not stop:
        return True
    ends = sorted(it["end"] for it in trace["requests"] if it.get("end", MOST + 1) <= int(stop[1]))[:-1]
    return len(ends) <= SHOWN_BEFORE or ends[-SHOWN_BEFORE] != ends[-SHOWN_BEFORE - 1]


def unexplained_as_a_whole(told):
    return [it for it in told.granules if not told.is_explained(it)]


def disagreements(events):
    """What the program answers otherwise than it has to: the words, the answer, and the one that has to be."""
    found = []
    alone = run("watch --keep-going --around 0".split(), lines_of(events))
    for words, keeps_going in [("watch", False), ("watch --keep-going", True)]:
        answer = run(words.split(), lines_of(events))
        watched = Watched(events, keeps_going, lines_by_granule(answer[1]))
        status, wanted = watched.answer()
        lines = answer[1].splitlines()
        if answer[0] != status or not is_same(without_rows(lines), wanted.splitlines()):
            found.append((words, answer, watched.answer()))
        if not all(is_told_there(it, events) for it in filter(None, map(ROW.fullmatch, lines))):
            found.append((f"rows of {words}", answer, "the lines of their requests"))
        for granule, its in by_granule(answer[1]).items():
            if granule not in watched.before:
                continue
            if not is_right_order(its, watched.before[granule]):
                found.append((f"order of {granule:016x} of {words}", answer, watched.before[granule]))
            bytes_wanted = wanted_lines(its, {it.number: it for it in watched.before[granule][1]})
            if told_lines(its) != bytes_wanted:
                found.append((f"bytes of {granule:016x} of {words}", answer, bytes_wanted))
    if (alone[0], without_rows(alone[1].splitlines())) != (answer[0], without_rows(lines)):
        found.append(("watch --keep-going --around 0", alone, answer))
    rows = rows_by_granule(answer[1])
    for granule, lines in watched.stops.items():
        answer = run(["explain"], json.dumps(watched.traces[granule]))
        if not is_same_stop(answer, granule, lines):
            found.append((f"explain of {granule:016x}", answer, lines))
        if are_last_clear(watched.traces[granule], lines) and rows_of(answer[1].splitlines()) != rows.get(granule):
            found.append((f"rows of explain of {granule:016x}", answer, rows.get(granule)))
        its = answer[1].splitlines()
        trace = watched.traces[granule]
        operations = operations_of(trace)
        bytes_wanted = wanted_lines(its, {it.number: it for it in operations})
        if told_lines(its) != bytes_wanted:
            found.append((f"bytes of explain of {granule:016x}", answer, bytes_wanted))
        ends_wanted = wanted_ends(its, words_of(trace, "image").get(granule, bytes(8)), operations, words_of(trace, "final").get(granule))
        if end_lines(its) != ends_wanted:
            found.append((f"end of explain of {granule:016x}", answer, ends_wanted))
    told = Told()
    for event in events:
        told.take(event)
    unexplained = unexplained_as_a_whole(told)
    for words, text in [("explain", json.dumps(told.trace())), ("explain --events", lines_of(events))]:
        answer = run(words.split(), text)
        if not is_same_verdict(answer, unexplained) or set(unexplained) != watched.places.keys():
            found.append((words, answer, unexplained))
    return found


def without(events, at):
    """The events without one of them, and where that is a request without all of the request's."""
    number = events[at].get("id")
    if events[at]["event"] != "request":
        return events[:at] + events[at + 1 :]
    left = events[:at]
    for place, it in enumerate(events[at + 1 :], at + 1):
        if it.get("id") == number and it["event"] == "request":
            return left + events[place:]
        if it.get("id") != number:
            left.append(it)
    return left


def smallest(events):
    """Events of which none can be left out, on which the program disagrees too."""
    for at in range(len(events)):
        fewer = without(events, at)
        try:
            if run(["watch"], lines_of(fewer))[0] != REFUSED and disagreements(fewer):
                return smallest(fewer)
        except KeyError:
            pass  # What is left is of no outstanding request.
    return events


def outcomes(events):
    """How the mistakes of a history are found, for the counts."""
    watched = Watched(events, True, {})
    return {"found at a line" if line else "found at the end" for line in watched.places.values()}


def tried(number):
    """Tries a history. Returns what it was, and what the program disagrees on."""
    events, traits = CHOSEN(random.Random(f"{SEED}/{number}"))
    try:
        return number, events, traits | outcomes(events), disagreements(events)
    except TooMany:
        return number, events, {"left out, since there are too many orders"}, []


def show(number, events):
    small = smallest(events)
    print(f"history {number} of seed {SEED}:\n{lines_of(small)}", end="")
    for words, answer, wanted in disagreements(small):
        print(f"{words}: {answer}\n in place of {wanted}")


def main():
    counts, disagreed = collections.Counter(), 0
    with ThreadPoolExecutor(len(os.sched_getaffinity(0))) as pool:
        for number, events, traits, found in pool.map(tried, range(COUNT)):
            counts.update(traits)
            if found:
                disagreed += 1
                if disagreed <= SHOWN:
                    show(number, events)
    for trait, count in sorted(counts.items()):
        print(f"{trait}: {count}")
    print(f"{COUNT} histories, {disagreed} disagreed on")
    sys.exit(disagreed > 0)


main()
