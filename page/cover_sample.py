"""Data of the page of a coverage, as chi_cover writes it, and the page round it."""

import functools
import re

import sample

LENGTHS = [1, 2, 4, 8]
OPS = ["ADD", "CLR", "EOR", "SET", "SMAX", "SMIN", "UMAX", "UMIN"]
KINDS = ["ReadNoSnp", "WriteNoSnpPtl", *(f"AtomicStore.{op}" for op in OPS), *(f"AtomicLoad.{op}" for op in OPS), "AtomicSwap", "AtomicCompare"]
TRANSACTIONS = ["ReadNoSnp", "WriteNoSnpPtl", "AtomicStore", "AtomicLoad", "AtomicSwap", "AtomicCompare"]
DEPTHS = ["1", "2", "3 to 4", "5 to 8", "more than 8"]
REASONS = ["UnknownOpcode", "ReservedSize", "SizeOutOfProfile", "Misaligned", "OutOfRegion", "BadByteEnable"]

# A plan: the rules that `planned` is by.
PLAN = [
    {"bins": "ReadNoSnp, big-endian, *", "why": '<b>no</b> byte order of "reads",\nso gro\u00df sie sind'},
    {"bins": "ReadNoSnp, big-endian, 8 *", "goal": 1, "why": "but of these"},
    {"bins": "* while *", "goal": 3},
]


def size(length):
    """A length in words."""
    return "1 byte" if length == 1 else f"{length} bytes"


def names():
    """The names of each group's bins."""
    enabled = {length: ["none", "some", "all"] if length > 1 else ["none", "all"] for length in LENGTHS}
    results = [f"AtomicLoad.{op}, {size(length)}, {result}" for result in ("kept", "changed sign") for op in OPS for length in LENGTHS]
    return {
        "operations": [f"{kind}, {order}-endian, {size(length)}, lane {lane}" for kind in KINDS for order in ("little", "big") for length in LENGTHS for lane in range(0, 16, length)],
        "compares": [f"AtomicCompare, {size(length)}, compare value in the {half} half, {end}" for length in LENGTHS for half in ("lower", "upper") for end in ("matched", "failed")],
        "writes": [f"WriteNoSnpPtl, {size(length)}, byte enables: {some}" for length in LENGTHS for some in enabled[length]],
        "results": [*results, *(f"AtomicLoad.ADD, {size(length)}, wrapped" for length in LENGTHS)],
        "open at once": [f"open {depth}" for depth in DEPTHS],
        "overlaps": [f"{later} while {earlier} was open" for earlier in TRANSACTIONS for later in TRANSACTIONS],
        "requesters": [f"an overlap with an earlier operation of {which} requester" for which in ("the same", "another")],
        "sequences": [f"{later} after {earlier}" for earlier in TRANSACTIONS for later in TRANSACTIONS],
        "line sequences": [f"{later} after {earlier} on the line" for earlier in TRANSACTIONS for later in TRANSACTIONS],
    }


@functools.cache
def expression_of(pattern):
    """A pattern as a regular expression: each `*` stands for any characters or for none, and each other character for itself."""
    return re.compile(".*".join(map(re.escape, pattern.split("*"))), re.DOTALL)


def fits(pattern, name):
    """Whether a name fits a pattern."""
    return expression_of(pattern).fullmatch(name) is not None


def goal_of(name, goal, plan):
    """How many operations a bin has to count by the last rule that fits its name, or else by the goal of all; None where it is excluded."""
    return next((rule.get("goal") for rule in reversed(plan) if fits(rule["bins"], name)), goal)


def bin_of(name, count, goal, own):
    """A bin: its name, its count, and its own goal where that is not the goal of all."""
    return [name, str(count), *([] if own == goal else [None if own is None else str(own)])]


def rule_of(rule):
    """A rule of a plan, with how many bins fit."""
    count, goal = sum(fits(rule["bins"], name) for bins in names().values() for name in bins), rule.get("goal")
    return {"bins": rule["bins"], "count": str(count), "goal": None if goal is None else str(goal), "why": rule.get("why", "")}


def coverage(count_of, refused=(), goal=1, plan=()):
    """What one input covers at a goal, by the rules of a plan, where each bin, by its name, has this count, and requests were refused
    for these reasons."""
    goals = {name: goal_of(name, goal, plan) for bins in names().values() for name in bins}
    wanted = [name for name, own in goals.items() if own is not None]
    covered = sum(count_of(name) >= goals[name] for name in wanted)
    added = sum(count_of(name) >= goals[name] > 0 for name in wanted)
    percent = covered * 100 // len(wanted) if wanted else 100
    groups = [{"name": group, "bins": [bin_of(name, count_of(name), goal, goals[name]) for name in bins]} for group, bins in names().items()]
    return {"covered": str(covered), "bins": str(len(wanted)), "percent": str(percent), "goal": str(goal), "plan": [rule_of(rule) for rule in plan],
            "added": [str(added)], "groups": groups, "refused": [[reason, str(refused.count(reason))] for reason in REASONS]}


def small():
    """The coverage of an AtomicLoad.ADD that wrapped and of a write by another requester while it was open."""
    counts = {name: 1 for name in [
        "AtomicLoad.ADD, little-endian, 2 bytes, lane 4", "WriteNoSnpPtl, big-endian, 4 bytes, lane 4", "WriteNoSnpPtl, 4 bytes, byte enables: some",
        "AtomicLoad.ADD, 2 bytes, changed sign", "AtomicLoad.ADD, 2 bytes, wrapped", "open 1", "open 2", "WriteNoSnpPtl while AtomicLoad was open",
        "an overlap with an earlier operation of another requester"]}
    return coverage(lambda name: counts.get(name, 0))


def nearly_whole():
    """A coverage in which two bins are missing, and one has the greatest count."""
    counts = {"AtomicSwap, big-endian, 8 bytes, lane 8": 0, "AtomicCompare while ReadNoSnp was open": 0, "open 1": 2**64 - 1}
    return coverage(lambda name: counts.get(name, 12345))


def below_a_goal():
    """A coverage at a goal of five operations: one bin has counted four, one none, and all others five."""
    counts = {"open 2": 4, "AtomicCompare while ReadNoSnp was open": 0}
    return coverage(lambda name: counts.get(name, 5), goal=5)


def planned():
    """A coverage by a plan. One bin is missing by the goal of all and one by its own; one is excluded but met."""
    counts = {"ReadNoSnp, big-endian, 1 byte, lane 3": 7, "ReadNoSnp, big-endian, 8 bytes, lane 0": 1, "AtomicSwap while AtomicStore was open": 2}
    return coverage(lambda name: counts.get(name, 0 if name.startswith("ReadNoSnp, big-endian, ") else 3), plan=PLAN)


def written(value):
    """Data as chi_cover writes them: JSON with no blanks, in which quotes, backslashes, `<` and control characters stand by their
    numbers, and each other character by itself."""
    if isinstance(value, str):
        return '"' + re.sub(r'[\x00-\x1f"\\<]', lambda it: f"\\u{ord(it[0]):04x}", value) + '"'
    if isinstance(value, dict):
        return "{" + ",".join(f"{written(name)}:{written(it)}" for name, it in value.items()) + "}"
    return "null" if value is None else "[" + ",".join(map(written, value)) + "]"


def page(data):
    """The page of some data."""
    text = written(data)
    return ('<!DOCTYPE html>\n<html lang="en">\n<head>\n<meta charset="utf-8">\n<title>chicheck cover</title>\n<style>' + sample.read("cover.css")
            + '</style>\n</head>\n<body>\n<noscript>This page needs JavaScript.</noscript>\n<script type="application/json" id="coverage">\n' + text
            + "</script>\n<script>" + sample.read("cover.js") + "</script>\n</body>\n</html>\n")
