"""What `chicheck cover` writes as JSON, beside its text: each of them says what the other does, and the rules of a plan what both do."""

import json
import re

import cover_sample
from process import CHECKER, run, told

# The name of a bin of operations: a kind, perhaps a byte order, and a length; and then the lane, which half was compared and how that
# ended, the byte enables, or the result.
NAME = re.compile(r"(\S+), (?:(\w+)-endian, )?(\d) bytes?, (?:lane \d+|compare value in the (\w+) half, (\w+)|(?:byte enables: )?(.*))")


def place_of(name):
    """Where a bin's count stands in the text: the begin of its line, and what stands before it there."""
    parts = NAME.fullmatch(name)
    if not parts:
        return name.removeprefix("an overlap with an earlier operation "), ""
    return " ".join(filter(None, parts.groups()[:3])), "".join(f"{it} " for it in parts.groups()[3:] if it)


def own_goal(counted, goal):
    """How many operations a bin has to count: its own goal, which stands after its name and its count, or else the goal of all; None
    where it is excluded."""
    own = counted[2] if len(counted) > 2 else goal
    return None if own is None else int(own)


def head_of(name, counts, goal):
    """The head of a group: how many are covered of its bins that are not excluded."""
    wanted = [it for it in counts if own_goal(it, goal) is not None]
    return f"{name}: {sum(int(it[1]) >= own_goal(it, goal) for it in wanted)} of {len(wanted)}"


def rows_of(group, goal):
    """The lines of a group."""
    rows, between = {}, " " if group["name"] == "operations" else ", "
    for name, count, *_ in group["bins"]:
        begin, before = place_of(name)
        rows.setdefault(begin, []).append(f"{before}{count}")
    return [head_of(group["name"], group["bins"], goal), *(f"{begin}: {between.join(counts)}" for begin, counts in rows.items())]


def lines_of(counted, goal):
    """The line of what was counted fewer times than its goal, which says how often where that is not 0, or of what was counted though it
    is excluded; none of anything else."""
    name, count, own = counted[0], int(counted[1]), own_goal(counted, goal)
    if own is None:
        return [f"excluded but met: {name}: {count}"] if count else []
    if count >= own:
        return []
    return [f"missing: {name}: {count} of {own}" if count else f"missing: {name}"]


def missing_of(counts, goal):
    """The lines of what is missing, or was met though it is excluded."""
    return [line for it in counts for line in lines_of(it, goal)]


def on_one_line(text):
    return re.sub(r"[\x00-\x1f]", " ", text)


def rule_line(rule):
    """The line of a rule: what it does, its pattern, how many bins fit, and the reason where there is one."""
    does = "excluded by" if rule["goal"] is None else f"at least {rule['goal']} by"
    why = f" ({on_one_line(rule['why'])})" if rule["why"] else ""
    return f"{does} {on_one_line(rule['bins'])}: {rule['count']}{why}"


def added_of(it, files):
    """The lines of how many bins each file added, where there are two or more."""
    return [f"added by {file}: {number}" for file, number in zip(files, it["added"], strict=True)] if len(files) > 1 else []


def text_of(it, files):
    """The text that says what this JSON of these files does."""
    groups, refused, goal = it["groups"], it["refused"], int(it["goal"])
    least = "" if goal == 1 else f", each at least {goal}"
    lines = [line for group in groups for line in rows_of(group, goal)]
    lines += [f"covered: {it['covered']} of {it['bins']} ({it['percent']}%){least}", *map(rule_line, it["plan"])]
    lines += [line for group in groups for line in missing_of(group["bins"], goal)]
    lines += [head_of("refusals", refused, 1), *(f"{name}: {count}" for name, count in refused), *missing_of(refused, 1), *added_of(it, files)]
    return "".join(f"{line}\n" for line in lines)


def by_rules(it):
    """This coverage, made again of its counts, its goal, its rules and what each file added."""
    counts = {name: int(count) for group in it["groups"] for name, count, *_ in group["bins"]}
    refused = [name for name, count in it["refused"] for _ in range(int(count))]
    plan = [{"bins": rule["bins"], "why": rule["why"], **({} if rule["goal"] is None else {"goal": int(rule["goal"])})} for rule in it["plan"]]
    return {**cover_sample.coverage(counts.get, refused, int(it["goal"]), plan), "added": it["added"]}


def counted_as_json(case, words, text):
    """What is counted has the same status as JSON. Its text can be made of that, and that of its counts and rules."""
    written, found = run(CHECKER, words, text), run(CHECKER, [*words, "--format", "json"], text)
    told(f"{case} as JSON: {found}", found[0] == written[0] and found[1].count(b"\n") == 1 and found[1].endswith(b"\n") and not found[2])
    files = [it for before, it in zip(["", *words], words) if it.endswith((".json", ".jsonl")) and before != "--plan"]
    told(f"{case} as JSON: {found[1]} beside {written[1]}", text_of(json.loads(found[1]), files) == written[1].decode())
    told(f"{case} as JSON: {found[1]} beside its rules", f"{cover_sample.written(by_rules(json.loads(found[1])))}\n" == found[1].decode())
