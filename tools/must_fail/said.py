"""What the prover says of functions: which of them it does not prove for a reason of their own, and what such a refusal rests on."""

import re
from enum import Enum
from typing import NamedTuple

VERDICT = re.compile(r"fn (\S+): (.*)$")
# The verdicts of a function that is proved, where what it calls may be taken by its contract.
PROVED = ("proved", "no holes", "depends on a hole in ")
# Verdicts that name no reason: that stands in goals above them, or in errors of proof files.
BARE = ("no proof", "not proved")
# A goal that is open, above the verdict of its function.
OPEN = re.compile(r"note: src/\S+ it is not proved that (?P<what>.*?)(?: \(`(?P<name>[^`]+)`\)(?P<more>.*))?$")
# What such a goal is, below all verdicts.
MUST = re.compile(r"^note: `(?P<name>[^`]+)` of (?:\./)?proofs/(?P<folder>\S+)/\w+\.antt must prove: (?P<text>.*)$", re.M)
# What is refused of a proof file, with the lines that explain it.
ERROR = re.compile(r"^(?P<line>(?:\./)?proofs/(?P<folder>\S+)/\w+\.antt:\S+ error: (?:`(?P<name>[^`]+)`: )?.*)(?:\n  .*)*", re.M)
CALLS = re.compile(r"(?:^|; |: )it calls `.*$")
STANDS = re.compile(r"; it stands on `.*`, which antt refuses$")
# A proof file that names what an edit took away: that says little of the contract.
NAMES = re.compile(r"has no field|is not in scope|has no `|was not admitted")
# An answer to a goal whose name an edit took away, so that some goal has no answer.
UNANSWERED = re.compile(r" error: `([^`]+)`: `goal\.\1`: module `\S+\.Goals` has no `")
LIMITS = re.compile(r"at one of its limits|at its own limit|could not tell|ran out of|(?:step|memory) limit")
# Values at which a goal is false. `omega` gives some too, but speaks of what it read alone.
VALUES = re.compile(r"allow values at which this goal is false|The hypotheses hold, and the goal fails at")


class Kind(Enum):
    """What a refusal rests on, that first which tells most of the contract."""

    FALSE = "a goal is false"
    OPEN = "open goal"
    LIMIT = "search limit"
    ANSWERS = "answers"
    REQUIRES = "requires"
    MEASURE = "measure"


class Reason(NamedTuple):
    """A goal that is open, or an error in a proof file, with the name of its clause, or else its own."""

    kind: Kind
    clause: str
    line: str
    is_false: bool


class Refusal(NamedTuple):
    kind: Kind
    clauses: tuple
    why: str

    def __str__(self):
        return ": ".join([self.kind.value, *([", ".join(self.clauses)] if self.clauses else [])])


def is_of(folder, path):
    """Returns whether a folder below proofs/ is of a function. The folder of one that calls itself has a `+` before its name."""
    names, folder = path.split("::")[1:], f"/{folder}/".replace("/+", "/")
    own = f"/{'/'.join(names[-2:])}/"
    return own in folder if len(names) > 1 else folder.startswith(own)


def kind_of_goal(what, more, text):
    """Returns the kind of a goal that is open, by what it is about, what the prover adds, and what has to be proved."""
    if what.startswith("the loop ends"):
        return Kind.MEASURE
    if what.endswith("requires holds at this call"):
        # a call of the function itself owes that its measure falls, in one goal with what it requires
        return Kind.MEASURE if re.match(r"\S+\.falls ", text) else Kind.REQUIRES
    if VALUES.search(more):
        return Kind.FALSE
    return Kind.LIMIT if LIMITS.search(more) else Kind.OPEN


def clause_of(goal, text):
    """Returns the name of the clause that a goal is of, or else the goal's."""
    named = re.search(r"-clause-(\w+)$", goal) or re.match(r"record \{(\w+) :", text)
    return named[1] if named else goal


def goals_of(path, lines, said):
    """Returns the goals of a function that are open."""
    texts = {it["name"]: it["text"] for it in MUST.finditer(said) if is_of(it["folder"], path)}
    for goal in map(OPEN.match, lines):
        name, more = goal["name"] or "", goal["more"] or ""
        text = texts.get(name, "")
        yield Reason(kind_of_goal(goal["what"], more, text), clause_of(name, text), goal[0], bool(VALUES.search(more)))


def errors_of(path, said):
    """Returns what is refused of a function's own proof files."""
    for error in ERROR.finditer(said):
        if is_of(error["folder"], path):
            is_false = bool(VALUES.search(error[0]))
            kind = Kind.LIMIT if LIMITS.search(error["line"]) else Kind.ANSWERS
            yield Reason(Kind.FALSE if is_false else kind, clause_of(error["name"] or "", ""), error["line"], is_false)


def kind_of_verdict(reason):
    """Returns the kind of a verdict that has no goal and no error beside it."""
    if " a measure in " in reason:
        return Kind.MEASURE
    return Kind.LIMIT if LIMITS.search(reason) else Kind.ANSWERS


def refusal_of(path, verdict, lines, said):
    """Returns why a function is not proved, beside what it calls and beside names that its proof cites and that an edit took away; or
    nothing. A goal may be open for such a name alone, so where as many answers lack their goal only one that is false counts."""
    if verdict.startswith(PROVED):
        return None
    verdict = STANDS.sub("", CALLS.sub("", verdict))
    errors, goals = [*errors_of(path, said)], [*goals_of(path, lines, said)]
    if len(goals) <= sum(bool(UNANSWERED.search(it.line)) for it in errors):
        goals = [it for it in goals if it.is_false]
    reasons = goals + [it for it in errors if not NAMES.search(it.line)]
    if not reasons:
        return None if verdict in BARE or errors else Refusal(kind_of_verdict(verdict), (), verdict)
    kind = min((it.kind for it in reasons), key=[*Kind].index)
    clauses = dict.fromkeys(it.clause for it in reasons if it.kind == kind and it.clause)
    return Refusal(kind, tuple(clauses), reasons[0].line if verdict in BARE else verdict)


def verdicts_of(said):
    """Returns for each function that the prover names its path, its verdict, and which of its goals are open, by their lines."""
    found, goals = [], []
    for line in said.split("\n"):
        verdict = VERDICT.match(line)
        if verdict:
            found.append((verdict[1], verdict[2], goals))
            goals = []
        elif OPEN.match(line):
            goals.append(line)
    return found


def refusals_of(said):
    """Returns why each function that is not proved is not, beside what it calls, by its path."""
    found = {path: refusal_of(path, verdict, goals, said) for path, verdict, goals in verdicts_of(said)}
    return {path: why for path, why in found.items() if why}
