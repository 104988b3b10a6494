"""What chicheck explain and chicheck watch write, as a value (docs/EXPLAIN.md, docs/EVENTS.md)."""

from __future__ import annotations

import dataclasses
import re
from typing import Any, Optional

from chi.transcript import TranscriptLine, lines_of, transcript_lines

_GRANULE = re.compile("(not explained|undecided): granule ([0-9a-f]{16})(?: after [0-9]+ states)?")
# What is said of a granule after its first line. A group has the name of the member that it is.
_SAID = re.compile(
    "|".join(
        [
            r"at (?P<time>[0-9]+): .+",
            r"at the end: [0-9a-f]{16}",
            r"  the granule can hold [0-9a-f]{16}",
            r"  and [0-9]+ more",
            r"  open from [0-9]+ (?:to [0-9]+|on): .+",
            r"  explained up to (?P<explained_to>[0-9]+)(?: \(operations: [0-9]+\))?",
            r"  the last operations of the granule, from time [0-9]+ to [0-9]+:",
            r"    (?:request|line) +[0-9]+ \|.+",
            r"  > (?:request|line) +(?P<blamed>[0-9]+) \|.+",
            r"    (?:no home answers so|legal would be|unlike each of these): .+",
            r"  any one of these answers may be the wrong one: .+",
            r"  up to [0-9]+ in .+",
            r"    last written by (?:request|line) [0-9]+: .+",
            r"  (?:a|no) legal response of request [0-9]+ explains the granule to its end",
            r"  what is not shown was not found within [0-9]+ more states",
            r"  at line (?P<line>[0-9]+)",
            r"  at the end",
            r"  operations open at most: [0-9]+",
        ]
    )
)
_COUNT = re.compile("  (operations that ended|requests outstanding|granules|granules not judged): ([0-9]+)")
_WAITS = re.compile("    line ([0-9]+) since ([0-9]+): (.+) waits for its (data|reply|DBID)")
_REQUIRED = "required: "


@dataclasses.dataclass(frozen=True)
class GranuleAnswer:
    """What is said of the granule at an address: verdict is "not explained" or "undecided".

    time is the first time up to which no order explains its operations, explained_to one up to which an order does, and blamed the
    number of the request that is blamed, or of its line; line is the one by which a watch found it. Each is None where it is not
    said. text has all lines of the granule.
    """

    addr: int
    verdict: str
    text: list[str]
    time: Optional[int] = None
    explained_to: Optional[int] = None
    blamed: Optional[int] = None
    line: Optional[int] = None


@dataclasses.dataclass(frozen=True)
class Outstanding:
    """A request that a watch says is outstanding: the line that told it, its time, its own text, and what it waits for."""

    line: int
    time: int
    request: str
    waits_for: str


@dataclasses.dataclass(frozen=True)
class Answer:
    """An answer: verdict is "explained", "not explained" or "undecided". granules has those that are named, counts what a watch counts
    by its names, outstanding the requests that it names, missing what is required and does not hold, and witness the transcript of
    explain --witness."""

    verdict: str
    granules: list[GranuleAnswer]
    counts: dict[str, int]
    outstanding: list[Outstanding]
    missing: list[str]
    witness: list[TranscriptLine]


def _granule(lines: list[str]) -> GranuleAnswer:
    """The lines of one granule, the first of which names it."""
    verdict, addr = _GRANULE.fullmatch(lines[0]).groups()
    said: dict[str, Any] = {}
    for line in lines[1:]:
        said.update((name, int(it)) for name, it in _SAID.fullmatch(line).groupdict().items() if it is not None)
    return GranuleAnswer(int(addr, 16), verdict, lines, **said)


def read_answer(text: str) -> Answer:
    """The answer that was written to standard output. Raises ValueError with the line that is of none.

    >>> answer = read_answer("not explained: granule 0000000000001008\\nat 40: 2 1 30 AtomicLoad.ADD 3 0000000000001008 answered\\n")
    >>> answer.verdict, hex(answer.granules[0].addr), answer.granules[0].time
    ('not explained', '0x1008', 40)
    >>> read_answer("explained\\nno more\\n")
    Traceback (most recent call last):
    ValueError: line 2 is no line of a transcript: 'no more'
    """
    granules: list[list[str]] = []
    counts: dict[str, int] = {}
    outstanding: list[Outstanding] = []
    missing: list[str] = []
    witness: list[tuple[int, str]] = []
    explained = text.startswith("explained\n")
    for number, line in lines_of(text):
        count, waits = _COUNT.fullmatch(line), _WAITS.fullmatch(line)
        if count:
            counts[count[1]] = int(count[2])
        elif counts and waits:
            outstanding.append(Outstanding(int(waits[1]), int(waits[2]), waits[3], waits[4]))
        elif counts and line.startswith(_REQUIRED):
            missing.append(line[len(_REQUIRED) :])
        elif explained and not counts:
            witness += [(number, line)] if number > 1 else []
        elif _GRANULE.fullmatch(line) and not counts:
            granules.append([line])
        elif granules and _SAID.fullmatch(line) and not counts:
            granules[-1].append(line)
        else:
            raise ValueError(f"line {number} is no line of an answer: {line[:80]!r}")
    if not explained and not granules:
        raise ValueError("line 1 is missing: explained, or a granule that is not explained or undecided")
    found = [_granule(it) for it in granules]
    verdicts = {it.verdict for it in found}
    verdict = next((it for it in ["not explained", "undecided"] if it in verdicts), "explained")
    return Answer(verdict, found, counts, outstanding, missing, list(transcript_lines(iter(witness))))
