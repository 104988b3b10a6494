"""What chihome writes of a script, as values: a line for each request, and one for each granule (docs/FORMATS.md)."""

from __future__ import annotations

import dataclasses
import re
from collections.abc import Iterator
from typing import Optional, Union

from chi.library import op_name, result_name

REFUSALS = tuple(map(result_name, range(1, 7)))
_NUMBER = "(0|[1-9][0-9]*)"
_OUTCOME = "(comp|retry|data ([0-9a-f]{32})|refused ([A-Za-z]+))"
_REQUEST = re.compile(rf"{_NUMBER} {_NUMBER} ([0-9a-f]{{2}}) ([A-Za-z.]+) ([0-7]) ([0-9a-f]{{16}}) {_OUTCOME}")
_GRANULE = re.compile("m ([0-9a-f]{16}) ([0-9a-f]{16})")


@dataclasses.dataclass(frozen=True)
class RequestLine:
    """What became of a request: outcome is comp, data, refused or retry. Of data there are the 16 lanes, and of refused the refusal's
    name."""

    src: int
    txn: int
    opcode: int
    size: int
    addr: int
    outcome: str
    lanes: Optional[bytes] = None
    refusal: Optional[str] = None


@dataclasses.dataclass(frozen=True)
class GranuleLine:
    """A granule after the last request, by its address, and the eight bytes that it holds, in the order of their addresses."""

    addr: int
    held: bytes


TranscriptLine = Union[RequestLine, GranuleLine]


def lines_of(text: str) -> Iterator[tuple[int, str]]:
    """The lines of a text with their numbers from 1 on. Raises ValueError where the last one has no line feed."""
    *lines, rest = text.split("\n")
    yield from enumerate(lines, 1)
    if rest:
        raise ValueError(f"line {len(lines) + 1} is cut: it has no line feed")


def request_line(number: int, line: str) -> RequestLine:
    """The line of a request, which has this number in its text."""
    found = _REQUEST.fullmatch(line)
    if not found:
        raise ValueError(f"line {number} is no line of a transcript: {line[:80]!r}")
    src, txn, opcode, name, size, addr, outcome, lanes, refusal = found.groups()
    if name != op_name(int(opcode, 16)):
        raise ValueError(f"line {number} has the name {name}, and {op_name(int(opcode, 16))} is that of the opcode {opcode}")
    if refusal and refusal not in REFUSALS:
        raise ValueError(f"line {number} has the refusal {refusal}, which is none of {', '.join(REFUSALS)}")
    data = bytes.fromhex(lanes) if lanes else None
    return RequestLine(int(src), int(txn), int(opcode, 16), int(size), int(addr, 16), outcome.split()[0], data, refusal)


def transcript_lines(numbered: Iterator[tuple[int, str]]) -> Iterator[TranscriptLine]:
    """The values of lines with their numbers."""
    ended = False
    for number, line in numbered:
        granule = _GRANULE.fullmatch(line)
        if granule:
            ended = True
            yield GranuleLine(int(granule[1], 16), bytes.fromhex(granule[2]))
        elif ended:
            raise ValueError(f"line {number} is after the memory, and no line of a granule: {line[:80]!r}")
        else:
            yield request_line(number, line)


def read_transcript(text: str) -> list[TranscriptLine]:
    """The lines of a transcript, in their order. Raises ValueError with the line that is none.

    >>> line, granule = read_transcript("0 1 30 AtomicLoad.ADD 0 0000000000001000 comp\\nm 0000000000001000 0100000000000000\\n")
    >>> line.outcome, hex(line.addr), granule.held.hex()
    ('comp', '0x1000', '0100000000000000')
    >>> read_transcript("0 1 30 AtomicLoad.ADD 0 1000 comp\\n")
    Traceback (most recent call last):
    ValueError: line 1 is no line of a transcript: '0 1 30 AtomicLoad.ADD 0 1000 comp'
    """
    return list(transcript_lines(lines_of(text)))
