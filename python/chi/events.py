"""What a monitor tells of a home, as values: a line of JSON for each event (docs/EVENTS.md)."""

from __future__ import annotations

import dataclasses
import json
from typing import Any, Optional, Union

from chi.request import Request
from chi.transcript import REFUSALS

_LAST = (1 << 64) - 1
_ADDRESSES = 1 << 52
# The greatest value of each member that is a number, and how many hex digits the texts have.
_MOST = {"time": _LAST, "id": _LAST, "addr": _LAST, "src": 65535, "txn": 65535, "op": 255, "size": 7, "endian": 1, "be": 65535, "length": 4096}
_DIGITS = {"lanes": 32, "bytes": 16}


@dataclasses.dataclass(frozen=True)
class RequestEvent:
    """A request was taken. has_data says whether its data came with it."""

    time: int
    id: int
    request: Request
    has_data: bool


@dataclasses.dataclass(frozen=True)
class DataEvent:
    """All data of a request have come: its byte enables and the 16 lanes."""

    time: int
    id: int
    be: int
    lanes: bytes


@dataclasses.dataclass(frozen=True)
class ReplyEvent:
    """A completion left: "comp", the 16 lanes of its data, or None where it does not say what was done."""

    time: int
    id: int
    reply: Union[str, bytes, None]


@dataclasses.dataclass(frozen=True)
class DroppedEvent:
    """A request took no effect: it was answered by RetryAck, or its data were cancelled."""

    time: int
    id: int


@dataclasses.dataclass(frozen=True)
class RefusedEvent:
    """The home refused a request, for this reason where it is known."""

    time: int
    id: int
    reason: Optional[str] = None


@dataclasses.dataclass(frozen=True)
class WordEvent:
    """The eight bytes that a granule holds before its first request, or where it is final after its last."""

    time: int
    addr: int
    held: bytes
    final: bool = False


@dataclasses.dataclass(frozen=True)
class UnknownEvent:
    """Something that the events do not tell may have written to so many bytes from this address on."""

    time: int
    addr: int
    length: int


@dataclasses.dataclass(frozen=True)
class EndEvent:
    """The monitor tells nothing more."""

    time: int


Event = Union[RequestEvent, DataEvent, ReplyEvent, DroppedEvent, RefusedEvent, WordEvent, UnknownEvent, EndEvent]


def _is_hex(value: Any, digits: int) -> bool:
    return isinstance(value, str) and len(value) == digits and set(value) <= set("0123456789abcdefABCDEF")


def _member(number: int, name: str, value: Any) -> Any:
    """The value of a member as an event has it."""
    wanted = f"a whole number up to {_MOST.get(name)}"
    if name in _MOST and type(value) is int and 0 <= value <= _MOST[name]:
        return value
    if name in _DIGITS:
        wanted = f"{_DIGITS[name]} hex digits"
        if _is_hex(value, _DIGITS[name]):
            return bytes.fromhex(value)
    elif name == "reply":
        wanted = "comp, 32 hex digits or null"
        if value in ("comp", None):
            return value
        if _is_hex(value, 32):
            return bytes.fromhex(value)
    elif name == "reason":
        wanted = "the name of a refusal"
        if value in REFUSALS:
            return value
    elif name == "final":
        wanted = "true or false"
        if isinstance(value, bool):
            return value
    raise ValueError(f"line {number} member {name} is {json.dumps(value)[:40]}, and not {wanted}")


def _request(time: int, id: int, src: int, txn: int, op: int, size: int, addr: int, endian: int, **data: Any) -> RequestEvent:
    return RequestEvent(time, id, Request(op, size, addr, endian=endian, src=src, txn=txn, **data), bool(data))


def _word(time: int, addr: int, final: bool = False, **held: bytes) -> WordEvent:
    if addr % 8 or addr >= _ADDRESSES:
        raise ValueError(f"member addr is {addr}, and not the address of a granule: a multiple of 8 below 2^52")
    return WordEvent(time, addr, held["bytes"], final)


def _unknown(time: int, addr: int, length: int) -> UnknownEvent:
    if not length or addr + length > _ADDRESSES:
        raise ValueError(f"member length is {length}, and not a whole number from 1 to 4096, of bytes below 2^52")
    return UnknownEvent(time, addr, length)


# What each event is made by, and its members beside time: those that it has, and those that may be left out.
_EVENTS = {
    "request": (_request, ["id", "src", "txn", "op", "size", "addr", "endian"], ["be", "lanes"]),
    "data": (DataEvent, ["id", "be", "lanes"], []),
    "reply": (ReplyEvent, ["id", "reply"], []),
    "dropped": (DroppedEvent, ["id"], []),
    "refused": (RefusedEvent, ["id"], ["reason"]),
    "word": (_word, ["addr", "bytes"], ["final"]),
    "unknown": (_unknown, ["addr", "length"], []),
    "end": (EndEvent, [], []),
}


def _event(number: int, line: str) -> Event:
    try:
        found = json.loads(line)
    except (ValueError, RecursionError):
        raise ValueError(f"line {number} is not JSON") from None
    if not isinstance(found, dict):
        raise ValueError(f"line {number} is not an object")
    if "event" not in found:
        raise ValueError(f"line {number} member event is missing")
    name = found.pop("event")
    if not isinstance(name, str) or name not in _EVENTS:
        raise ValueError(f"line {number} member event is {json.dumps(name)[:40]}, and not the name of an event")
    make, wanted, others = _EVENTS[name]
    members = {}
    # Data stand with a request whole or not at all.
    both = others if name == "request" and any(it in found for it in others) else []
    for it in ["time", *wanted, *both, *(it for it in others if it in found)]:
        if it not in found:
            raise ValueError(f"line {number} member {it} is missing")
        members[it] = _member(number, it, found[it])
    for it in found:
        if it not in members and not it.startswith("x-"):
            raise ValueError(f"line {number} has an unknown member {it}")
    try:
        return make(**members)
    except ValueError as fault:
        raise ValueError(f"line {number} {fault}") from None


def read_events(text: str) -> list[Event]:
    """The events of some lines, in their order: their members, and that times do not fall. Whether they can come one after the other
    chicheck says. Raises ValueError with the line that is none.

    >>> read_events('{"time": 3, "event": "data", "id": 0, "be": 1, "lanes": "' + "05" * 16 + '"}\\n')[0].be
    1
    >>> read_events('{"time": 3, "event": "dropped"}\\n')
    Traceback (most recent call last):
    ValueError: line 1 member id is missing
    """
    events: list[Event] = []
    for number, line in enumerate(text.removeprefix("\ufeff").rstrip().split("\n"), 1):
        if line or number > 1:
            events.append(_event(number, line))
        if events[1:] and events[-1].time < events[-2].time:
            raise ValueError(f"line {number} is earlier than the event before it")
    return events
