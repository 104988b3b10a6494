"""Which bytes of a blamed answer no legal one has, and which operations of the order that is shown wrote them last, as docs/EXPLAIN.md
says it: by the other lines of an answer, and by what was told of the operations."""

import re

from memory import COMPARE, READ, WRITE, length_of

# The row of the blamed operation: its number, its operand's first place, and what came back.
BLAMED = re.compile(r"  > (?:request|line) +(\d+) .*?  \+(\d) L\d(?:.*  returned ([0-9a-f]+))?.*  requester ")
LEGAL = re.compile(r"    legal would be:  (?:returned ([0-9a-f]+)|comp)")
ORDER = re.compile(r"  up to \d+ in .*?(request|line)s((?: \d+)+)")
# How the lines begin.
UNLIKE = "    unlike each of these: "
WRITTEN = "    last written by "


def matches(pattern, lines):
    return list(filter(None, map(pattern.fullmatch, lines)))


def wrong_bytes(lines):
    """The bytes of the blamed answer that none of the legal ones has, by their places in the granule."""
    blamed = next(filter(None, map(BLAMED.match, lines)), None)
    legal = [it[1] for it in matches(LEGAL, lines)]
    if not blamed or not blamed[3] or not legal or None in legal:
        return {}
    own, legal = bytes.fromhex(blamed[3]), [bytes.fromhex(it) for it in legal]
    return {int(blamed[2]) + at: it for at, it in enumerate(own) if all(other[at] != it for other in legal)}


def writes(operation, place):
    """Whether an operation writes the byte at a place of its granule."""
    request, reply = operation.request, operation.reply
    at, lane, length = place - request["addr"] % 8, request["addr"] % 16, length_of(request)
    if not 0 <= at < length or request["op"] == READ:
        return False
    if request["op"] == WRITE:
        return bool(request["be"] >> (lane + at) & 1)
    operand = slice(2 * lane, 2 * (lane + length))
    return request["op"] != COMPARE or reply is None or reply.lower()[operand] == request["lanes"].lower()[operand]


def last_lines(lines, operations):
    """Who wrote the wrong bytes last: a line for each operation of the order, by their numbers, but the blamed one."""
    order, wrong = matches(ORDER, lines), wrong_bytes(lines)
    if not order or not wrong:
        return []
    blamed = next(filter(None, map(BLAMED.match, lines)))
    label, numbers = order[0][1], [int(it) for it in order[0][2].split()]
    last = {place: [it for it in numbers if it != int(blamed[1]) and writes(operations[it], place)][-1:] for place in wrong}
    places = {it: " ".join(f"+{place}" for place, who in last.items() if who == [it]) for it in numbers}
    return [f"{WRITTEN}{label} {it}: {places[it]}" for it in numbers if places[it]]


def told_lines(lines):
    """The lines that say so."""
    return [it for it in lines if it.startswith((UNLIKE, WRITTEN))]


def wanted_lines(lines, operations):
    """The lines that have to, beside the others."""
    wrong = ", ".join(f"+{place} is {it:02x}" for place, it in wrong_bytes(lines).items())
    return ([UNLIKE + wrong] if wrong else []) + last_lines(lines, operations)
