"""Which words a granule's operations can leave, and where they stop being explained: every order is tried, as docs/EXPLAIN.md
says what an order is ("What the answer means"). Nothing is done to be fast but that what was met before is not tried again."""

import collections

from memory import execute, granule_of

# The reply is None where it was not seen. The number is that of the line that told the request.
Operation = collections.namedtuple("Operation", "request start end reply number")
MOST = 2**64 - 1
# How many states are tried at most: some histories have more orders than memory has room.
MOST_STATES = 100_000


class TooMany(Exception):
    """More states would have to be tried."""


def operations_of(trace, granule=None):
    """The operations of a trace, or of one granule, numbered by their places."""
    requests = enumerate(trace["requests"])
    return [Operation(it, it["start"], it.get("end", MOST), it["reply"], at) for at, it in requests if granule in (None, granule_of(it))]


def words_of(trace, name):
    """The words of granules at the opening (`image`) or at the end (`final`) of a trace of all addresses."""
    return {it["addr"]: bytes.fromhex(it["bytes"]) for it in trace[name]}


def can_come(operations, taken, it):
    """Whether an operation can come after those taken: none of them started after it had ended, and each that ended before it
    started and has to be taken is one of them."""
    for at, other in enumerate(operations):
        if at in taken:
            if it.end < other.start:
                return False
        elif other.end < it.start and other.reply is not None:
            return False
    return True


def taken_next(operations, taken, word, at):
    """The operations taken and the word once the one at this place is taken too, or None where it cannot come or was answered
    otherwise."""
    it = operations[at]
    if at in taken or not can_come(operations, taken, it):
        return None
    after, reply = execute(word, it.request)
    return (taken | {at}, after) if it.reply is None or it.reply.lower() == reply else None


def states_met(word, operations, left_out=frozenset()):
    """Each state to which operations but those at some places can come: those taken, and the word."""
    met, rest = set(), [(frozenset(), word)]
    while rest:
        state = rest.pop()
        if state in met:
            continue
        if len(met) == MOST_STATES:
            raise TooMany
        met.add(state)
        yield state
        following = (taken_next(operations, *state, at) for at in range(len(operations)) if at not in left_out)
        rest += filter(None, following)


def is_whole(operations, taken):
    """Whether each operation whose reply was seen is taken."""
    return all(at in taken or it.reply is None for at, it in enumerate(operations))


def words_left(word, operations):
    """The word after each order that has each operation whose reply was seen once and each other at most once, none before one
    that ended before it started, and each reply that was seen as the memory's answer. A word may come more than once."""
    return (word for taken, word in states_met(word, operations) if is_whole(operations, taken))


def is_end_of_order(word, operations, numbers):
    """Whether some order explains the operations, and ends with those of these numbers."""
    places = {it.number: at for at, it in enumerate(operations)}
    if not places.keys() >= set(numbers):
        return False
    last = [places[it] for it in numbers]
    return any(is_finished(operations, state, last) for state in states_met(word, operations, frozenset(last)))


def is_finished(operations, state, last):
    """Whether the operations at these places can be taken in turn from a state on, and are the last that have to be."""
    for at in last:
        state = state and taken_next(operations, *state, at)
    return bool(state) and is_whole(operations, state[0])


def is_explained(word, operations, final):
    """Whether some order explains the operations and leaves the final word (any, where that is None)."""
    return any(final in (None, it) for it in words_left(word, operations))


def known_by(operations, time):
    """What was known of the operations by a time: those that had started, with the replies of those that had ended."""
    return [it if it.end <= time else it._replace(reply=None) for it in operations if it.start <= time]


def first_unexplained(word, operations):
    """The first time up to which no order explains the operations, or None where one explains them all."""
    for time in sorted({it.end for it in operations if it.reply is not None}):
        if not is_explained(word, known_by(operations, time), None):
            return time
    return None


def suspects_at(word, operations, time):
    """The operations that were answered at a time without the answer of each of which what had happened by then can be explained,
    in the order of their requests."""
    return sorted((it for it in operations if is_suspect(word, operations, time, it)), key=lambda it: it.number)


def is_suspect(word, operations, time, it):
    unseen = [it._replace(reply=None) if other is it else other for other in operations]
    return it.end == time and it.reply is not None and is_explained(word, known_by(unseen, time), None)
