"""Which operations of a trace overlap or follow one another, by docs/COVERAGE.md alone: each is looked at beside all that are earlier."""

from collections import Counter

from histories import some_request
from memory import granule_of, length_of, name_of
from orders import operations_of

# The granules of two lines, where operations meet.
GRANULES = [4096, 4096, 4104, 4152, 4160, 4168]


def transaction_of(it):
    """The transaction of an operation, as AtomicLoad of AtomicLoad.ADD."""
    return name_of(it.request["op"]).split(".")[0]


def line_of(request):
    """The number of the request's line of 64 bytes."""
    return request["addr"] // 64


def share_a_byte(one, other):
    first, second = one.request, other.request
    return first["addr"] < second["addr"] + length_of(second) and second["addr"] < first["addr"] + length_of(first)


def last_with(key, earlier, it):
    """The last of the earlier operations with the key of this one, where it had ended before."""
    found = [other for other in earlier if key(other.request) == key(it.request)][-1:]
    return [other for other in found if other.end < it.start]


def bins_of(earlier, it):
    """The names of the bins of an operation beside the earlier ones, which are in their order."""
    name = transaction_of(it)
    overlaps = {f"{name} while {transaction_of(other)} was open" for other in earlier if other.end >= it.start and share_a_byte(other, it)}
    sequences = [f"{name} after {transaction_of(other)}" for other in last_with(granule_of, earlier, it)]
    on_line = [other for other in last_with(line_of, earlier, it) if granule_of(other.request) != granule_of(it.request)]
    return [*overlaps, *sequences, *(f"{name} after {transaction_of(other)} on the line" for other in on_line)]


def met(trace):
    """How many operations of a trace each of these bins counts."""
    operations = sorted(operations_of(trace), key=lambda it: it.start)
    return Counter(name for place, it in enumerate(operations) for name in bins_of(operations[:place], it))


def meeting(chance):
    """The requests of a trace in which many operations meet, of which some never end."""
    for _ in range(chance.randrange(60)):
        start = chance.randrange(100)
        end = {"end": start + chance.choice([0, 0, 1, 3, 10])} if chance.random() < 0.98 else {}
        yield {**some_request(chance, chance.choice(GRANULES), chance.randrange(3)), "start": start, **end, "reply": None}
