"""Samples of traces, and the lines of their witnesses."""

import json

MOST = 2**64 - 1
NAMES = {4: "ReadNoSnp", 28: "WriteNoSnpPtl", 40: "AtomicStore.ADD", 48: "AtomicLoad.ADD", 56: "AtomicSwap", 57: "AtomicCompare"}

# The sample's members as text: two AtomicLoad ADD of 1 to the eight bytes at 0x1008, which overlap.
OBJECT = {
    "base": "4096",
    "granules": "2",
    "image": '"0700000000000000ff00000000000000"',
    "final": '"07000000000000000101000000000000"',
}
FIRST = {
    "src": "200",
    "txn": "1",
    "op": "48",
    "size": "3",
    "addr": "4104",
    "endian": "0",
    "be": "65280",
    "lanes": '"00000000000000000100000000000000"',
    "start": "3",
    "end": "9",
    "reply": '"0000000000000000ff00000000000000"',
}
SECOND = {**FIRST, "reply": '"00000000000000000001000000000000"'}
UNEXPLAINED = "not explained: granule 0000000000001008\n"


# Each reason for which a home refuses a request, and the opcode, size, address and byte enables of such a request of the sample's
# two granules.
REASONS = {
    "UnknownOpcode": (29, 3, 4096, 255),
    "ReservedSize": (48, 7, 4096, 255),
    "SizeOutOfProfile": (57, 0, 4096, 1),
    "Misaligned": (56, 3, 4092, 255),
    "OutOfRegion": (56, 3, 4088, 65280),
    "BadByteEnable": (28, 1, 4096, 4),
}


def members(usual, changed):
    """The members of an object as text, some of them with another value, or left out where that is empty."""
    values = {name: changed.get(name, value) for name, value in usual.items()}
    return "".join(f'"{name}":{value},' for name, value in values.items() if value)


def sample(changed={}):
    """The sample, with some members changed or left out, a request's in the second."""
    first = members(FIRST, {}).rstrip(",")
    return f'{{{members(OBJECT, changed)}"requests":[{{{first}}},{{{members(SECOND, changed)}"x-more":[]}}],"x-more":{{}}}}'


def witness_of_sample(src=200, txn=1):
    """The sample's witness, its second request being of this requester and number."""
    add = "30 AtomicLoad.ADD 3 0000000000001008 data 0000000000000000"
    lines = f"200 1 {add}ff00000000000000\n{src} {txn} {add}0001000000000000\n"
    return f"{lines}m 0000000000001000 0700000000000000\nm 0000000000001008 0101000000000000\n"


def line(it):
    """The transcript's line of a completed request."""
    reply = it["reply"] if it["reply"] == "comp" else f"data {it['reply'].lower()}"
    return f"{it['src']} {it['txn']} {it['op']:02x} {NAMES[it['op']]} {it['size']} {it['addr']:016x} {reply}\n"


def adds(count):
    """So many adds of 1 to the eight bytes at 0x1008, one after the other."""
    usual = {name: json.loads(value) for name, value in FIRST.items()}
    return [{**usual, "start": it, "end": it, "reply": f"{0:016x}{it.to_bytes(8, 'little').hex()}"} for it in range(count)]


def refused_request(reason, **changed):
    """A request that was refused for this reason."""
    op, size, addr, be = REASONS[reason]
    lanes = json.loads(FIRST["lanes"])
    usual = {"src": 3, "txn": 4, "op": op, "size": size, "addr": addr, "endian": 0, "be": be, "lanes": lanes, "start": 5, "end": 6}
    return {**usual, "refused": reason, **changed}


# Of how many states, up to which time, and how many open.
UNDECIDED = """undecided: granule 0000000000001000 after {} states
{}  operations open at most: {}
"""


def request(src, op, addr, be, lanes, start, end, reply):
    """A completed request of eight bytes."""
    return {"src": src, "txn": 1, "op": op, "size": 3, "addr": addr, "endian": 0, "be": be,
            "lanes": lanes, "start": start, "end": end, "reply": reply}  # fmt: skip


def example(name):
    with open(f"examples/traces/{name}.json", "rb") as file:
        return file.read()


def sums(count):
    """Overlapping adds of even numbers, each a bit of its own, and a read beside them that answered an odd one, which is 1 more than the
    greatest of them. Each set of the others is a state, and none is right."""
    bits = [(2 << it).to_bytes(8, "little").hex() for it in range(count)]
    adds = [request(it, 40, 4096, 255, bits[it].ljust(32, "0"), 0, 9, "comp") for it in range(count)]
    found = ((1 << count) + 1).to_bytes(8, "little").hex().ljust(32, "0")
    return [*adds, request(count, 4, 4096, 0, f"{0:032x}", 0, 9, found)]


def adds_at_once(count, wrong, step=0):
    """So many adds that are all open at once, executed in the order of their numbers. The first adds 1, and each later one the step
    more. The answer of one has a bit that no add of them makes."""
    added = [1 + step * it for it in range(count)]
    found = [(sum(added[:it]) ^ (1 << 40 if it == wrong else 0)).to_bytes(8, "little").hex() for it in range(count)]
    sent = [it.to_bytes(8, "little").hex().ljust(32, "0") for it in added]
    return [request(it % 8, 48, 4096, 255, sent[it], 0, 1000 + 37 * it % count, found[it].ljust(32, "0")) for it in range(count)]
