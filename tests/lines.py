"""Events and flits as lines, and what a watch says of them: its counts, and the lines that say how far a granule can be explained."""

import json

MOST = 2**64 - 1
ADD, READ, STORE, WRITE = 48, 4, 40, 28
LOW, HIGH = 0x1000, 0x1008


def line(event, time, **members):
    return json.dumps({"time": time, "event": event, **members}) + "\n"


def packet(number, addr=HIGH):
    """The lanes of eight bytes, little-endian."""
    word = number.to_bytes(8, "little").hex()
    return f"{0:016x}{word}" if addr % 16 else f"{word}{0:016x}"


def data_of(number, addr=HIGH):
    return {"be": 0xFF00 if addr % 16 else 0xFF, "lanes": packet(number, addr)}


def asks(time, number, op=ADD, addr=HIGH, **more):
    """A request of eight bytes without its data."""
    members = {"src": 1, "txn": 2, "op": op, "size": 3, "addr": addr, "endian": 0, **more}
    return line("request", time, id=number, **members)


def adds(time, number, addr=HIGH, **more):
    """An AtomicLoad ADD of 1 with its data."""
    return asks(time, number, addr=addr, **{**data_of(1, addr), **more})


def reads(time, number, addr=HIGH):
    return asks(time, number, READ, addr)


def answers(time, number, value, addr=HIGH):
    """The completion: a number is the data, and else it is as it stands."""
    return line("reply", time, id=number, reply=packet(value, addr) if isinstance(value, int) else value)


def sends(time, number, value=1, addr=HIGH):
    return line("data", time, id=number, **data_of(value, addr))


def drops(time, number):
    return line("dropped", time, id=number)


def refuses(time, number, reason=None):
    return line("refused", time, id=number, **({"reason": reason} if reason else {}))


def holds(time, number, addr=HIGH, **more):
    """The granule's word."""
    return line("word", time, addr=addr, bytes=number.to_bytes(8, "little").hex(), **more)


def leaves(time, number, addr=HIGH):
    """The granule's word at the end."""
    return holds(time, number, addr, final=True)


def forgets(time, addr, length):
    return line("unknown", time, addr=addr, length=length)


def ends(time):
    return line("end", time)


def done(start, value, op=ADD, addr=HIGH, number=0, **more):
    """An operation from a time to the next one."""
    request = adds(start, number, addr, **more) if op == ADD else asks(start, number, op, addr, **more)
    return request + answers(start + 1, number, value, addr)


def flit(channel, time, **members):
    """A flit: numbers in hex, texts as they stand, and what is None left out."""
    texts = {name: f"{it:x}" if isinstance(it, int) else it for name, it in members.items() if it is not None}
    return json.dumps({"time": time, "channel": channel, **texts}) + "\n"


def point(time, src, txn, **more):
    """That the request of a requester and a TxnID takes effect."""
    return flit("POINT", time, src=src, txn=txn, **more)


def lanes(number, addr=LOW):
    """The digits of 16 lanes: of a number little-endian from the address on."""
    return f"{number << addr % 16 * 8:032x}"


def req(time, src, txn, op, addr=LOW, size=3, **more):
    return flit("REQ", time, **{"src": src, "txn": txn, "opcode": op, "size": size, "addr": addr, "endian": "x" if op == READ else 0, **more})


def rsp(time, tgt, txn, op, dbid="x", resp_err=0, **more):
    return flit("RSP", time, tgt=tgt, txn=txn, opcode=op, resp_err=resp_err, dbid=dbid, **more)


def rdat(time, tgt, txn, data, addr=LOW, **more):
    """CompData of a bus of 16 bytes."""
    data = lanes(data, addr) if isinstance(data, int) else data
    return flit("RDAT", time, **{"tgt": tgt, "txn": txn, "opcode": 4, "resp_err": 0, "data_id": addr // 16 % 4, "data": data, **more})


def wdat(time, src, dbid, data, addr=LOW, **more):
    """NonCopyBackWrData of eight bytes on a bus of 16."""
    data = lanes(data, addr) if isinstance(data, int) else data
    enables = f"{0xFF << addr % 16:04x}"
    return flit("WDAT", time, **{"src": src, "txn": dbid, "opcode": 3, "data_id": addr // 16 % 4, "be": enables, "data": data, **more})


def waits(number, since, what, request=f"1 2 30 AtomicLoad.ADD 3 {HIGH:016x}"):
    """The line of a request that is outstanding at the end."""
    return f"    line {number} since {since}: {request} waits for its {what}\n"


def counts(ended, outstanding=0, granules=1, unjudged=0, waiting=""):
    text = f"  operations that ended: {ended}\n  requests outstanding: {outstanding}\n{waiting}"
    return f"{text}  granules: {granules}\n  granules not judged: {unjudged}\n"


# What the lines begin with that show a granule's last operations, and how an order of them ends; and those that say how far it can
# be explained.
ROWS = ("  the last operations of the granule, ", "    line ", "  > line ", "    no home answers so: ", "    legal would be: ", "    unlike each ", "  up to ", "    last written ")
REACH = ("at ", "  the granule can hold ", "  and ", "  open from ", "  explained up to ", "  any one of these answers ", *ROWS)


def without_reach(answer):
    """An answer without the lines that say how far a granule can be explained."""
    return "".join(it for it in answer.decode().splitlines(True) if not it.startswith(REACH))


def found(*places):
    """The lines of granules that are not explained, but how far they can be: each a granule and a line, or None at the end."""
    return "".join(f"not explained: granule {it:016x}\n" + (f"  at line {at}\n" if at else "  at the end\n") for it, at in places)


LOST = done(10, 0) + done(30, 0)


def overlapping(count, addr):
    """Stores that overlap, each with a bit of its own."""
    starts = [asks(100, it, STORE, addr, **data_of(1 << it, addr)) for it in range(count)]
    return "".join(starts) + "".join(answers(101, it, "comp") for it in range(count))


def example(name):
    with open(f"examples/events/{name}.jsonl", encoding="utf-8") as file:
        return file.read()
