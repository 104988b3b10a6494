#!/usr/bin/env python3
"""Traffic that is measured, as events for `chicheck watch`: traffic.py OPERATIONS [GRANULES [REQUESTERS [OPEN [SEED [flits]]]]]

A memory executes operations of eight bytes by chance, one at each time: 30 % reads, 20 % swaps, the rest AtomicLoad ADD. Each
requester has one outstanding; with OPEN above 0 so many of them always are. Requests and replies are a line each. With `flits` the same
traffic is that of a port, for `chicheck watch --flits`: of a read two flits, of an atomic four, on a bus of 16 bytes."""

import json
import os
import random
import sys

sys.dont_write_bytecode = True
sys.path.append(f"{os.path.dirname(os.path.abspath(__file__))}/../tests/oracle")

from memory import COMPARE, LOAD, READ, SWAP, enabled, execute

ADD, BASE = LOAD, 4096
# What is drawn how often: each operation below its number, and above that of the one before.
USUAL = [(0.3, READ), (0.5, SWAP), (1, ADD)]
WITH_COMPARES = [(0.3, READ), (0.45, SWAP), (0.6, COMPARE), (1, ADD)]
line = json.JSONEncoder(separators=(",", ":")).encode


def packet(addr, number, other=0):
    """The lanes of eight bytes, and of the other eight."""
    halves = [it.to_bytes(8, "little").hex() for it in (number, other)]
    return "".join(halves[:: -1 if addr % 16 else 1])


def request(op, addr, sent, src, found=None):
    """A request of the eight bytes of a granule, an AtomicCompare with the number that it wants to find."""
    it = {"src": src, "txn": 1, "op": op, "size": 4 if op == COMPARE else 3, "addr": addr, "endian": 0}
    if op == READ:
        return it
    return it | {"be": enabled(it), "lanes": packet(addr, sent) if found is None else packet(addr, found, sent)}


def drawn(chance, words, mix, src):
    """A request by chance. Half of the compares want what the granule holds."""
    kind = chance.random()
    granule, op, sent = chance.randrange(len(words)), next(op for most, op in mix if kind < most), chance.randrange(1_000_000)
    found = None
    if op == COMPARE:
        found = int.from_bytes(words[granule], "little") if chance.random() < 0.5 else sent + 1
    return request(op, BASE + 8 * granule, sent, src, found)


def steps(chance, count, words, requesters, least_open=0, mix=USUAL):
    """The starts and the ends of operations: a time, the requester, its request, and where it ends the reply. A request is executed
    where it starts, or where it ends, by chance, and changes the granules' words."""
    waiting, idle, time = [], list(range(requesters)), 0

    def executed(it):
        granule = (it["addr"] - BASE) // 8
        words[granule], reply = execute(words[granule], it)
        return reply

    while count or waiting:
        time += 1
        if count and idle and (len(waiting) <= least_open or chance.random() < 0.5):
            src = idle.pop(chance.randrange(len(idle)))
            it = drawn(chance, words, mix, src)
            yield time, src, it, None
            waiting.append((src, it, executed(it) if chance.random() < 0.5 else None))
            count -= 1
        else:
            src, it, reply = waiting.pop(chance.randrange(len(waiting)))
            yield time, src, it, reply or executed(it)
            idle.append(src)


def events(time, src, it, reply):
    """The event of a step."""
    if reply is None:
        return [{"time": time, "event": "request", "id": src} | it]
    return [{"time": time, "event": "reply", "id": src, "reply": reply}]


def digits(lanes):
    """The data of a flit: the last two digits are lane 0."""
    return bytes.fromhex(lanes)[::-1].hex()


def flits(time, src, it, reply):
    """The flits of a step: CompData, or the request and of an atomic its DBID and its data."""
    src, where = f"{src:x}", f"{it['addr'] // 16 % 4}"
    if reply is not None:
        return [{"time": time, "channel": "RDAT", "tgt": src, "txn": "1", "opcode": "4", "resp_err": "0", "data_id": where, "data": digits(reply)}]
    asked = {"time": time, "channel": "REQ", "src": src, "txn": "1", "opcode": f"{it['op']:x}", "size": "3", "addr": f"{it['addr']:x}", "endian": "0"}
    if it["op"] == READ:
        return [asked]
    taken = {"time": time, "channel": "RSP", "tgt": src, "txn": "1", "opcode": "6", "resp_err": "0", "dbid": "1"}
    data = {"data_id": where, "be": f"{it['be']:04x}", "data": digits(it["lanes"])}
    return [asked, taken, {"time": time, "channel": "WDAT", "src": src, "txn": "1", "opcode": "3"} | data]


def of_trace(it, **more):
    """A request as a trace has it, with its times and its reply."""
    return {"be": 0, "lanes": "0" * 32} | it | more


def traced(all_steps):
    """The requests of a trace."""
    started = {}
    for time, src, it, reply in all_steps:
        if reply is None:
            started[src] = time
        else:
            yield of_trace(it, start=started[src], end=time, reply=reply)


def main():
    count, granules, requesters, least_open, seed = [int(it) for it in sys.argv[1:6]] + [4096, 8, 0, 1][len(sys.argv[1:6]) - 1 :]
    told = flits if sys.argv[6:] == ["flits"] else events
    for step in steps(random.Random(seed), count, [bytes(8)] * granules, requesters, least_open):
        sys.stdout.writelines(line(it) + "\n" for it in told(*step))


if __name__ == "__main__":
    main()
