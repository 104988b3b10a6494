"""Data of pages, as chi_page writes it, and the page round it."""

import json
import os

HERE = os.path.dirname(os.path.abspath(__file__))
MEMBERS = ["request", "src", "txn", "op", "name", "size", "addr", "endian", "be", "lanes", "len", "start", "end", "reply"]
SCRIPTS = ["layout.js", "drawing.js", "moving.js", "details.js", "page.js"]


def operation(number, src, name, opcode, addr, start, end, reply, lanes="00" * 16, size=3, length=8, be=0, endian=0, txn=1):
    """An operation; its times are whole numbers."""
    return {"request": number, "src": src, "txn": txn, "op": opcode, "name": name, "size": size, "addr": f"{addr:016x}", "endian": endian,
            "be": be, "lanes": lanes, "len": length, "start": str(start), "end": None if end is None else str(end), "reply": reply}


def addition(number, src, start, end, reply, addr=0x1008):
    """An AtomicLoad.ADD of 1 to the eight bytes of a granule at an odd multiple of 8."""
    lane = addr % 16
    sent = "00" * lane + "01" + "00" * (15 - lane)
    back = None if reply is None else "00" * lane + reply + "00" * (8 - lane)
    return operation(number, src, "AtomicLoad.ADD", 48, addr, start, end, back, lanes=sent, be=0xFF << lane)


def step(place, before, after):
    """An operation of an order, with the words before and after it."""
    return {"place": place, "before": before.to_bytes(8, "little").hex(), "after": after.to_bytes(8, "little").hex()}


def granule(addr, finding, steps, opening="00" * 8, final=None):
    """What is known of a granule."""
    return {"granule": f"{addr:016x}", "finding": finding, "opening": opening, "final": final, "steps": steps}


def lost_update():
    """Two additions that both find 0, of which the second is blamed; a compare, a write and a read of other granules."""
    compare = operation(4, 3, "AtomicCompare", 57, 0x2004, 5, 25, "00" * 4 + "0700" + "00" * 10, lanes="00" * 4 + "0700aabb" + "00" * 8, size=2, length=2, be=0xF0, endian=1)
    ops = [compare, addition(0, 1, 10, 20, "00" * 8), operation(5, 4, "WriteNoSnpPtl", 28, 0x3000, 15, 30, "comp", lanes="0102030405060708" + "00" * 8, be=0x0F),
           addition(1, 2, 30, 40, "00" * 8), operation(2, 3, "ReadNoSnp", 4, 0x1008, 35, None, None), addition(3, 1, 50, 60, None)]
    blame = {"granule": f"{0x1008:016x}", "time": "40", "blamed": {"request": 1}, "suspects": [1, 3], "open": [{"request": 1}, {"request": 2}],
             "words": ["0200000000000000", "0100000000000000"], "legal": ["00" * 8 + "0100000000000000"]}
    granules = [granule(0x1008, "not explained", [step(1, 0, 1)]), granule(0x2000, "explained", [step(0, 0x0007 << 32, 0xBBAA << 32)], final="00000000aabb0000"),
                granule(0x3000, "undecided", [])]
    return {"blame": blame, "granules": granules, "operations": ops}


def many(count, granules, blamed=False):
    """So many additions of eight requesters, in turn to so many granules, each step overlapping the next few."""
    ops = [addition(n, n % 8, 10 * n, 10 * n + 35, (n // granules % 256).to_bytes(1, "little").hex() + "00" * 7, addr=0x1008 + 16 * (n % granules)) for n in range(count)]
    steps = [[] for _ in range(granules)]
    for place in range(count):
        of = steps[place % granules]
        of.append(step(place, len(of), len(of) + 1))
    drawn = [granule(0x1008 + 16 * n, "explained", steps[n]) for n in range(granules)]
    blame = None
    if blamed:
        place = count // 2
        drawn[0] = granule(0x1008, "not explained", steps[0][:place])
        blame = {"granule": f"{0x1008:016x}", "time": ops[place]["end"], "blamed": {"request": ops[place]["request"]}, "suspects": [ops[place]["request"]],
                 "open": [{"request": op["request"]} for op in ops[place:place + 4]], "words": None, "legal": []}
    return {"blame": blame, "granules": drawn, "operations": ops}


def trace(count):
    """A trace of so many additions to one granule, by eight requesters, each overlapping the next few."""
    sent, requests = "00" * 8 + "01" + "00" * 7, []
    for n in range(count):
        reply = "00" * 8 + n.to_bytes(8, "little").hex()
        requests.append({"src": n % 8, "txn": n % 256, "op": 48, "size": 3, "addr": 0x1008, "endian": 0, "be": 0xFF00, "lanes": sent,
                         "start": 10 * n, "end": 10 * n + 35, "reply": reply})
    return {"requests": requests}


def late_times():
    """Two operations next to each other in time, far past what a number holds exactly."""
    far = 2**64 - 1000
    ops = [addition(0, 1, far, far + 100, "00" * 8), addition(1, 2, far + 50, far + 200, "01" + "00" * 7)]
    return {"blame": None, "granules": [granule(0x1008, "explained", [step(0, 0, 1), step(1, 1, 2)])], "operations": ops}


def read(name):
    """A file of page/."""
    with open(f"{HERE}/{name}", encoding="ascii") as file:
        return "\n" + file.read()


def page(data):
    """The page of some data."""
    operations = [[op[it] for it in MEMBERS] for op in data["operations"]]
    granules = [{**it, "steps": [list(step.values()) for step in it["steps"]]} for it in data["granules"]]
    text = json.dumps({"blame": data["blame"], "granules": granules, "operations": operations}, separators=(",", ":"))
    script = "".join(read(it) for it in SCRIPTS)
    return ('<!DOCTYPE html>\n<html lang="en">\n<head>\n<meta charset="utf-8">\n<title>chicheck explain</title>\n<style>' + read("page.css")
            + '</style>\n</head>\n<body>\n<noscript>This page needs JavaScript.</noscript>\n<script type="application/json" id="trace">\n' + text
            + "</script>\n<script>" + script + "</script>\n</body>\n</html>\n")
