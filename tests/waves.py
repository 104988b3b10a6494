#!/usr/bin/env python3
"""The program chi-waves as a process: the flits of waves by hand, how values and names are read, and each fault (docs/WAVES.md)."""

import doctest
import gzip
import importlib
import json
import os
import subprocess
import sys
import tempfile
from pathlib import Path

os.chdir(f"{os.path.dirname(os.path.abspath(__file__))}/..")
sys.dont_write_bytecode = True
sys.path.insert(0, "python")
os.environ["PYTHONPATH"] = "python"

from process import end, run, told

PROGRAM = [sys.executable, "-B", "-m", "chi_waves"]
MAP, VCD = "examples/waves/map.json", "examples/waves/stale_read.vcd"
WAVES = Path(VCD).read_text()
X = "x" * 32
WORD, WRITE, DBID, DATA, COMP, READ, REPLY, LAST, END = LINES = [
    '{"time":2,"event":"word","addr":4096,"bytes":"0500000000000000"}',
    '{"time":2,"channel":"REQ","src":"01","txn":"04","opcode":"1c","size":"3","addr":"0001000"}',
    '{"time":3,"channel":"RSP","tgt":"01","txn":"04","opcode":"6","resp_err":"0","dbid":"00"}',
    '{"time":4,"channel":"WDAT","src":"01","txn":"00","opcode":"3","data_id":"0","be":"00ff","data":"xxxxxxxxxxxxxxxx0000000000000006"}',
    '{"time":5,"channel":"RSP","tgt":"01","txn":"04","opcode":"4","resp_err":"0","dbid":"xx"}',
    '{"time":6,"channel":"REQ","src":"02","txn":"04","opcode":"04","size":"3","addr":"0001000"}',
    '{"time":7,"channel":"RDAT","tgt":"02","txn":"04","opcode":"4","resp_err":"0","data_id":"0","data":"00000000000000000000000000000005"}',
    '{"time":9,"event":"word","addr":4096,"bytes":"0600000000000000","final":true}',
    '{"time":9,"event":"end"}',
]


def tells(case, vcd, lines, status=0, fault="", text=None, **members):
    """What comes of a VCD by the map with other members at its top, those of None left out, or by this text: lines, status, fault."""
    found = {it: value for it, value in {**json.loads(Path(MAP).read_text()), **members}.items() if value is not None}
    with tempfile.TemporaryDirectory() as folder:
        Path(f"{folder}/waves").write_bytes(vcd if isinstance(vcd, bytes) else vcd.encode())
        Path(f"{folder}/map").write_text(text or json.dumps(found))
        ran = run(PROGRAM[0], [*PROGRAM[1:], f"{folder}/map", f"{folder}/waves"], "")
    status_found, out, errors = ran[0], ran[1].decode().splitlines(), ran[2].decode().replace(f"{folder}/", "")
    wanted = fault and f"chi-waves: {fault}\n"
    others = [it for it in out if it not in lines], [it for it in lines if it not in out]
    told(f"{case}: status {status_found}, {errors}{others}", (status_found, out, errors) == (status, lines, wanted))


def channel(name, **members):
    """The channel of the map with other members, those of None left out."""
    found = {**json.loads(Path(MAP).read_text())[name], **members}
    return {name: {it: value for it, value in found.items() if value is not None}}


def changed(*changes):
    """The waves with texts that stand there changed to others."""
    text = WAVES
    for old, new in changes:
        assert old in text, old
        text = text.replace(old, new)
    return text


def at(time, *changes):
    """The waves with more changes once the clock rose at this time."""
    return changed((f"#{time + 5}\n", "\n".join([*changes, f"#{time + 5}\n"])))


def without(*lines):
    return [it for it in LINES if it not in lines]


def instead(old, *new):
    """The lines with others in place of one of them."""
    place = LINES.index(old)
    return [*LINES[:place], *new, *LINES[place + 1 :]]


def timed(time_of):
    """The lines with other times."""
    return [it.replace(f'"time":{it[8]},', f'"time":{time_of(int(it[8]))},') for it in LINES]


def example():
    tells("the example", WAVES, LINES)
    tells("cycles are counted where nothing is said", WAVES, LINES, time=None)
    tells("no words", WAVES, without(WORD, LAST), words=None, base=None)
    tells("the times of the VCD", WAVES, timed({2: 30, 3: 40, 4: 50, 5: 60, 6: 70, 7: 80, 9: 90}.get), time="time")
    tells("compressed by gzip", gzip.compress(WAVES.encode()), LINES)
    more = [it.replace('"addr":"0001000"', '"addr":"0001000","endian":"0","excl":"1"') for it in LINES]
    tells("all members of REQ", WAVES, more, **channel("REQ", excl="tb.home.req[0]", endian={"value": "0"}))
    error = instead(DATA, DATA.replace('"opcode":"3"', '"opcode":"3","resp_err":"2"'))
    tells("all members of WDAT", WAVES, error, **channel("WDAT", resp_err={"value": "10"}))
    zero = '{"time":2,"event":"word","addr":4096,"bytes":"0000000000000000"}'
    first, last = WORD.replace("4096", "4104"), LAST.replace("4096", "4104")
    two = [zero, first, *LINES[1:7], zero.replace('"time":2', '"time":9').replace("}", ',"final":true}'), last, END]
    tells("two granules", WAVES, two, words=["tb.word", {"value": "0" * 64}])
    once = changed(("#75\n", "1(\n1-\n1$\n#75\n"), ("#85\n", "0(\n0-\n0$\n#85\n"))
    tells("all in one cycle", once, instead(REPLY, *(it.replace(it[8], "7", 1) for it in [COMP, REPLY, DATA, READ])))


def valid():
    """A flit is where valid and all bits of when are 1; where none of them is 0 and some are unknown its line says so."""
    line = f'{{"time":3,"channel":"WDAT","valid":"x","src":"xx","txn":"xx","opcode":"3","data_id":"0","be":"xxxx","data":"{X}"}}'
    for value in "xXzZUW-":
        tells(f"valid {value}", at(30, f"{value}("), instead(DBID, DBID, line))
    tells("valid H", at(30, "H("), instead(DBID, DBID, line.replace('"valid":"x",', "")))
    tells("valid L", at(30, "L("), LINES)
    both = channel("REQ", when=["tb.rst_n", "tb.home.req_line[7]"])
    unknown = [it.replace('"REQ",', '"REQ","valid":"x",').replace("0001000", "000X000") for it in LINES]
    tells("when is x", at(20, "b0x1000000 &"), unknown, **both)
    tells("when is 1", at(20, "b11000000 &"), [it.replace("0001000", "0003000") for it in LINES], **both)
    tells("when is 0", WAVES, without(WORD, WRITE, READ, LAST), **both)


def clock():
    """A rising edge is one of posedge: from 0, or to 1. Its time counts as a whole, and a first value is no edge."""
    tells("from x to 1", changed(('\n0!\n0"', '\nx!\n0"')), LINES)
    tells("from 0 to x to 1", at(10, "#11", "0!", "#12", "x!", "#13", "1!"), timed(lambda it: it + 2))
    tells("from 1 to x to 0", at(10, "#11", "x!", "#12", "0!", "#13", "z!", "#14"), timed(lambda it: it + 1))
    tells("twice at one time", f"{WAVES}0!\n#90\n1!\n", LINES)
    tells("no value at first", changed(("$dumpvars\n0!\n", "$dumpvars\n")), timed(lambda it: it - 1))
    tells("a bit of a vector", changed(("1 ! clk", "4 ! clk [4:1]")), LINES, clock="tb.clk[1]")
    again = ["1!", '1"', "0$", "0(", "0-", "0/", "b101 #"]
    tells("not dumped before the first flit", at(10, "$dumpoff", "x!", 'x"', "$end", "#12", "$dumpon", *again, "$end"), LINES)


def values():
    """Values that are written shorter than their variables, digits that are not known, and what else a VCD has."""
    line = f'{{"time":3,"channel":"WDAT","src":"01","txn":"zZ","opcode":"3","data_id":"0","be":"0XZf","data":"{X}"}}'
    tells("z at the left, digits in part x or z", at(30, "Bz01 *", "b1 )", "b1Xz1ZZ11111 +", "1("), instead(DBID, DBID, line))
    vhdl = line.replace('"txn":"zZ"', '"txn":"5X"').replace("0XZf", "xXZf")
    tells("the nine values of VHDL", at(30, "bLHLHWUZ- *", "bLLLLLLH )", "bWU-X-HZHZZLHHHHH +", "1("), instead(DBID, DBID, vhdl))
    tells("a digit of three bits", at(60, "bz00010000001z000100100x %"), instead(READ, READ.replace('"02","txn":"04","opcode":"04","size":"3"', '"Z2","txn":"0Z","opcode":"09","size":"X"')))
    noise = ["$comment b1 # is nothing $end", "r1.5 ~", "stext ~", "$dumpall", "b101", "#", "$end", '1! 1"']
    tells("others", changed(("$upscope", "$var real 64 ~ r $end\n$upscope"), ("#15\n", "\n".join([*noise, "#15\n"]))), LINES)


def names():
    tells("another name of the same", WAVES, LINES, clock="tb.home.clk")
    tells("without the scopes around all", changed(("$scope module tb", "$scope module TOP $end $scope module tb")), LINES)
    tells("a struct", changed(("$scope module home", "$scope struct home")), LINES)
    halves = channel("WDAT", be=["tb.home.wdat_be[0:7]", "tb.home.wdat_be[8:15]"])
    tells("indices that rise", changed(("wdat_be [15:0]", "wdat_be [0:15]")), LINES, **halves)
    tells("indices without a space", changed(("wdat_be [15:0]", "wdat_be[15:0]")), LINES)
    for name in ["tb.home.be[1]", "tb.home.be[1][15:0]"]:
        tells(f"an element: {name}", changed(("wdat_be [15:0]", "\\be[1] [15:0]")), LINES, **channel("WDAT", be=name))
    tells("a bit by itself", changed(("( wdat_valid", "( wdat_valid [3]")), LINES, **channel("WDAT", valid="tb.home.wdat_valid[3]"))
    tells("a list", WAVES, LINES, **channel("REQ", txn=[{"value": "0000"}, "tb.home.req[12]", "tb.home.req[11:9]"]))


def refused(case, fault, **members):
    """The map is refused."""
    tells(case, WAVES, [], 2, f"map: {fault}", **members)


def maps():
    refused("no JSON", "line 2 is not JSON", text="{\n")
    refused("no object", "the map is not an object", text="[]")
    refused("a member twice", "the map has clock twice in one object", text='{"clock":"a","clock":"b"}')
    refused("an unknown member", "the map has an unknown member RESP", RESP={})
    for name in ["clock", "RSP", "RDAT", "WDAT", "REQ"]:
        refused(f"no {name}", f"the map has no {name}", **{name: None})
    refused("another time", "time of the map is neither cycles nor time", time="ns")
    refused("no object", "REQ is not an object", REQ="tb")
    refused("no addr", "REQ has no member addr", **channel("REQ", addr=None))
    refused("a member of another channel", "RSP has an unknown member src", **channel("RSP", src="tb.clk"))
    refused("a base alone", "the map has one of words and base, and not both", words=None)
    for base in [4097, -8, 1 << 52, "4096", True]:
        refused(f"base {base}", "base is not an address of a granule: a multiple of 8, with all its words below 2^52", base=base)


def signals():
    near = "tb.home.req_valid, tb.home.rsp_valid, tb.home.rdat_valid"
    refused("a name", f"member valid of REQ: tb.home.rq_valid is not in the file; the nearest names are {near}", **channel("REQ", valid="tb.home.rq_valid"))
    refused("a name like none, of two lines", "clock: 7 8 is not in the file", clock="7\n8")
    refused("bits", "member src of REQ: tb.home.req[24:18] has no such bits: the file has tb.home.req[23:0]", **channel("REQ", src="tb.home.req[24:18]"))
    refused("bits the other way", "member src of REQ: tb.home.req[17:23] has no such bits: the file has tb.home.req[23:0]", **channel("REQ", src="tb.home.req[17:23]"))
    for value in ["2", "", 1]:
        refused(f"constant {value}", 'member size of REQ: a constant is {"value": BITS}, and its bits are 0, 1, x or z', **channel("REQ", size={"value": value}))
    for value in [3, [], [["tb.clk"]]]:
        refused(f"signal {value}", "member size of REQ: a signal is a name, a constant or a list of them", **channel("REQ", size=value))
    refused("a constant clock", "clock is a constant", clock={"value": "1"})
    twice = changed(("$var wire 6 ' req_offset", "$var wire 64 ~ word [63:0] $end\n$var wire 6 ' req_offset"))
    tells("a name of several", twice, [], 2, "map: words: word is the end of several names: tb.home.word, tb.word", words="word")
    for name, member, value, bits, wanted in [
        ("REQ", "addr", ["tb.word[59:0]"], 60, "at most 52 are wanted"),
        ("REQ", "src", "tb.home.req[16:0]", 17, "at most 16 are wanted"),
        ("REQ", "valid", "tb.home.req[1:0]", 2, "1 is wanted"),
        ("RDAT", "data", "tb.home.rdat_data[99:0]", 100, "128, 256 or 512 are wanted"),
        ("WDAT", "be", "tb.home.wdat_be[7:0]", 8, "16 are wanted, one for each byte of data"),
    ]:
        refused(f"{member} of {bits}", f"member {member} of {name} has {bits} bits, and {wanted}", **channel(name, **{member: value}))
    refused("a wide clock", "clock has 64 bits, and 1 is wanted", clock="tb.word")
    refused("words of 63 bits", "words has 63 bits, and a multiple of 64 is wanted", words="tb.word[63:1]")


def cut(case, vcd, fault, lines=()):
    """The VCD is refused, after some lines."""
    tells(case, vcd, list(lines), 3, f"waves: {fault}")


def vcds():
    last = WAVES.count("\n")
    cut("no VCD", "hello\n", "line 1 is no part of the head of a VCD")
    cut("bytes", bytes(range(256)), "line 1 is no part of the head of a VCD")
    for text in ["", WAVES[: WAVES.index("$enddef")]]:
        cut("no end of the head", text, "the file has no $enddefinitions: it is cut, or is no VCD")
    cut("cut in the head", WAVES[: WAVES.index("[63:0]")], "line 6 is cut: it has no end")
    cut("cut after a line of a section", "$scope module\n", "line 1 is cut: more has to follow")
    cut("a scope without a name", "$scope module $end\n", "line 1 has a $scope that is none of a VCD")
    cut("a size that is none", "$var wire x ! clk $end\n", "line 1 has a $var that is none of a VCD")
    cut("cut in the last line", WAVES[:-1], f"line {last} is cut: it has no end", LINES[:7])
    cut("cut before a code", f"{WAVES}b1\n", f"line {last + 1} is cut: more has to follow", LINES[:7])
    cut("gzip that is cut", gzip.compress(WAVES.encode())[:-9], f"line {last + 1} is cut: what gzip compressed is not whole", LINES[:7])
    cut("a code of no variable", f"{WAVES}1~\n", f"line {last + 1} has a value of ~, which is no variable", LINES[:7])
    cut("a value that is too long", f"{WAVES}b{'1' * 65} #\n", f"line {last + 1} has a value that its variable cannot have", LINES[:7])
    cut("a real value of bits", f"{WAVES}r1 #\n", f"line {last + 1} has a value that its variable cannot have", LINES[:7])
    cut("no change", f"{WAVES}hello\n", f"line {last + 1} has hello, which is no change of a value", LINES[:7])
    cut("a time that is too long", f"{WAVES}#{10**20}\n", f"line {last + 1} has #{10**20}, which is no change of a value", LINES[:7])
    cut("a time that falls", f"{WAVES}#89\n", f"line {last + 1} has time 89, after 90", LINES[:7])
    cut("a clock that stands", changed(("1!\n", "")), "the clock has no rising edge")
    cut("not dumped after a flit", at(40, "#44", "$dumpoff", "x!", "$end"), "from time 44 on values are not dumped ($dumpoff), so flits would be missing", LINES[:3])


def systems():
    for words, status, fault in [
        ([MAP, "none"], 5, "chi-waves: none: input could not be read\n"),
        (["none", VCD], 5, "chi-waves: none: input could not be read\n"),
        ([MAP, "examples"], 5, "chi-waves: examples: input could not be read\n"),
        ([MAP], 2, "usage: chi-waves [-h] MAP FILE.vcd\nchi-waves: error: the following arguments are required: FILE.vcd\n"),
    ]:
        answer = run(PROGRAM[0], [*PROGRAM[1:], *words], "")
        told(f"{words}: {answer}", answer == (status, b"", fault.encode()))
    with open("/dev/full", "wb") as full:
        ran = subprocess.run([*PROGRAM, MAP, VCD], stdout=full, stderr=subprocess.PIPE, timeout=60)
    told(f"a full disk: {ran}", (ran.returncode, ran.stderr) == (5, b"chi-waves: output could not be written\n"))
    reader, writer = os.pipe()
    os.close(reader)
    ran = subprocess.run([*PROGRAM, MAP, VCD], stdout=writer, stderr=subprocess.PIPE, timeout=60)
    told(f"a reader that has ended: {ran}", (ran.returncode, ran.stderr) == (5, b""))
    for file in sorted(Path("python/chi_waves").glob("[!_]*.py")) + [Path("python/chi_waves/__init__.py")]:
        module = importlib.import_module(".".join(file.with_suffix("").parts[1:]).replace(".__init__", ""))
        told(f"the examples of {file}", doctest.testmod(module).failed == 0)


for tried in [example, valid, clock, values, names, maps, signals, vcds, systems]:
    tried()
end(90)
