#!/usr/bin/env python3
"""What the Python module chi makes: requests by name beside rows of c/rows.txt and the scripts of examples/, values that make none,
the memory that they open, and where the library is looked for."""

import json
import os
import shutil
import subprocess
import sys
import tempfile
from pathlib import Path

os.chdir(f"{os.path.dirname(os.path.abspath(__file__))}/..")
sys.dont_write_bytecode = True
sys.path.insert(0, "python")

import chi
from process import end, told
from chi import Request

FILLED = bytes(range(0xA0, 0xA8))
FF = b"\xff\xff"
BYTE = [Request.atomic_load(it, 0x1000, 0x3C, length=1) for it in chi.OPERATIONS] + [Request.swap(0x1000, b"\x3c")]
# Requests of the rows with these names.
ROWS = {
    "first_fetch_add": [Request.atomic_load("ADD", 0x1000, 1, length=8)],
    "big_endian_carry": [Request.write(0x1006, FF), Request.atomic_load("ADD", 0x1006, 1, length=2, endian=1)],
    "little_endian_carry": [Request.write(0x1006, 0xFFFF, length=2), Request.atomic_load("ADD", 0x1006, 256, length=2)],
    "byte_smax": [Request.write(0x1000, -128, length=1), Request.atomic_store("SMAX", 0x1000, 127, length=1)],
    "byte_umax": [Request.write(0x1000, 128, length=1), Request.atomic_store("UMAX", 0x1000, 127, length=1)],
    "byte_add": [Request.write(0x1000, b"\x80"), Request.atomic_store("ADD", 0x1000, b"\x80")],
    "smin_big_endian": [Request.write(0x1000, 0x80, length=4), Request.atomic_load("SMIN", 0x1000, 0x80, length=4, endian=1)],
    "smin_little_endian": [Request.write(0x1000, 0x80, length=4), Request.atomic_load("SMIN", 0x1000, -(2**31), length=4)],
    "compare_one_byte_upper_half": [Request.compare(0x1003, 0, 0x5A, length=1)],
    "compare_eight_bytes_upper_half": [Request.compare(0x1008, 0, bytes.fromhex("1122334455667788"), length=8)],
    "compare_four_bytes_upper_half": [Request.compare(0x1004, bytes(4), 0xDDCCBBAA)],
    "compare_that_differs": [Request.compare(0x1000, 1, -1, length=4)],
    "write_of_no_bytes_then_two": [Request.write(0x1000, FILLED, enables=it) for it in (0, 0b01000010)],
    "misaligned_then_outside": [Request(0x38, 3, 0xFFC, 0xFF00), Request.swap(0xFF8, 0, length=8)],
    **{f"one_byte_by_{it.opcode:02x}": [Request.write(0x1000, b"\xf0"), it] for it in BYTE},
    "write_then_read_upper_half": [Request.write(0x1008, 0x0807060504030201, length=8), Request.read(0x100C, 4)],
    "same_transaction_twice": [Request.atomic_load("ADD", 0x1000, b"\x01" + bytes(7))] * 2,
    "compare_window_past_region": [Request.compare(it, 0, 0, length=8) for it in (0x1000, 0x1008)],
    "last_line": [Request.read(2**52 - 64, 8)],
}
# Those of each script in examples/, with how many granules it has and its image.
SCRIPTS = {
    "fetch_add": (8, None, [Request.atomic_load("ADD", 0x1000, 1, length=8, txn=1)]),
    "compare": (2, None, [Request.compare(addr, 0, b"\xaa\xbb\xcc\xdd", length=4, txn=txn) for addr, txn in [(0x1000, 1), (0x100C, 2)]]),
    "image": (2, {0x1008: b"\xff", 0x1000: b"\x07"}, [Request.atomic_load("ADD", 0x1008, 1, length=8, txn=1)]),
    "misaligned": (1, None, [Request(0x38, 3, 4092, 0x00FF, txn=5)]),
    "race": (2, None, [
        Request.swap(0x1000, bytes.fromhex("1122334455667788"), src=1, txn=1),
        Request.atomic_store("ADD", 0x1008, 1, length=8, src=2, txn=2),
        Request.read(0x1000, 8, txn=3),
    ]),
    "race_of_four": (4, None, [
        *(Request.swap(0x0FF8 + 8 * it, it, length=8, src=it, txn=it) for it in range(1, 5)), Request.read(0x1018, 8, txn=5)
    ]),
}
ADD = Request.atomic_load("ADD", 0x1000, 1, length=8)
LENGTH, PLACE = "1, 2, 4 or 8 is wanted", "a multiple of 4 below 2^52 is wanted"
# What makes no request, script or memory, and why not.
NONE = [
    (lambda: Request.read(0x1000, 3), f"length is 3, and {LENGTH}"),
    (lambda: Request.read(0x1000, 16), f"length is 16, and {LENGTH}"),
    (lambda: Request.swap(0x1000, 1), f"length is None, and {LENGTH}"),
    (lambda: Request.swap(0x1000, bytes(3)), f"length is 3, and {LENGTH}"),
    (lambda: Request.swap(0x1000, bytes(4), length=8), "operand has 4 bytes, and 8 are wanted"),
    (lambda: Request.swap(0x1000, 256, length=1), "operand is 256, and a number from -128 to 255 is wanted"),
    (lambda: Request.write(0x1000, -129, length=1), "data is -129, and a number from -128 to 255 is wanted"),
    (lambda: Request.write(0x1000, 0, length=2, enables=4), "enables is 0x4, and a number of 2 bits is wanted"),
    (lambda: Request.swap(0x1002, 1, length=4), f"addr is 0x1002, and {PLACE}"),
    (lambda: Request.compare(0x1002, 1, 2, length=4), f"addr is 0x1002, and {PLACE}"),
    (lambda: Request.read(2**52, 4), f"addr is 0x10000000000000, and {PLACE}"),
    (lambda: Request.read(-4, 4), f"addr is -0x4, and {PLACE}"),
    (lambda: Request.compare(0x1000, bytes(4), bytes(8)), "new has 8 bytes, and 4 are wanted"),
    (lambda: Request.compare(0x1000, 65536, 0, length=2), "expected is 65536, and a number from -32768 to 65535 is wanted"),
    (lambda: Request.atomic_store("AND", 0x1000, 1, length=1), f"operation is 'AND', and {', '.join(chi.OPERATIONS[:7])} or UMIN is wanted"),
    (lambda: Request.swap(0x1000, b"\x01", endian=2), "endian is 2, and 0 for little-endian or 1 for big-endian is wanted"),
    (lambda: Request(256, 0, 0x1000), "opcode is 0x100, and a number of 8 bits is wanted"),
    (lambda: Request(0x30, 0, 0x1000, lanes=bytes(8)), "lanes has 8 bytes, and 16 are wanted"),
    (lambda: chi.script([ADD, Request.read(0, 8, src=8)], base=0, granules=1), "src of request 1 is 8, and a number up to 7 is wanted"),
    (lambda: chi.script([ADD] * 4097, base=0, granules=1), "requests are 4097, and at most 4096 are wanted"),
    (lambda: chi.script([], base=32, granules=1), "base is 0x20, and a multiple of 64 is wanted, with 1 granules below 2^52"),
    (lambda: chi.script([], base=0, granules=513), "granules is 513, and a number from 1 to 512 is wanted"),
    (lambda: chi.rows("two words", [], base=0, granules=1), "name is 'two words', and a word of at most 63 letters that begins without # is wanted"),
    (lambda: chi.Memory(0, 1, image=bytes(7)), "image has 7 bytes, and 8 are wanted"),
    (lambda: chi.Memory(64, 1).bytes(63, 2), "bytes are 2 from 0x3f on, and some from 0x40 to 0x47 are wanted"),
    (lambda: chi.Memory(64, 1).bytes(71, 2), "bytes are 2 from 0x47 on, and some from 0x40 to 0x47 are wanted"),
    (lambda: chi.apply(ADD, bytes(7)), "granule has 7 bytes, and 8 are wanted"),
]


def fault_of(call, *arguments):
    """What a call refuses its arguments with."""
    try:
        return f"nothing, but {call(*arguments)!r}"
    except ValueError as fault:
        return str(fault)


def rows():
    lines = [it for it in Path("c/rows.txt").read_text(encoding="ascii").splitlines() if not it.startswith("#")]
    for name, requests in ROWS.items():
        wanted = [it for it in lines if it.split()[0] == name]
        base, granules = wanted[0].split()[1:3]
        found = list(chi.rows(name, requests, base=int(base, 16), granules=int(granules)))
        told(f"rows {name}: {found} in place of {wanted}", found == wanted)


def scripts():
    told("other scripts than those in examples", {f"{it}.json" for it in SCRIPTS} == {it.name for it in Path("examples").glob("*.json")})
    for name, (granules, image, requests) in SCRIPTS.items():
        found = json.loads(chi.script(requests, base=4096, granules=granules, image=image))
        told(f"script {name}: {found}", found == json.loads(Path(f"examples/{name}.json").read_text()))


def refused():
    for call, wanted in NONE:
        found = fault_of(call)
        told(f"{found} in place of {wanted}", found == wanted)


def memories():
    """The image of a memory, by all its bytes and by addresses, and what it holds after a request."""
    whole = chi.Memory(0x1000, 2, image=bytes(range(16)))
    parts = chi.Memory(0x1000, 2, image={0x1001: bytes(range(1, 16))})
    for memory in [whole, parts]:
        told("the bytes of two granules", memory.bytes(0x1007, 3) == b"\x07\x08\x09" and memory.bytes(0x1010, 0) == b"")
        memory.serve(0x1C, 0, 0x1008, 0x0100, bytes([0] * 8 + [0xFF] + [0] * 7))
        told("a byte that was written", memory.granule(1) == b"\xff" + bytes(range(9, 16)))
    try:
        whole.serve(Request.read(0x1010, 1))
        told("a read outside of the region", False)
    except chi.Refused as refused:
        told("a read outside of the region", (refused.number, str(refused)) == (5, "OutOfRegion"))


def import_fault(folder, **named):
    """Why the module cannot be imported from this folder."""
    words = [sys.executable, "-B", "-c", "import chi"]
    ran = subprocess.run(words, cwd=folder, env={**os.environ, **named}, capture_output=True, text=True, timeout=60)
    return ran.stderr.splitlines()[-1] if ran.returncode == 1 else f"none, but {ran}"


def libraries():
    """Where no library is, the fault says where it was looked for, and how it is made."""
    how = "make lib in the repository makes out/libchi.so, and CHI_LIBRARY may name it"
    with tempfile.TemporaryDirectory() as made:
        folder = os.path.realpath(f"{made}/a/b/c/d")
        shutil.copytree("python/chi", f"{folder}/chi")
        Path(f"{folder}/libchi.so").write_text("what the system finds is no library\n")
        fault = import_fault(folder, LD_LIBRARY_PATH=folder)
        for place in [f"{folder}/chi/libchi.so", os.path.realpath(f"{folder}/../out/libchi.so"), how]:
            told(f"no library: {fault}", fault.startswith("ImportError: no libchi.so: ") and place in fault)
        for file in [f"{folder}/none.so", f"{folder}/chi/library.py"]:
            fault = import_fault(folder, CHI_LIBRARY=file)
            told(f"another file: {fault}", fault.startswith("ImportError: no libchi.so: ") and f"; CHI_LIBRARY names {file}; {how}" in fault)


for tried in [rows, scripts, refused, memories, libraries]:
    tried()
end(65)
