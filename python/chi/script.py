"""Requests as texts: the script that chihome runs (docs/FORMATS.md), and rows with what each returns, for a bench (c/rows.txt)."""

from __future__ import annotations

import json
from collections.abc import Iterable, Iterator
from typing import Any, Optional

from chi.library import Refused
from chi.memory import Image, Memory, decode, image_bytes
from chi.request import Request

_MOST_GRANULES, _MOST_REQUESTS = 512, 4096
# The greatest value of the members of a script that are less than those of a Request.
_MOST = {"src": 7, "txn": 255, "size": 7, "endian": 1}


def _members(number: int, request: Request) -> dict[str, Any]:
    """The members of the request with this number in a script."""
    for name, most in _MOST.items():
        if getattr(request, name) > most:
            raise ValueError(f"{name} of request {number} is {getattr(request, name)}, and a number up to {most} is wanted")
    whose = {"src": request.src, "txn": request.txn, "op": request.opcode, "size": request.size, "addr": request.addr}
    return {**whose, "endian": int(request.endian), "be": request.be, "lanes": request.lanes.hex()}


def script(requests: Iterable[Request], *, base: int, granules: int, image: Optional[Image] = None) -> str:
    """The script of these requests on a region, with the image that its memory has at first. Raises ValueError where there is none,
    with the number of the request from 0 on.

    >>> print(script([Request.read(0x1008, 4, txn=1)], base=0x1000, granules=2))
    {"base":4096,"granules":2,"requests":[
    {"src":0,"txn":1,"op":4,"size":2,"addr":4104,"endian":0,"be":0,"lanes":"00000000000000000000000000000000"}]}
    """
    if not 1 <= granules <= _MOST_GRANULES:
        raise ValueError(f"granules is {granules}, and a number from 1 to {_MOST_GRANULES} is wanted")
    if not 0 <= base <= (1 << 52) - 8 * granules or base % 64:
        raise ValueError(f"base is {base:#x}, and a multiple of 64 is wanted, with {granules} granules below 2^52")
    lines = [json.dumps(_members(number, it), separators=(",", ":")) for number, it in enumerate(requests)]
    if len(lines) > _MOST_REQUESTS:
        raise ValueError(f"requests are {len(lines)}, and at most {_MOST_REQUESTS} are wanted")
    held = "" if image is None else f'"image":"{image_bytes(base, granules, image).hex()}",'
    return f'{{"base":{base},"granules":{granules},{held}"requests":[\n' + ",\n".join(lines) + "]}"


def _row(memory: Memory, request: Request) -> str:
    """The columns of a row after the granules: the request is served, so the memory changes."""
    number, granule = 0, 0
    try:
        granule = decode(request, memory.base, memory.granules).granule
        lanes = memory.serve(request)
        reply = "comp" if lanes is None else lanes.hex()
    except Refused as refused:
        number, reply = refused.number, "-"
    held = memory.granule(granule) if memory.granules else bytes(8)
    fields = f"{request.opcode:02x} {request.size} {request.addr:x} {request.endian:d} {request.be:04x} {request.lanes.hex()}"
    return f"{fields} {number} {reply} {granule} {held.hex()}"


def rows(name: str, requests: Iterable[Request], *, base: int, granules: int) -> Iterator[str]:
    """The rows of these requests, in this order on a memory of zeros, with what the library answers: lines for a bench that compares a
    design with the reference. dv/tb.sv reads them by +rows=FILE. Rows of another name begin with another memory.

    >>> print(*rows("bytes", [Request.write(0x1007, b"\\x05"), Request.read(0x1006, 2)], base=0x1000, granules=8), sep="\\n")
    bytes 1000 8 1c 0 1007 0 0080 00000000000000050000000000000000 0 comp 0 0000000000000005
    bytes 1000 8 04 1 1006 0 0000 00000000000000000000000000000000 0 00000000000000050000000000000000 0 0000000000000005
    """
    if name.split() != [name] or name.startswith("#") or len(name) > 63:
        raise ValueError(f"name is {name!r}, and a word of at most 63 letters that begins without # is wanted")
    memory = Memory(base, granules)
    return (f"{name} {base:x} {granules} {_row(memory, it)}" for it in requests)
