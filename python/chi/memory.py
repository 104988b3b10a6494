"""Requests executed by the library: on the granules of a region, on one granule, and decoded alone."""

from __future__ import annotations

import ctypes
import dataclasses
from collections.abc import Mapping
from typing import Any, Optional, Union

from chi.library import Refused, library, want_bits
from chi.request import LANES, OPERATIONS, Request

# In the order of the header's numbers.
KINDS = ("ReadNoSnp", "WriteNoSnpPtl", "AtomicStore", "AtomicLoad", "AtomicSwap", "AtomicCompare")
_GRANULE, _LINE = 8, 64

# All bytes of a region, or some by their addresses.
Image = Union[bytes, Mapping[int, bytes]]
# In the class the name bytes is that of its call.
_Bytes = bytes


def image_bytes(base: int, granules: int, image: Optional[Image]) -> bytes:
    """All bytes of a region, of which those that no image has are 0.

    >>> image_bytes(0x1000, 1, {0x1002: b"\\x07"}).hex()
    '0000070000000000'
    >>> image_bytes(0x1000, 1, {0x1006: b"\\x01\\x02\\x03"})
    Traceback (most recent call last):
    ValueError: image has 3 bytes at 0x1006, and bytes from 0x1000 to 0x1007 are wanted
    """
    length = _GRANULE * granules
    if image is None:
        return bytes(length)
    if not isinstance(image, Mapping):
        if len(image) != length:
            raise ValueError(f"image has {len(image)} bytes, and {length} are wanted")
        return bytes(image)
    whole = bytearray(length)
    for addr, part in image.items():
        if not base <= addr <= base + length - len(part):
            raise ValueError(f"image has {len(part)} bytes at {addr:#x}, and bytes from {base:#x} to {base + length - 1:#x} are wanted")
        whole[addr - base : addr - base + len(part)] = part
    return bytes(whole)


@dataclasses.dataclass(frozen=True)
class Access:
    """What an accepted request asks for: its kind, which is one of KINDS, the operation of AtomicStore and AtomicLoad, the operand's
    length in bytes, and the number of its granule in the region."""

    kind: str
    operation: Optional[str]
    length: int
    granule: int


def decode(request: Request, base: int, granules: int) -> Access:
    """Decodes a request to a region. Raises Refused.

    >>> decode(Request.atomic_store("UMAX", 0x100C, 1, length=4), base=0x1000, granules=8)
    Access(kind='AtomicStore', operation='UMAX', length=4, granule=1)
    """
    want_bits(base=(base, 64), granules=(granules, 16))
    kind, operation, length, granule = ctypes.c_uint8(), ctypes.c_uint8(), ctypes.c_uint8(), ctypes.c_uint16()
    number = library.chi_decode(
        base, granules, request.opcode, request.size, request.addr, request.be,
        *map(ctypes.byref, (kind, operation, length, granule)),
    )
    if number:
        raise Refused(number)
    named = OPERATIONS[operation.value] if operation.value < len(OPERATIONS) else None
    return Access(KINDS[kind.value], named, length.value, granule.value)


def apply(
    request: Request, granule: bytes, base: Optional[int] = None, granules: int = _LINE // _GRANULE
) -> tuple[bytes, Optional[bytes]]:
    """Executes a request on the eight bytes of its granule: those after it, and the 16 lanes that it returns or None. Raises Refused.
    Where no base is given, the region is the 64 bytes that hold the address.

    >>> after, lanes = apply(Request.swap(0x1004, b"\\xff\\x01"), bytes(range(8)))
    >>> after.hex(), lanes.hex()
    ('00010203ff010607', '00000000040500000000000000000000')
    """
    base = request.addr // _LINE * _LINE if base is None else base
    want_bits(base=(base, 64), granules=(granules, 16))
    if len(granule) != _GRANULE:
        raise ValueError(f"granule has {len(granule)} bytes, and {_GRANULE} are wanted")
    after, reply, has_lanes = ctypes.c_uint64(), ctypes.create_string_buffer(LANES), ctypes.c_uint8()
    number = library.chi_apply(
        base, granules, *_fields(request), int.from_bytes(granule, "little"), ctypes.byref(after), reply, ctypes.byref(has_lanes)
    )
    if number:
        raise Refused(number)
    return after.value.to_bytes(_GRANULE, "little"), reply.raw if has_lanes.value else None


class Memory:
    """The granules of a region, which hold the bytes of an image at first, or zeros. One thread at a time may use it.

    >>> memory = Memory(0x1000, 2, image={0x1008: b"\\xff"})
    >>> memory.serve(Request.atomic_load("ADD", 0x1008, 1, length=8)).hex()
    '0000000000000000ff00000000000000'
    >>> memory.bytes(0x1008, 2).hex()
    '0001'
    """

    def __init__(self, base: int, granules: int, image: Optional[Image] = None) -> None:
        want_bits(base=(base, 64), granules=(granules, 16))
        self.base = base
        self.granules = granules
        whole = image_bytes(base, granules, image)
        words = [int.from_bytes(whole[at : at + _GRANULE], "little") for at in range(0, len(whole), _GRANULE)]
        self._words = (ctypes.c_uint64 * max(granules, 1))(*words)

    def serve(self, request: Union[Request, int], *fields: Any, **named: Any) -> Optional[_Bytes]:
        """Serves a request, or the one of these fields of Request: the 16 lanes that it returns, or None where it returns no data.
        Raises Refused."""
        if not isinstance(request, Request):
            request = Request(request, *fields, **named)
        elif fields or named:
            raise TypeError("a Request has all fields, and no others are wanted")
        reply, has_lanes = ctypes.create_string_buffer(LANES), ctypes.c_uint8()
        number = library.chi_serve(self._words, self.granules, self.base, *_fields(request), reply, ctypes.byref(has_lanes))
        if number:
            raise Refused(number)
        return reply.raw if has_lanes.value else None

    def granule(self, number: int) -> _Bytes:
        """The eight bytes of a granule, in the order of their addresses."""
        if not 0 <= number < self.granules:
            raise IndexError(number)
        return self._words[number].to_bytes(_GRANULE, "little")

    def bytes(self, addr: int, length: int) -> _Bytes:
        """So many bytes from an address on."""
        end = self.base + _GRANULE * self.granules
        if length < 0 or not self.base <= addr <= end - length:
            raise ValueError(f"bytes are {length} from {addr:#x} on, and some from {self.base:#x} to {end - 1:#x} are wanted")
        first = (addr - self.base) // _GRANULE
        after = -(-(addr + length - self.base) // _GRANULE)
        whole = b"".join(map(self.granule, range(first, after)))
        skipped = (addr - self.base) % _GRANULE
        return whole[skipped : skipped + length]


def _fields(request: Request) -> tuple[int, int, int, int, int, bytes]:
    """The fields of a request in the order of the calls."""
    return request.opcode, request.size, request.addr, request.endian, request.be, request.lanes
