"""A request: its fields as they are sent, and requests by name, whose lanes and byte enables are made of numbers or bytes."""

from __future__ import annotations

import dataclasses
import operator
from typing import Optional, Union

from chi.library import op_name, want_bits

LANES = 16
OPERATIONS = ("ADD", "CLR", "EOR", "SET", "SMAX", "SMIN", "UMAX", "UMIN")
READ, WRITE, STORE, LOAD, SWAP, COMPARE = 0x04, 0x1C, 0x28, 0x30, 0x38, 0x39

# A number, which has a length and whose endian orders its bytes, or the bytes as they stand in memory.
Operand = Union[int, bytes]


@dataclasses.dataclass(frozen=True)
class Request:
    """A request by its fields, also one that a home refuses. lanes has the 16 bytes of the data packet, lane 0 first; bit i of be is
    the byte enable of lane i; endian is 1 where numbers are big-endian; src and txn are the requester's number and the request's.

    Its calls make requests that a home of their addresses accepts. Of what cannot be they raise ValueError.

    >>> request = Request.atomic_load("ADD", addr=0x1008, length=4, operand=5, src=1, txn=7)
    >>> request.name, request.size, hex(request.be), request.lanes.hex()
    ('AtomicLoad.ADD', 2, '0xf00', '00000000000000000500000000000000')
    >>> Request.swap(0x1002, 1, length=4)
    Traceback (most recent call last):
    ValueError: addr is 0x1002, and a multiple of 4 below 2^52 is wanted
    """

    opcode: int
    size: int
    addr: int
    be: int = 0
    lanes: bytes = bytes(LANES)
    endian: int = 0
    src: int = 0
    txn: int = 0

    def __post_init__(self) -> None:
        want_bits(opcode=(self.opcode, 8), size=(self.size, 8), addr=(self.addr, 64), be=(self.be, 16))
        want_bits(endian=(self.endian, 8), src=(self.src, 16), txn=(self.txn, 16))
        if len(self.lanes) != LANES:
            raise ValueError(f"lanes has {len(self.lanes)} bytes, and {LANES} are wanted")
        object.__setattr__(self, "lanes", bytes(self.lanes))

    @property
    def name(self) -> str:
        """The name of the opcode, as in a transcript."""
        return op_name(self.opcode)

    @property
    def length(self) -> int:
        """How many bytes the operand has: 2^size, and half of that in AtomicCompare."""
        return 1 << self.size >> (self.opcode == COMPARE)

    def returned(self, lanes: bytes) -> bytes:
        """The operand's bytes of the lanes that were answered.

        >>> Request.read(0x1004, 2).returned(bytes(range(16))).hex()
        '0405'
        """
        lane = self.addr % LANES
        return bytes(lanes[lane : lane + self.length])

    @classmethod
    def read(cls, addr: int, length: int, *, src: int = 0, txn: int = 0) -> Request:
        """ReadNoSnp of 1, 2, 4 or 8 bytes."""
        _want_length(length)
        _want_place(addr, length)
        return cls(READ, length.bit_length() - 1, addr, src=src, txn=txn)

    @classmethod
    def write(
        cls, addr: int, data: Operand, length: Optional[int] = None, *, enables: Optional[int] = None,
        endian: int = 0, src: int = 0, txn: int = 0,
    ) -> Request:
        """WriteNoSnpPtl of all bytes, or of those whose bit in enables is 1: bit k is that of the byte at addr + k.

        >>> hex(Request.write(0x1008, 0, length=8, enables=0b01000010).be)
        '0x4200'
        """
        whole = cls._of(WRITE, addr, data, length, endian, src, txn, "data")
        if enables is None:
            return whole
        want_bits(enables=(enables, whole.length))
        return dataclasses.replace(whole, be=enables << addr % LANES)

    @classmethod
    def atomic_store(
        cls, operation: str, addr: int, operand: Operand, length: Optional[int] = None, *,
        endian: int = 0, src: int = 0, txn: int = 0,
    ) -> Request:
        """AtomicStore of an operation, ADD to UMIN."""
        return cls._of(STORE + _operation(operation), addr, operand, length, endian, src, txn)

    @classmethod
    def atomic_load(
        cls, operation: str, addr: int, operand: Operand, length: Optional[int] = None, *,
        endian: int = 0, src: int = 0, txn: int = 0,
    ) -> Request:
        """AtomicLoad of an operation, ADD to UMIN."""
        return cls._of(LOAD + _operation(operation), addr, operand, length, endian, src, txn)

    @classmethod
    def swap(
        cls, addr: int, operand: Operand, length: Optional[int] = None, *, endian: int = 0, src: int = 0, txn: int = 0
    ) -> Request:
        """AtomicSwap."""
        return cls._of(SWAP, addr, operand, length, endian, src, txn)

    @classmethod
    def compare(
        cls, addr: int, expected: Operand, new: Operand, length: Optional[int] = None, *,
        endian: int = 0, src: int = 0, txn: int = 0,
    ) -> Request:
        """AtomicCompare: expected is its compare value, in the operand's lanes, and new its swap value, in the window's other half.

        >>> Request.compare(0x1004, expected=0, new=b"\\xaa\\xbb\\xcc\\xdd", length=4).lanes.hex()
        'aabbccdd000000000000000000000000'
        """
        compared = _bytes_of("expected", expected, length, endian)
        swapped = _bytes_of("new", new, len(compared), endian)
        lane = addr % LANES
        window = compared + swapped if lane % (2 * len(compared)) == 0 else swapped + compared
        _want_place(addr, len(compared))
        return cls._sends(COMPARE, addr, window, lane - lane % len(window), endian, src, txn)

    @classmethod
    def _of(
        cls, opcode: int, addr: int, operand: Operand, length: Optional[int], endian: int, src: int, txn: int, name: str = "operand"
    ) -> Request:
        sent = _bytes_of(name, operand, length, endian)
        _want_place(addr, len(sent))
        return cls._sends(opcode, addr, sent, addr % LANES, endian, src, txn)

    @classmethod
    def _sends(cls, opcode: int, addr: int, window: bytes, first: int, endian: int, src: int, txn: int) -> Request:
        """The request whose window begins at this lane and has these bytes, all of them enabled."""
        lanes = bytes(first) + window + bytes(LANES - first - len(window))
        be = ((1 << len(window)) - 1) << first
        return cls(opcode, len(window).bit_length() - 1, addr, be, lanes, endian, src, txn)


def _operation(name: str) -> int:
    if name not in OPERATIONS:
        raise ValueError(f"operation is {name!r}, and {', '.join(OPERATIONS[:-1])} or {OPERATIONS[-1]} is wanted")
    return OPERATIONS.index(name)


def _want_length(length: Optional[int]) -> None:
    if length not in (1, 2, 4, 8):
        raise ValueError(f"length is {length}, and 1, 2, 4 or 8 is wanted")


def _want_place(addr: int, length: int) -> None:
    if not 0 <= addr < 1 << 52 or addr % length:
        raise ValueError(f"addr is {addr:#x}, and a multiple of {length} below 2^52 is wanted")


def _bytes_of(name: str, value: Operand, length: Optional[int], endian: int) -> bytes:
    """The bytes of an operand, those of a negative number as two's complement."""
    if endian not in (0, 1):
        raise ValueError(f"endian is {endian!r}, and 0 for little-endian or 1 for big-endian is wanted")
    if isinstance(value, (bytes, bytearray)):
        _want_length(len(value) if length is None else length)
        if length not in (None, len(value)):
            raise ValueError(f"{name} has {len(value)} bytes, and {length} are wanted")
        return bytes(value)
    _want_length(length)
    number, values = operator.index(value), 1 << 8 * length
    if not -values // 2 <= number < values:
        raise ValueError(f"{name} is {number}, and a number from {-values // 2} to {values - 1} is wanted")
    return (number % values).to_bytes(length, "big" if endian else "little")
