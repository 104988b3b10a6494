r"""Far atomics at a home node of AMBA 5 CHI, by the proved library libchi.so: requests by name, executed here, written for chihome or a
bench, and what chihome, chicheck and monitors write, read (docs/FROM-C.md).

>>> memory = Memory(0x1000, 8, image={0x1008: b"\x07"})
>>> add = Request.atomic_load("ADD", addr=0x1008, operand=1, length=8)
>>> memory.serve(add).hex()
'00000000000000000700000000000000'
>>> compare = Request.compare(addr=0x1008, expected=8, new=-1, length=4, txn=1)
>>> int.from_bytes(compare.returned(memory.serve(compare)), "little"), memory.granule(1).hex()
(8, 'ffffffff00000000')
>>> print(script([add, compare], base=0x1000, granules=8))
{"base":4096,"granules":8,"requests":[
{"src":0,"txn":0,"op":48,"size":3,"addr":4104,"endian":0,"be":65280,"lanes":"00000000000000000100000000000000"},
{"src":0,"txn":1,"op":57,"size":3,"addr":4104,"endian":0,"be":65280,"lanes":"000000000000000008000000ffffffff"}]}
"""

from chi.answer import Answer, GranuleAnswer, Outstanding, read_answer
from chi.events import (
    DataEvent, DroppedEvent, EndEvent, RefusedEvent, ReplyEvent, RequestEvent, UnknownEvent, WordEvent, read_events,
)
from chi.library import Refused, op_name, result_name, version
from chi.memory import KINDS, Access, Memory, apply, decode
from chi.request import OPERATIONS, Request
from chi.script import rows, script
from chi.transcript import REFUSALS, GranuleLine, RequestLine, read_transcript

__all__ = [
    "Access", "Answer", "DataEvent", "DroppedEvent", "EndEvent", "GranuleAnswer", "GranuleLine", "KINDS", "Memory", "OPERATIONS",
    "Outstanding", "REFUSALS", "Refused", "RefusedEvent", "ReplyEvent", "Request", "RequestEvent", "RequestLine", "UnknownEvent",
    "WordEvent", "apply", "decode", "op_name", "read_answer", "read_events", "read_transcript", "result_name", "rows", "script", "version",
]
