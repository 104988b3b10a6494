"""The map of a home's port: which signals of the waves are the members of its flits."""

import collections
import json

from chi_waves.fault import COMMAND, SYSTEM, Fault

# Of one cycle what leaves stands before what comes (docs/FLITS.md).
_MEMBERS = {
    "RSP": ["tgt", "txn", "opcode", "resp_err", "dbid"],
    "RDAT": ["tgt", "txn", "opcode", "resp_err", "data_id", "data"],
    "WDAT": ["src", "txn", "opcode", "resp_err", "data_id", "be", "data"],
    "REQ": ["src", "txn", "opcode", "size", "addr", "endian", "excl"],
}
_MAY_BE_LEFT_OUT = {("WDAT", "resp_err"), ("REQ", "endian"), ("REQ", "excl")}
# How many bits a member has at most, so that no value is too great for a line.
_MOST = {
    **dict.fromkeys(["src", "tgt", "txn", "dbid"], 16),
    **dict.fromkeys(["valid", "endian", "excl"], 1),
    **dict.fromkeys(["resp_err", "data_id"], 2),
    **{"opcode": 8, "size": 3, "addr": 52},
}
_DATA = [128, 256, 512]
_NAMES = {"clock", "time", "words", "base", *_MEMBERS}

# A channel by its name: the bits that all have to be 1 where it has a flit, and those of each member in the order of a line.
Channel = collections.namedtuple("Channel", "name valid members")


def read_map(path):
    """The JSON of a map."""
    try:
        with open(path, encoding="utf-8") as file:
            found = json.load(file, object_pairs_hook=_object)
    except OSError:
        raise Fault("input could not be read", SYSTEM) from None
    except json.JSONDecodeError as fault:
        raise Fault(f"line {fault.lineno} is not JSON", COMMAND) from None
    except (ValueError, RecursionError):
        raise Fault("the map is not JSON", COMMAND) from None
    return found


def _object(members):
    names = [name for name, _ in members]
    for name in names:
        if names.count(name) > 1:
            raise Fault(f"the map has {name} twice in one object", COMMAND)
    return dict(members)


def _refuse_others(what, found, wanted):
    """Refuses what is no object, and members that it has not."""
    if not isinstance(found, dict):
        raise Fault(f"{what} is not an object", COMMAND)
    for name in found:
        if name not in wanted:
            raise Fault(f"{what} has an unknown member {name}", COMMAND)


def _want(is_so, what, width, wanted):
    """Refuses a width that cannot be."""
    if not is_so:
        raise Fault(f"{what} has {width} bits, and {wanted}", COMMAND)


class FlitMap:
    """A map whose names are found among the signals of a VCD, and whose widths can be.

    clock is a bit, channels has each Channel in the order of the lines of a cycle, words are the bits of the granules' words from
    base on or None, and is_cycles says that times are to be cycles. sizes has how many bits each variable has that is looked at.
    """

    def __init__(self, found, signals):
        self._signals = signals
        self.sizes = {}
        _refuse_others("the map", found, _NAMES)
        for name in ["clock", *_MEMBERS]:
            if name not in found:
                raise Fault(f"the map has no {name}", COMMAND)
        self.clock = self._bits("clock", found["clock"])
        _want(self.clock.width == 1, "clock", self.clock.width, "1 is wanted")
        if not self.clock.sizes:
            raise Fault("clock is a constant", COMMAND)
        if found.get("time", "cycles") not in ("cycles", "time"):
            raise Fault("time of the map is neither cycles nor time", COMMAND)
        self.is_cycles = found.get("time", "cycles") == "cycles"
        self.channels = [self._channel(name, found[name]) for name in _MEMBERS]
        self.words, self.base = self._memory(found)

    def _bits(self, what, signal):
        try:
            bits = self._signals.bits(signal)
        except Fault as fault:
            raise Fault(f"{what}: {fault}", COMMAND) from None
        self.sizes.update(bits.sizes)
        return bits

    def _channel(self, name, found):
        wanted = _MEMBERS[name]
        _refuse_others(name, found, {"valid", "when", *wanted})
        for it in ["valid", *wanted]:
            if it not in found and (name, it) not in _MAY_BE_LEFT_OUT:
                raise Fault(f"{name} has no member {it}", COMMAND)
        bits = {it: self._bits(f"member {it} of {name}", found[it]) for it in found}
        for it, value in bits.items():
            most = _MOST.get(it, value.width)
            wanted_bits = "1 is wanted" if most == 1 else f"at most {most} are wanted"
            _want(value.width <= most, f"member {it} of {name}", value.width, wanted_bits)
        if "data" in bits:
            width = bits["data"].width
            _want(width in _DATA, f"member data of {name}", width, "128, 256 or 512 are wanted")
            lanes = bits["be"].width if "be" in bits else width // 8
            _want(8 * lanes == width, f"member be of {name}", lanes, f"{width // 8} are wanted, one for each byte of data")
        valid = [bits["valid"], *([bits["when"]] if "when" in bits else [])]
        return Channel(name, valid, [(it, bits[it]) for it in wanted if it in bits])

    def _memory(self, found):
        if ("words" in found) != ("base" in found):
            raise Fault("the map has one of words and base, and not both", COMMAND)
        if "words" not in found:
            return None, 0
        words, base = self._bits("words", found["words"]), found["base"]
        _want(words.width % 64 == 0, "words", words.width, "a multiple of 64 is wanted")
        if type(base) is not int or base % 8 or not 0 <= base <= 2**52 - words.width // 8:
            raise Fault("base is not an address of a granule: a multiple of 8, with all its words below 2^52", COMMAND)
        return words, base
