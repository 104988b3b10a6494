"""Signals of a map: bits of variables of a VCD and constants, found by their names."""

import collections
import difflib
import re

from chi_waves.fault import COMMAND, Fault

# Some bits of a variable that has size bits: width of them, the lowest of which is at low from the right.
_Slice = collections.namedtuple("_Slice", "code size low width")
_BITS = re.compile(r"(.*)\[(\d{1,7})(?::(\d{1,7}))?\]")
_NAMES_SHOWN = 3
_WANTED = "a signal is a name, a constant or a list of them"


class Bits:
    """Bits that stand together, the highest first: width of them. sizes has how many bits each variable has that they are of."""

    def __init__(self, parts):
        self._parts = parts
        self.width = sum(len(it) if isinstance(it, str) else it.width for it in parts)
        self.sizes = {it.code: it.size for it in parts if not isinstance(it, str)}

    def text(self, values):
        """The bits, by the values of variables by their codes. Those of a variable without a value are x."""
        return "".join(it if isinstance(it, str) else self._of(it, values) for it in self._parts)

    @staticmethod
    def _of(part, values):
        value = values.get(part.code) or "x" * part.size
        return value[part.size - part.low - part.width : part.size - part.low]


class Signals:
    """The variables of a VCD, as signals of a map name them."""

    def __init__(self, variables):
        self._variables = variables

    def bits(self, signal):
        """The bits of a signal: a name with or without bits, as tb.req[10:4], a constant like {"value": "01"}, or a list of these
        with the highest bits first.

        A name may leave out scopes around all others, as the TOP of Verilator, where only one signal is meant.
        """
        parts = signal if isinstance(signal, list) else [signal]
        if not parts:
            raise Fault(_WANTED, COMMAND)
        return Bits([self._part(it) for it in parts])

    def _part(self, signal):
        if isinstance(signal, dict):
            value = signal.get("value")
            if set(signal) != {"value"} or not isinstance(value, str) or not re.fullmatch("[01xz]+", value):
                raise Fault('a constant is {"value": BITS}, and its bits are 0, 1, x or z', COMMAND)
            return value
        if not isinstance(signal, str):
            raise Fault(_WANTED, COMMAND)
        found, bits = self._find(signal), _BITS.fullmatch(signal)
        if found:
            return _Slice(found.code, found.size, 0, found.size)
        found = bits and self._find(bits[1])
        if not found:
            raise Fault(f"{signal} is not in the file{self._nearest(bits[1] if bits else signal)}", COMMAND)
        step = 1 if found.left >= found.right else -1
        high, low = (step * (int(it) - found.right) for it in (bits[2], bits[3] or bits[2]))
        if not 0 <= low <= high < found.size:
            raise Fault(f"{signal} has no such bits: the file has {bits[1]}[{found.left}:{found.right}]", COMMAND)
        return _Slice(found.code, found.size, low, high - low + 1)

    def _find(self, name):
        """The variable of a name, if there is one: that name, or the one that ends with it."""
        if name in self._variables:
            return self._variables[name]
        ends = {it: found for it, found in self._variables.items() if it.endswith(f".{name}")}
        if len({it.code for it in ends.values()}) > 1:
            raise Fault(f"{name} is the end of several names: {', '.join(sorted(ends)[:_NAMES_SHOWN])}", COMMAND)
        return next(iter(ends.values()), None)

    def _nearest(self, name):
        nearest = difflib.get_close_matches(name, self._variables, _NAMES_SHOWN)
        return f"; the nearest names are {', '.join(nearest)}" if nearest else ""
