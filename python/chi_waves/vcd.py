"""A VCD file (IEEE 1364-2005, value change dump), as Verilator, Icarus Verilog, GHDL and others write it: its variables by their
names, and how their values change."""

import collections
import gzip
import re
import zlib

from chi_waves.fault import INPUT, SYSTEM, Fault
from chi_waves.values import extended

# What the file calls a variable, how many bits it has, and the indices of its highest and its lowest bit.
Variable = collections.namedtuple("Variable", "code size left right")
_NO_BITS = {"real", "realtime", "string", "event"}
_NUMBER = re.compile(r"\d{1,7}")
_INDICES = re.compile(r"\[(-?\d{1,7}):(-?\d{1,7})\]$")
# A time has at most so many digits.
_DIGITS = 20
# Values that GHDL writes besides: U, W and - of VHDL are not known, and L and H are weak.
_OF_VHDL = str.maketrans("UWLH-", "xx01x")


def open_vcd(path):
    """A file to read bytes of: what gzip compressed is told by its first bytes, and comes as it was before."""
    try:
        file = open(path, "rb")
        return gzip.open(file) if file.peek(2)[:2] == b"\x1f\x8b" else file
    except OSError:
        raise Fault("input could not be read", SYSTEM) from None


class Vcd:
    """The waves of a file that open_vcd opened. Its head is read at once, and the rest once, by steps.

    variables has each Variable by its whole name, as tb.home.clk. A variable with one index has it in its name, as tb.data[3] does
    that is a bit or an element by itself. Where something is wrong with the file there is a Fault, which names its line.
    """

    def __init__(self, file):
        self.variables = {}
        self._line = 0
        self._codes = set()
        self._words = self._read_words(file)
        self._read_head()

    def _fault(self, text):
        return Fault(f"line {self._line} {text}", INPUT)

    def _read_words(self, file):
        """Its words, one after the other. Where the file ends within a line it was cut."""
        line = b"\n"
        try:
            for line in file:
                self._line += 1
                yield from line.decode("latin-1").split()
        except (EOFError, zlib.error, gzip.BadGzipFile):
            self._line += 1
            raise self._fault("is cut: what gzip compressed is not whole") from None
        except OSError:
            raise Fault("input could not be read", SYSTEM) from None
        if not line.endswith(b"\n"):
            raise self._fault("is cut: it has no end")

    def _next(self):
        word = next(self._words, None)
        if word is None:
            raise self._fault("is cut: more has to follow")
        return word

    def _section(self):
        """The words up to $end."""
        found = []
        while (word := self._next()) != "$end":
            found.append(word)
        return found

    def _read_head(self):
        scopes = []
        for word in self._words:
            if not re.fullmatch(r"\$[a-z_]+", word):
                raise self._fault("is no part of the head of a VCD")
            section = self._section()
            if word == "$enddefinitions":
                return
            if word == "$scope" and len(section) == 2:
                scopes.append(section[1].lstrip("\\"))
            elif word == "$upscope" and scopes:
                scopes.pop()
            elif word == "$var" and len(section) >= 4 and _NUMBER.fullmatch(section[1]):
                self._add(scopes, *section[:3], "".join(section[3:]))
            elif word in ("$scope", "$upscope", "$var"):
                raise self._fault(f"has a {word} that is none of a VCD")
        raise Fault("the file has no $enddefinitions: it is cut, or is no VCD", INPUT)

    def _add(self, scopes, kind, size, code, reference):
        """Takes one $var. Its reference is a name, with or without the indices of its bits."""
        self._codes.add(code)
        name, size = reference.lstrip("\\"), int(size)
        if kind in _NO_BITS or not size:
            return
        left, right = size - 1, 0
        if found := _INDICES.search(name):
            name = name[: found.start()]
            if abs(int(found[1]) - int(found[2])) + 1 == size:
                left, right = int(found[1]), int(found[2])
        self.variables[".".join([*scopes, name])] = Variable(code, size, left, right)

    def steps(self, sizes):
        """Each time with what changes then: pairs of a time and of the values after it by their codes, of the codes that sizes has.

        A time at which none of them changes is left out, but for the last. Where values are not dumped for some time ($dumpoff,
        $dumpon), None stands for the changes: no value is known from there on.
        """
        time, changes = 0, {}
        for word in self._words:
            kind = word[0]
            if kind in "01xXzZUWLH-":
                code, value = word[1:], kind
            elif kind in "bB":
                code, value = self._next(), word[1:]
            elif kind == "#" and word[1:].isdecimal() and len(word) <= 1 + _DIGITS:
                before, time = time, int(word[1:])
                if time < before:
                    raise self._fault(f"has time {time}, after {before}")
                if changes and time > before:
                    yield before, changes
                    changes = {}
                continue
            elif kind in "rRsS":
                code, value = self._next(), None
            elif word in ("$dumpoff", "$dumpon"):
                yield time, changes
                yield time, None
                changes = {}
                continue
            elif word in ("$dumpvars", "$dumpall", "$end"):
                continue
            elif word == "$comment":
                self._section()
                continue
            else:
                raise self._fault(f"has {word[:32]}, which is no change of a value")
            if code in sizes:
                value = (value or "").translate(_OF_VHDL).lower()
                if not 0 < len(value) <= sizes[code] or value.strip("01xz"):
                    raise self._fault("has a value that its variable cannot have")
                changes[code] = extended(value, sizes[code])
            elif code not in self._codes:
                raise self._fault(f"has a value of {code[:32]}, which is no variable")
        yield time, changes
