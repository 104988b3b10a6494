"""The program chi-waves."""

import argparse
import contextlib
import os
import sys

from chi_waves.fault import SYSTEM, Fault
from chi_waves.flits import flit_lines
from chi_waves.map import FlitMap, read_map
from chi_waves.signals import Signals
from chi_waves.vcd import Vcd, open_vcd

_ABOUT = """Writes the flits at a home's port, as chicheck watch --flits reads them, from the waves of a simulation. Status 0: all lines
were written. 2: the map is wrong, or does not fit the waves. 3: the file is cut, or is no VCD. 5: a read or a write failed."""


@contextlib.contextmanager
def _named(path):
    """Names a file in the faults of what is done with it."""
    try:
        yield
    except Fault as fault:
        raise Fault(f"{path}: {fault}", fault.status) from None


def _lines(map_path, vcd_path):
    """The lines of the flits, by the paths of the map and of the VCD."""
    with _named(map_path):
        found = read_map(map_path)
    with _named(vcd_path):
        file = open_vcd(vcd_path)
    with file:
        with _named(vcd_path):
            vcd = Vcd(file)
        with _named(map_path):
            flit_map = FlitMap(found, Signals(vcd.variables))
        with _named(vcd_path):
            yield from flit_lines(flit_map, vcd)


def _write(lines, file):
    """Writes lines. Where there is a fault of one, those before it are written."""
    try:
        try:
            for line in lines:
                file.write(line + "\n")
        finally:
            file.flush()
    except OSError as fault:
        # Python writes what is left when it ends: to nowhere
        os.dup2(os.open(os.devnull, os.O_WRONLY), file.fileno())
        raise Fault("output could not be written", SYSTEM) from fault


def main(words=None):
    """Runs the program on the words of a command line, or on its own, and answers its status."""
    parser = argparse.ArgumentParser(prog="chi-waves", description=_ABOUT)
    parser.add_argument("map", metavar="MAP", help="which signals are the members of the flits, in JSON (docs/WAVES.md)")
    parser.add_argument("vcd", metavar="FILE.vcd", help="the waves; gzip may have compressed them")
    arguments = parser.parse_args(words)
    try:
        _write(_lines(arguments.map, arguments.vcd), sys.stdout)
    except Fault as fault:
        # Where its reader wants no more, as chicheck once it has found something, nothing is to be said.
        if not isinstance(fault.__cause__, BrokenPipeError):
            print("chi-waves:", " ".join(str(fault).splitlines()), file=sys.stderr)
        return fault.status
    except KeyboardInterrupt:
        return 130
    return 0
