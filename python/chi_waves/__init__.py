"""The lines of flits at a home's port (docs/FLITS.md), from the waves of a simulation and a map of names (docs/WAVES.md).

The program is chi-waves, or python3 -m chi_waves; it needs no library. By itself:

>>> import io
>>> vcd = Vcd(io.BytesIO(b"$var wire 4 ! data [3:0] $end $enddefinitions $end #0 b1x ! #5 b0 !\\n"))
>>> list(vcd.steps({"!": 4}))
[(0, {'!': '001x'}), (5, {'!': '0000'})]
>>> Signals(vcd.variables).bits("data[2:0]").text({"!": "001x"})
'01x'
>>> digits("001x")
'X'
"""

from chi_waves.fault import Fault
from chi_waves.flits import flit_lines
from chi_waves.map import FlitMap
from chi_waves.signals import Signals
from chi_waves.values import digits
from chi_waves.vcd import Vcd

__all__ = ["Fault", "FlitMap", "Signals", "Vcd", "digits", "flit_lines"]
