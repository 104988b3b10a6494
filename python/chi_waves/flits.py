"""The lines of the flits that waves have: their values just before each rising edge of the clock."""

from chi_waves.fault import INPUT, Fault
from chi_waves.values import digits, rises, word_digits


def _valid_of(channel, values):
    """0, 1 or x: whether a channel has a flit, which is where its valid and all of its when are 1."""
    bits = "".join(it.text(values) for it in channel.valid)
    return "0" if "0" in bits else "1" if bits.strip("1") == "" else "x"


def _flit_line(channel, valid, time, values):
    known = "" if valid == "1" else '"valid":"x",'
    members = ",".join(f'"{name}":"{digits(bits.text(values))}"' for name, bits in channel.members)
    return f'{{"time":{time},"channel":"{channel.name}",{known}{members}}}'


def _word_lines(flit_map, time, values, end=""):
    """A line for each granule, the first of which has the lowest bits."""
    bits = flit_map.words.text(values)
    for at in range(len(bits) - 64, -64, -64):
        addr = flit_map.base + (len(bits) - 64 - at) // 8
        yield f'{{"time":{time},"event":"word","addr":{addr},"bytes":"{word_digits(bits[at : at + 64])}"{end}}}'


def flit_lines(flit_map, vcd):
    """The lines of docs/FLITS.md without their line feeds, by a FlitMap, of a Vcd that is read to its end; the last one tells the end.

    Words are told where the first request is, before the other lines of its cycle, and at the end. A time is how many rising edges
    came before, or that of the VCD. There is a Fault where the VCD is no whole one, where values were not dumped after the first line,
    and where the clock has no rising edge.
    """
    values, cycle, time, told, asked = {}, 0, 0, False, False
    (clock,) = flit_map.clock.sizes
    for time, changes in vcd.steps(flit_map.sizes):
        if changes is None:
            if told:
                raise Fault(f"from time {time} on values are not dumped ($dumpoff), so flits would be missing", INPUT)
            values = {}
            continue
        if clock in values and clock in changes and rises(flit_map.clock.text(values), flit_map.clock.text(changes)):
            now = cycle if flit_map.is_cycles else time
            flits = [(it, valid) for it in flit_map.channels if (valid := _valid_of(it, values)) != "0"]
            if flit_map.words and not asked and any(it.name == "REQ" for it, _ in flits):
                yield from _word_lines(flit_map, now, values)
            for channel, valid in flits:
                yield _flit_line(channel, valid, now, values)
                told = True
                asked = asked or channel.name == "REQ"
            cycle += 1
        values.update(changes)
    if not cycle:
        raise Fault("the clock has no rising edge", INPUT)
    now = cycle if flit_map.is_cycles else time
    if flit_map.words and asked:
        yield from _word_lines(flit_map, now, values, ',"final":true')
    yield f'{{"time":{now},"event":"end"}}'
