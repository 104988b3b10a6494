"""Values of bits as texts of 0, 1, x and z, the highest bit first."""


def extended(bits, size):
    """A value of a VCD with all its bits: one that is written shorter goes on by 0, or by x or z where that is its leftmost bit
    (IEEE 1364-2005, the format of value changes in a VCD file).

    >>> extended("101", 6), extended("x1", 6), extended("z", 6)
    ('000101', 'xxxxx1', 'zzzzzz')
    """
    return bits.rjust(size, bits[0] if bits[0] in "xz" else "0")


def _digit(bits):
    """One hex digit, of up to four bits."""
    if "x" not in bits and "z" not in bits:
        return f"{int(bits, 2):x}"
    if len(set(bits)) == 1:
        return bits[0]
    return "X" if "x" in bits else "Z"


def digits(bits):
    """Hex digits as %h of Verilog prints them: x or z where all bits of a digit are so, and else X where some are x, or Z where some
    are z (IEEE 1800-2017, unknown and high-impedance values of the display tasks).

    >>> digits("0101111"), digits("xxx0000"), digits("1z1010"), digits("xz1z")
    ('2f', 'x0', 'Za', 'X')
    """
    if "x" not in bits and "z" not in bits:
        return f"{int(bits, 2):0{(len(bits) + 3) // 4}x}"
    first = len(bits) % 4
    groups = ([bits[:first]] if first else []) + [bits[at : at + 4] for at in range(first, len(bits), 4)]
    return "".join(map(_digit, groups))


def word_digits(bits):
    """The hex digits of a word's eight bytes in the order of their addresses: the byte in the lowest bits is the first.

    >>> word_digits("0" * 56 + "00000101")
    '0500000000000000'
    """
    return "".join(digits(bits[at : at + 8]) for at in range(56, -8, -8))


def rises(before, after):
    """Whether a bit has a rising edge, as posedge of Verilog has it: from 0, or to 1.

    >>> rises("0", "1"), rises("0", "x"), rises("z", "1"), rises("1", "x"), rises("x", "z")
    (True, True, True, False, False)
    """
    return before != after and (before == "0" or after == "1")
