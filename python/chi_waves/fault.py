"""Why no flits, or no more of them, can be told."""

COMMAND, INPUT, SYSTEM = 2, 3, 5


class Fault(Exception):
    """A fault with its one line and the status of the program.

    The status is COMMAND where the map is wrong, or does not fit the waves; INPUT where the file is no whole VCD; SYSTEM where a
    file could not be read or written. They are those of chicheck.

    >>> Fault("the map has no clock", COMMAND).status
    2
    """

    def __init__(self, text, status):
        super().__init__(text)
        self.status = status
