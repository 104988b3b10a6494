"""Whether a legal response explains a granule to its end, as docs/EXPLAIN.md says it: by the other lines of an answer, and by trying
every order."""

from memory import length_of
from orders import is_explained
from written import BLAMED, LEGAL, matches

# How the line ends.
END = " explains the granule to its end"


def whole(request, operand):
    """The response that a row shows as these bytes, or as a completion."""
    if operand is None:
        return "comp"
    place = 2 * (request["addr"] % 16)
    return ("00" * 16)[:place] + operand + ("00" * 16)[place + 2 * length_of(request) :]


def end_lines(lines):
    """The line that says it, where one does."""
    return [it for it in lines if it.endswith(END)]


def wanted_ends(lines, word, operations, final):
    """The line that has to."""
    blamed, legal = next(filter(None, map(BLAMED.match, lines)), None), matches(LEGAL, lines)
    if not blamed or not legal:
        return []
    number = int(blamed[1])

    def explains(operand):
        answered = [it._replace(reply=whole(it.request, operand)) if it.number == number else it for it in operations]
        return is_explained(word, answered, final)

    which = "a" if any(explains(it[1]) for it in legal) else "no"
    return [f"  {which} legal response of request {number}{END}"]
