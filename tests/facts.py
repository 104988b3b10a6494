"""What answers of chicheck say of granules, taken out of their text and out of their JSON, so that one can be held beside the other."""

import re


def facts_of_text(text):
    """What the text of a granule, or of a whole answer, says by the members of its JSON: operations as its lines have them."""
    one, all_of = (lambda it: next(iter(all_of(it)), None)), (lambda it: re.findall(it, text, re.M))
    order = one(r"^  up to \d+ in (?:this order:|an order that ends with) (?:requests|lines)(.*)$")
    suspects = one("^  any one of these answers may be the wrong one: (?:requests|lines)(.*)$")
    return {
        "answer": one("^(explained|not explained|undecided)"), "granule": one("^(?:not explained|undecided): granule (\\w+)"),
        "time": one(r"^at (\d+): "), "blamed": one(r"^at \d+: (.*) (?:answered|no reply)$"), "request": one(r"^  > (?:request|line) +(\d+) "),
        "open": all_of(r"^  open from (\d+) (?:to |on)(\d*): (.*) (?:answered|no reply)$"), "words": all_of("^  the granule can hold (\\w+)$"),
        "rows": all_of(r"^    (?:request|line) +(\d+) \|"), "order": order.split() if order else [], "suspects": suspects.split() if suspects else [],
        "legal": all_of(r"^    legal would be:  (?:returned )?(\w+)$"), "legal_to_the_end": one("^  (a|no) legal response of"),
        "also_not_explained": (one("^  also not explained in this line of 64 bytes:(.*)$") or "").split(),
        "at_end": one("^at the end: (.*)$"), "states": one(r"^undecided: .* after (\d+) states$"),
        "explained_to": None if one("^(at .*): ") else one(r"^  explained up to (\d+)$"), "open_at_most": one(r"^  operations open at most: (\d+)$"),
        "cut_short": one(r"^  what is not shown was not found within (\d+) more states$"), "line": one(r"^  at line (\d+)$"),
    }  # fmt: skip


def facts_of_json(it):
    """The same of an answer as JSON."""
    line = lambda op: f"{op['src']} {op['txn']} {op['op']:02x} {op['name']} {op['size']} {op['addr']}"  # noqa: E731
    numbers = lambda ops: [str(op if isinstance(op, int) else op["request"]) for op in ops or []]  # noqa: E731
    blamed = it.get("blamed")
    still_open = [op for op in it.get("open", []) if op != blamed and (op["end"] is None or int(op["end"]) > int(it["time"]))]
    first, count = (int(blamed["addr"][-1], 16), 1 << blamed["size"] >> (blamed["name"] == "AtomicCompare")) if blamed else (0, 0)
    suspects, returned = it.get("suspects", []), slice(2 * first, 2 * (first + count))
    return {
        "answer": it["answer"], "granule": it.get("granule"), "time": it.get("time"), "blamed": blamed and line(blamed),
        "request": blamed and str(blamed["request"]), "open": [(op["start"], op["end"] or "", line(op)) for op in it.get("open", [])],
        "words": (it.get("words") or [])[:16], "rows": numbers(it.get("before", []) + still_open), "order": numbers(it["order"] if blamed else []),
        "suspects": numbers(suspects if len(suspects) > 1 else []), "legal": [reply if reply == "comp" else reply[returned] for reply in it.get("legal", [])],
        "legal_to_the_end": {None: None, True: "a", False: "no"}[it.get("legal_to_the_end")],
        "also_not_explained": it.get("also_not_explained", []), "at_end": it.get("at_end"),
        "states": it.get("states"), "explained_to": it.get("explained_to"),
        "open_at_most": None if "open_at_most" not in it else str(it["open_at_most"]), "cut_short": it.get("cut_short"),
        "line": it.get("line") and str(it["line"]),
    }  # fmt: skip
