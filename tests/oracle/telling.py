"""What events tell of the granules, line for line, and what `chicheck watch` has to answer by it. The orders are tried by
orders.py, and nothing is shared with the program."""

from memory import READ, WRITE, granule_of, name_of
from orders import MOST, Operation, first_unexplained, is_explained, known_by, suspects_at, words_left


def write_of(granule, word):
    """The request of a write of a granule's word."""
    return {"src": 0, "txn": 0, "op": WRITE, "size": 3, "addr": granule, "endian": 0, "be": 255 << granule % 16, "lanes": word.hex() * 2}


def request_line(request):
    name = f"{request['op']:02x} {name_of(request['op'])}"
    return f"{request['src']} {request['txn']} {name} {request['size']} {request['addr']:016x}"


def operation_line(it):
    """An operation and whether it was answered."""
    return f"{request_line(it.request)} {'no reply' if it.reply is None else 'answered'}"


def waiting_line(it):
    """A request that is outstanding, and what it waits for."""
    return f"    line {it['line']} since {it['start']}: {request_line(it['request'])} waits for its {'reply' if it['has_data'] else 'data'}"


def word_lines(words):
    """Words that a granule can hold, each of them, in the order of their texts."""
    return sorted(f"  the granule can hold {it.hex()}" for it in words)


def stop_lines(word, operations, final):
    """How far a granule's operations can be explained, which cannot be: the lines of docs/EXPLAIN.md."""
    time = first_unexplained(word, operations)
    if time is None:
        return [f"at the end: {final.hex()}", *word_lines(set(words_left(word, operations)))]
    suspects = suspects_at(word, operations, time)
    by_request = sorted(operations, key=lambda it: it.number)
    blamed = next(it for it in suspects + by_request if it.end == time and it.reply is not None)
    before = word_lines(set(words_left(word, known_by(operations, time - 1)))) if time else []
    lines = [f"at {time}: {operation_line(blamed)}", *before]
    for it in sorted((it for it in operations if it.start <= time <= it.end), key=lambda it: it.number):
        until = "on" if it.end == MOST else f"to {it.end}"
        lines.append(f"  open from {it.start} {until}: {operation_line(it)}")
    lines += [f"  explained up to {time - 1}"] if time else []
    if len(suspects) > 1:
        lines.append(f"  any one of these answers may be the wrong one: lines {' '.join(str(it.number) for it in suspects)}")
    return lines


class Told:
    """The granules as the lines up to some line tell them."""

    def __init__(self):
        self.open, self.ended, self.line = {}, [], 0
        self.openings, self.finals = {}, {}
        self.granules, self.unknown = set(), {}
        self.gaps, self.writes = {}, []

    def take(self, event):
        """Takes an event. Answers the granule whose last outstanding request went by it, if one's did."""
        self.line += 1
        return getattr(self, f"take_{event['event']}")(event)

    def take_request(self, event):
        request = {name: it for name, it in event.items() if name not in ("event", "time", "id") and not name.startswith("x-")}
        has_data = "lanes" in request or request["op"] == READ
        request = {"be": 0, "lanes": "0" * 32} | request
        self.granules.add(granule_of(request))
        self.open[event["id"]] = {"request": request, "start": event["time"], "has_data": has_data, "replies": [], "line": self.line}

    def take_data(self, event):
        it = self.open[event["id"]]
        it["request"] |= {"be": event["be"], "lanes": event["lanes"]}
        it["has_data"] = True
        return self.end(event)

    def take_reply(self, event):
        self.open[event["id"]]["replies"].append(event["reply"])
        return self.end(event)

    def end(self, event):
        """Ends a request whose data and reply were told."""
        it = self.open[event["id"]]
        if not it["has_data"] or not it["replies"]:
            return None
        self.ended.append(Operation(it["request"], it["start"], event["time"], it["replies"][0], it["line"]))
        return self.go(event)

    def take_dropped(self, event):
        return self.go(event)

    def go(self, event):
        granule = granule_of(self.open.pop(event["id"])["request"])
        return None if granule in map(granule_of, self.outstanding()) else granule

    def outstanding(self):
        return [it["request"] for it in self.open.values()]

    def take_word(self, event):
        """A word that is told again ends the time in which what is not told may have written to its granule, and stands for a write."""
        addr, word = event["addr"], bytes.fromhex(event["bytes"])
        self.granules.add(addr)
        if event.get("final"):
            self.finals[addr] = word
        elif addr in self.unknown:
            self.gaps.setdefault(addr, []).append((self.unknown.pop(addr), event["time"]))
            self.writes.append(Operation(write_of(addr, word), event["time"], event["time"], "comp", self.line))
            return addr
        else:
            self.openings[addr] = word
        return None

    def take_unknown(self, event):
        """From this time on the granules may have been written by what is not told: the first such time counts."""
        first, last = event["addr"] // 8, (event["addr"] + event["length"] - 1) // 8
        self.unknown = {8 * it: event["time"] for it in range(first, last + 1)} | self.unknown
        self.granules |= self.unknown.keys()

    def operations(self):
        """The operations that have ended, and those that are open, of which the data are told."""
        return self.ended + [Operation(it["request"], it["start"], MOST, None, it["line"]) for it in self.open.values() if it["has_data"]]

    def judged(self):
        """The operations, and the writes that stand for words, as far as they had happened before what is not told may have written to
        their granules."""
        all_told = [(it, self.unknown_at(granule_of(it.request), it.start)) for it in self.operations() + self.writes]
        return [it if it.end < time else it._replace(reply=None) for it, time in all_told if it.start < time]

    def unknown_at(self, granule, start):
        """From which time on what is not told may have written to a granule, for an operation that starts at a time."""
        earlier = [since for since, until in self.gaps.get(granule, []) if start < until]
        return earlier[0] if earlier else self.unknown.get(granule, MOST + 1)

    def of_granule(self, granule):
        """The granule's word at the opening, what is judged of its operations, and its word at the end, where one was told and is judged."""
        operations = [it for it in self.judged() if granule_of(it.request) == granule]
        return self.openings.get(granule, bytes(8)), operations, None if granule in self.unknown else self.finals.get(granule)

    def is_explained(self, granule):
        return is_explained(*self.of_granule(granule))

    def stop_lines(self, granule):
        return stop_lines(*self.of_granule(granule))

    def before_stop(self, granule):
        """The granule's word at the opening, and what is known of its operations before they stop being explained."""
        word, operations, _ = self.of_granule(granule)
        time = first_unexplained(word, operations)
        return word, known_by(operations, time - 1) if time else []

    def stop_time(self, granule):
        """The time up to which nothing explains the granule, or the last where only its word at the end is not explained."""
        word, operations, _ = self.of_granule(granule)
        time = first_unexplained(word, operations)
        return MOST if time is None else time

    def counts(self, is_whole):
        """How much was told, and where the events end which requests are outstanding: the first 16."""
        return [
            f"  operations that ended: {len(self.ended)}",
            f"  requests outstanding: {len(self.open)}",
            *(waiting_line(it) for it in list(self.open.values())[: 16 if is_whole else 0]),
            f"  granules: {len(self.granules)}",
            f"  granules not judged: {len(self.unknown)}",
        ]

    def trace(self, only=None):
        """What is judged of the granules, or of one of them, as a trace of all addresses."""
        left_out = set() if only is None else self.granules - {only}
        requests = []
        for it in sorted(self.judged(), key=lambda it: it.number):
            if granule_of(it.request) not in left_out:
                end = {} if it.end == MOST and it.reply is None else {"end": it.end}
                requests.append({**it.request, "start": it.start, **end, "reply": it.reply})
        image, final = [
            [{"addr": granule, "bytes": word.hex()} for granule, word in words.items() if granule not in left_out]
            for words in (self.openings, {it: word for it, word in self.finals.items() if it not in self.unknown})
        ]
        return {"image": image, "final": final, "requests": requests}


class Watched:
    """What has to be answered on events: `places` has the granules that are not explained, in the order in which they are
    found, each with the line, or None where that is at the end, `stops` the lines that say how far each can be, `traces` its
    operations then as a trace, and `before` what is known of them before they stop being explained. A granule is found once all
    events of a time are told. While its requests are outstanding it may be found, once it is known not to be explained: `busy` has
    the granules of which the program said so, each with its line."""

    def __init__(self, events, keeps_going, busy):
        self.told, self.places, self.stops, self.traces, self.before, self.quiet, self.busy = Told(), {}, {}, {}, {}, {}, busy
        self.is_whole, time = False, 0
        for line, event in enumerate(events, 1):
            if event["time"] > time:
                self.settle()
                if self.places and not keeps_going:
                    return
            time = event["time"]
            granule = self.told.take(event)
            for it in [granule, *(it for it, at in busy.items() if at == line and it != granule)]:
                if self.is_new(it) and not self.told.is_explained(it):
                    self.quiet.pop(it, None)
                    self.quiet[it] = line
        self.settle()
        if self.places and not keeps_going:
            return
        self.is_whole = True
        left = [it for it in sorted(self.told.granules) if it not in self.places and not self.told.is_explained(it)]
        for granule in sorted(left, key=self.told.stop_time):
            self.find(granule, None)

    def find(self, granule, line):
        self.places[granule], self.stops[granule], self.traces[granule] = line, self.told.stop_lines(granule), self.told.trace(granule)
        self.before[granule] = self.told.before_stop(granule)

    def settle(self):
        """Finds the granules that became quiet at a time, and are still so and unexplained once all of it is told; and those that were
        found while they were busy."""
        outstanding = set(map(granule_of, self.told.outstanding()))
        for granule, line in self.quiet.items():
            is_over = granule not in outstanding or self.busy.get(granule) == line
            if self.is_new(granule) and is_over and not self.told.is_explained(granule):
                self.find(granule, line)
        self.quiet = {}

    def is_new(self, granule):
        """Whether all that wrote to the granule is told, and it was not found before."""
        return granule is not None and granule not in self.told.unknown and granule not in self.places

    def answer(self):
        """The status and the text."""
        lines = []
        for granule, line in self.places.items():
            lines += [f"not explained: granule {granule:016x}", *self.stops[granule], f"  at line {line}" if line else "  at the end"]
        lines = lines or ["explained"]
        return int(bool(self.places)), "".join(f"{it}\n" for it in lines + self.told.counts(self.is_whole))
