"""Histories of a home by chance, as the events that a monitor tells: a memory executes each request at one instant between
its first event and its last, and in half of the histories one mistake is made."""

import json
import random

from memory import COMPARE, OPCODES, READ, WRITE, answers_data, enabled, execute, granule_of, length_of

MOST = 2**64 - 1
# How many requests of a prefix may have taken effect or not, at most.
MOST_UNSEEN = 5
# Bytes at which numbers carry, change their sign or stand still.
BYTES = [0, 0, 0, 1, 1, 2, 127, 128, 255]
IN_SERVING = ["lost", "lost", "twice", "stale", "stale", "changed", "changed"]
MISTAKES = [*IN_SERVING, "final", "opening"]
ANYWHERE = [0, 4096, 4104, 4112, 65536, 2**40 + 8, 2**52 - 16, 2**52 - 8]


def some_bytes(chance, count):
    return bytes(chance.choice(BYTES) for _ in range(count))


def some_request(chance, granule, src):
    """A request of a granule, with its data."""
    op = chance.choice([READ, WRITE, COMPARE, COMPARE, chance.choice(OPCODES), chance.choice(OPCODES)])
    size = chance.choice([0, 0, 1, 2, 3, 3]) + (op == COMPARE)
    request = {"src": src, "txn": chance.randrange(4), "op": op, "size": size, "addr": granule, "endian": chance.randrange(2)}
    request["addr"] += length_of(request) * chance.randrange(8 // length_of(request))
    request |= {"be": enabled(request), "lanes": some_bytes(chance, 16).hex()}
    if op == READ or op == WRITE and chance.random() < 0.5:
        request["be"] &= chance.randrange(65536)
    return request


class Taken:
    """A request that was taken: what was told of it, whether it was executed, and how it ends."""

    def __init__(self, number, request, fate, has_data):
        self.number, self.request, self.fate = number, request, fate
        self.has_data, self.is_replied, self.is_executed = has_data, False, False
        self.reply = "comp" if not answers_data(request) else "0" * 32
        self.takes_effect = fate == "usual"


class Home:
    """A home that serves some requests, at this pace, where one is given. `events` is what its monitor tells, and `traits` names what
    it met."""

    def __init__(self, chance, pace):
        self.chance, self.events, self.open, self.traits = chance, [], [], set()
        self.time = chance.choice([0, 0, 1, 1000])
        self.equal = chance.choice([0.2, 0.5, 0.9])
        self.left = 40 if chance.random() < 0.05 else chance.choice([1, 2, 4, 6, 8, 8, 12])
        self.requesters = chance.randint(1, 6)
        self.shape(pace)
        self.mistake = chance.choice(MISTAKES) if chance.random() < 0.5 else None
        self.until_mistake = chance.randrange(self.left // 3 + 1)
        self.closed, self.unknown, self.last = set(), set(), {}
        for granule in self.granules:
            self.tell_opening(granule)

    def shape(self, pace):
        """Chooses the granules, and how many requests are open at a time."""
        chance = self.chance
        count = chance.choice([1, 1, 2, 2, 3, 4])
        self.granules = chance.sample(ANYWHERE, count)
        self.is_hot = chance.random() < 0.6
        self.pace = pace or chance.choice(["often quiet", "mixed", "never quiet", "open for ever"])
        self.width = chance.randint(1, 2) if self.pace == "often quiet" else chance.randint(1, 5)
        if self.left == 40:
            self.width = min(self.width, 3)
            self.traits.add("long")
        self.traits |= {"hot" if self.is_hot else "spread", self.pace}
        self.words = {it: bytes(8) for it in self.granules}
        self.earlier = dict(self.words)
        if self.pace == "open for ever":
            self.width += count

    def tell(self, event, **members):
        """Tells an event at a time that is not before that of the last one."""
        chance = self.chance
        self.time += 0 if chance.random() < self.equal else chance.choice([1, 1, 5])
        members |= {"event": event, "time": self.time}
        if chance.random() < 0.05:
            members["x-note"] = chance.choice([None, 7, "seen", {"id": [1]}])
        names = sorted(members)
        chance.shuffle(names)
        self.events.append({name: members[name] for name in names})

    def tell_opening(self, granule):
        chance = self.chance
        if chance.random() < 0.5:
            return
        self.words[granule] = self.earlier[granule] = some_bytes(chance, 8)
        word = self.words[granule]
        if self.mistake == "opening" and chance.random() < 0.5:
            word = self.spoiled(word)
        self.traits.add("word")
        more = {"final": False} if chance.random() < 0.2 else {}
        self.tell("word", addr=granule, bytes=word.hex(), **more)

    def spoiled(self, word):
        """The word with one byte changed."""
        self.traits.add("mistake")
        at = self.chance.randrange(len(word))
        return word[:at] + bytes([word[at] ^ self.chance.choice([1, 128, 255])]) + word[at + 1 :]

    def granule(self):
        """The granule of the next request, if there is one."""
        usable = [it for it in self.granules if it not in self.closed]
        if usable and self.is_hot and self.chance.random() < 0.85:
            return usable[0]
        return self.chance.choice(usable) if usable else None

    def number(self):
        """A number that no outstanding request has: often one that was used before."""
        taken = {it.number for it in self.open}
        if self.chance.random() < 0.1:
            return self.chance.choice([it for it in [MOST, 2**63, 2**53 + 1] if it not in taken] or [77])
        return min(set(range(20)) - taken)

    def fate(self):
        return self.chance.choices(["usual", "null", "dropped", "open", "no data"], [78, 7, 6, 5, 4])[0]

    def begin(self, granule, fate=None):
        """Takes a request of the granule, with or without its data."""
        chance = self.chance
        request, fate = some_request(chance, granule, chance.randrange(self.requesters)), fate or self.fate()
        if request["op"] == READ and fate == "no data":
            fate = "usual"
        comes_with = request["op"] == READ and chance.random() < 0.5 or fate != "no data" and chance.random() < 0.6
        it = Taken(self.number(), request, fate, comes_with or request["op"] == READ)
        it.takes_effect |= fate in ("null", "open") and chance.random() < 0.5
        shown = request if comes_with else {name: value for name, value in request.items() if name not in ("be", "lanes")}
        self.tell("request", id=it.number, **shown)
        self.open.append(it)
        self.left -= 1
        self.traits |= {fate, f"op {request['op']}"} - {"usual"}

    def steps(self, it):
        """What can be done next with an outstanding request."""
        found = []
        if not it.has_data and it.fate != "no data":
            found.append(self.tell_data)
        if it.takes_effect and not it.is_executed:
            found.append(self.take_effect)
        is_answered = it.fate in ("usual", "null", "no data") or it.fate == "dropped" and not it.has_data
        if is_answered and not it.is_replied and (it.is_executed or not it.takes_effect):
            found.append(self.tell_reply)
        if it.fate == "dropped":
            found.append(self.tell_dropped)
        return found

    def tell_data(self, it):
        if it.fate == "dropped" and it.is_replied:
            return self.tell_dropped(it)
        self.traits.add("data told later")
        it.has_data = True
        self.tell("data", id=it.number, be=it.request["be"], lanes=it.request["lanes"])
        self.end(it)

    def tell_reply(self, it):
        if it.fate == "null":
            reply = None
        elif self.chance.random() < 0.1:
            reply = it.reply.upper() if it.reply != "comp" else it.reply
        else:
            reply = it.reply
        it.is_replied = True
        self.tell("reply", id=it.number, reply=reply)
        self.end(it)

    def tell_dropped(self, it):
        self.open.remove(it)
        self.tell("dropped", id=it.number)

    def end(self, it):
        """Ends a request whose data and reply were told."""
        if it.has_data and it.is_replied:
            self.open.remove(it)
            self.last[granule_of(it.request)] = self.time

    def take_effect(self, it):
        """Executes a request, perhaps with the mistake of this history."""
        granule = granule_of(it.request)
        before = self.words[granule]
        right = execute(before, it.request)
        self.words[granule], it.reply = right
        if self.until_mistake <= 0 and it.fate == "usual" and self.mistake in IN_SERVING:
            self.words[granule], it.reply = self.mistaken(it.request, before, *right)
        if (self.words[granule], it.reply) != right:
            self.mistake = None
            self.traits.add("mistake")
        self.until_mistake -= 1
        self.earlier[granule] = before
        it.is_executed = True

    def mistaken(self, request, before, word, reply):
        """The word and the reply that the mistake makes of the right ones, which may be these."""
        if self.mistake == "lost":
            return before, reply
        if self.mistake == "twice":
            return execute(word, request)[0], reply
        if self.mistake == "stale":
            return word, execute(self.earlier[granule_of(request)], request)[1]
        if reply == "comp":
            return word, reply
        at, length = request["addr"] % 16, length_of(request)
        packet = bytes.fromhex(reply)
        return word, (packet[:at] + self.spoiled(packet[at : at + length]) + packet[at + length :]).hex()

    def forget(self):
        """Something that is not told may have written."""
        chance = self.chance
        addr = max(0, chance.choice(ANYWHERE) + chance.randint(-9, 9))
        length = min(chance.choice([1, 1, 2, 8, 9, 16, 100, 4096]), 2**52 - addr)
        if length <= 0:
            return
        self.traits.add("unknown")
        self.tell("unknown", addr=addr, length=length)
        for granule in self.granules:
            if addr < granule + 8 and granule < addr + length:
                self.unknown.add(granule)
                if chance.random() < 0.5:
                    self.words[granule] = some_bytes(chance, 8)

    def know(self):
        """Tells the word of a granule again, to which something that is not told may have written."""
        usable = [it for it in self.unknown if it not in self.closed and self.is_quiet(it)]
        if not usable:
            return
        granule = self.chance.choice(sorted(usable))
        self.time = max(self.time, self.last.get(granule, 0) + 1)
        self.unknown.remove(granule)
        self.traits.add("word again")
        self.tell("word", addr=granule, bytes=self.words[granule].hex())
        self.last[granule] = self.time

    def is_quiet(self, granule):
        return all(granule_of(it.request) != granule for it in self.open)

    def close(self, granule):
        """Tells the word of a quiet granule at the end: it has no request after that."""
        self.closed.add(granule)
        word = self.words[granule]
        if self.mistake == "final" and self.chance.random() < 0.7:
            word = self.spoiled(word)
        self.traits.add("final")
        self.tell("word", addr=granule, bytes=word.hex(), final=True)

    def begin_or_not(self):
        """Takes a request, where there is room for one."""
        is_alone = self.pace == "often quiet" and self.open and self.chance.random() < 0.8
        if self.left == 0 or len(self.open) >= self.width or is_alone:
            return False
        granule = self.granule()
        if granule is not None:
            self.begin(granule)
        return granule is not None

    def go_on(self):
        """Does the next step of an outstanding request. Answers whether there was one."""
        ready = [it for it in self.open if self.steps(it)]
        if not ready:
            return False
        it = self.chance.choice(ready)
        granule = granule_of(it.request)
        is_last = sum(granule_of(other.request) == granule for other in self.open) == 1
        if self.pace == "never quiet" and is_last and self.left > 0 and granule not in self.closed:
            self.begin(granule)
        self.chance.choice(self.steps(it))(it)
        return True

    def serve(self):
        """Serves all requests, and then tells some words at the end."""
        chance = self.chance
        if self.pace == "open for ever":
            for granule in self.granules[: 1 if self.is_hot else 4]:
                self.begin(granule, "open")
                self.left = max(self.left, 1)
        forgets = chance.random() < 0.15
        while self.step():
            if forgets and chance.random() < 0.1:
                self.forget()
            if forgets and chance.random() < 0.2:
                self.know()
            if chance.random() < 0.01:
                self.close_one()
        for granule in self.granules:
            if granule not in self.closed and self.is_quiet(granule) and chance.random() < 0.5:
                self.close(granule)

    def step(self):
        is_begun = self.chance.random() < 0.5 and self.begin_or_not()
        return is_begun or self.go_on() or self.begin_or_not()

    def close_one(self):
        granule = self.chance.choice(self.granules)
        if granule not in self.closed and self.is_quiet(granule):
            self.close(granule)


def are_tied(one, other):
    """Whether these events have to stand in their order: both are of one request, or one tells a word or unknown bytes."""
    words = ("word", "unknown")
    return one["event"] in words or other["event"] in words or one["id"] == other["id"]


def mixed(chance, events):
    """The events with some of one time in another order."""
    events = list(events)
    for _ in range(4 * len(events)):
        at = chance.randrange(len(events))
        if at and events[at]["time"] == events[at - 1]["time"] and not are_tied(events[at - 1], events[at]):
            events[at - 1 : at + 1] = events[at], events[at - 1]
    return events


def is_answer(event):
    """Whether an event tells an answer, or that a request took no effect."""
    return event["event"] == "dropped" or event["event"] == "reply" and event["reply"] is not None


def unseen(events):
    """How many requests may have taken effect or not."""
    return sum(it["event"] == "request" for it in events) - sum(map(is_answer, events))


def prefix(chance):
    """The first events of a history in which granules are never quiet, and the traits of the history. They are so few that every order
    can be tried."""
    events, traits = history(chance, "never quiet")
    events = events[: chance.randint(0, len(events))]
    while unseen(events) > MOST_UNSEEN:
        events = events[:-1]
    return events, traits


def history(chance, pace=None):
    """Events by chance, and the traits of their history."""
    home = Home(chance, pace)
    home.serve()
    events, traits = home.events, home.traits
    if events and chance.random() < 0.1:
        late = MOST - events[-1]["time"]
        events = [{**it, "time": it["time"] + late} for it in events]
        traits.add("up to the last time")
    if chance.random() < 0.3:
        traits.add("equal times mixed")
        events = mixed(chance, events) if events else events
    return events, traits


def told_by_chance(count):
    """So many histories, the same each time: each as the lines of its events."""
    for number in range(count):
        events, _ = history(random.Random(f"told/{number}"))
        yield "".join(f"{json.dumps(it)}\n" for it in events)
