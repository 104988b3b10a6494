"""Small traces by chance: a memory executes some requests, each at an instant between its start and its end, and the trace may be
broken in one way."""

from histories import ANYWHERE, some_bytes, some_request
from memory import COMPARE, execute, granule_of, length_of


def turn_bits(chance, requests, words):
    """Turns bits of a byte of an operand that came back."""
    it = chance.choice(requests)
    if it["reply"] != "comp":
        reply, at = bytearray.fromhex(it["reply"]), it["addr"] % 16 + chance.randrange(length_of(it))
        reply[at] ^= chance.randint(1, 255)
        it["reply"] = reply.hex()


def turn_bits_of_each(chance, requests, words):
    """Turns bits of a byte that came back of each granule."""
    for granule in words:
        own = [it for it in requests if granule_of(it) == granule]
        if own:
            turn_bits(chance, own, words)


def neighbours(chance, requests):
    """Two requests of one granule that were executed one after the other, where there are such."""
    by_granule = [[it for it in requests if granule_of(it) == granule] for granule in set(map(granule_of, requests))]
    pairs = [pair for its in by_granule for pair in zip(its, its[1:])]
    return chance.choice(pairs) if pairs else None


def exchange_replies(chance, requests, words):
    """Exchanges the replies of neighbours, where both have data."""
    pair = neighbours(chance, requests)
    if pair and "comp" not in (pair[0]["reply"], pair[1]["reply"]):
        pair[0]["reply"], pair[1]["reply"] = pair[1]["reply"], pair[0]["reply"]


def move_interval(chance, requests, words):
    """Moves a request past the one that was executed next on its granule."""
    pair = neighbours(chance, requests)
    if pair:
        after = pair[1]["end"] + 1
        pair[0].update(start=after, end=after + pair[0]["end"] - pair[0]["start"])


def change_word(chance, requests, words):
    """Changes a byte of a word at the end."""
    granule, at = chance.choice(list(words)), chance.randrange(8)
    word = bytearray(words[granule])
    word[at] ^= chance.randint(1, 255)
    words[granule] = bytes(word)


# An update is lost where it is executed.
WAYS = {
    "intact": None,
    "a reply's bits turned": turn_bits,
    "bits of each granule's replies turned": turn_bits_of_each,
    "two replies exchanged": exchange_replies,
    "an update lost": None,
    "an interval moved": move_interval,
    "a final word changed": change_word,
}


def planned(chance, granules):
    """One to six requests with their times, two of which start at each time, in the order of their instants."""
    count, its = chance.randint(1, 6), []
    for _ in range(count):
        start = chance.randrange(2 * count)
        end = start + chance.randrange(8)
        request = some_request(chance, chance.choice(granules), chance.randrange(4))
        its.append((chance.randint(start, end), request | {"start": start, "end": end}))
    return [it for _, it in sorted(its, key=lambda it: it[0])]


def compare_found(request, word):
    """Makes the bytes that an AtomicCompare finds its compare value."""
    lane, length = request["addr"] % 16, length_of(request)
    lanes = bytes.fromhex(request["lanes"])
    request["lanes"] = (lanes[:lane] + word[lane % 8 : lane % 8 + length] + lanes[lane + length :]).hex()


def small_trace(chance, way):
    """A trace of one or two granules, one reply in four of which is not seen, and one in three of these operations is still open."""
    words = {it: some_bytes(chance, 8) for it in chance.sample(ANYWHERE, chance.randint(1, 2))}
    image, requests = dict(words), planned(chance, list(words))
    lost = chance.randrange(len(requests)) if way == "an update lost" else len(requests)
    for step, it in enumerate(requests):
        word = words[granule_of(it)]
        if it["op"] == COMPARE and chance.random() < 0.5:
            compare_found(it, word)
        after, it["reply"] = execute(word, it)
        if step >= lost and after != word:
            lost = len(requests)
        else:
            words[granule_of(it)] = after
    if WAYS[way]:
        WAYS[way](chance, requests, words)
    for it in requests:
        if chance.random() < 1 / 4:
            it["reply"] = None
            if chance.random() < 1 / 3:
                del it["end"]
    chance.shuffle(requests)
    known = [] if chance.random() < 1 / 3 else [it for it in words if chance.random() < 2 / 3]
    image, final = ([{"addr": it, "bytes": its[it].hex()} for it in those] for its, those in [(image, image), (words, known)])
    return {"image": image, "final": final, "requests": requests}
