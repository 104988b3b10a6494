"""A granule's word as requests change it, written from docs/FORMATS.md alone, and apart from bench/plain. A request is a dictionary
with the members of a trace's request, and a word is the granule's eight bytes in address order."""

READ, WRITE, STORE, LOAD, SWAP, COMPARE = 4, 28, 40, 48, 56, 57
ADD, CLR, EOR, SET, SMAX, SMIN, UMAX, UMIN = range(8)
NAMES = {READ: "ReadNoSnp", WRITE: "WriteNoSnpPtl", SWAP: "AtomicSwap", COMPARE: "AtomicCompare"}
FUNCTIONS = ["ADD", "CLR", "EOR", "SET", "SMAX", "SMIN", "UMAX", "UMIN"]
OPCODES = [READ, WRITE, *range(STORE, STORE + 8), *range(LOAD, LOAD + 8), SWAP, COMPARE]


def granule_of(request):
    """The address of the request's granule."""
    return request["addr"] // 8 * 8


def name_of(op):
    """The name of an opcode."""
    return NAMES.get(op) or f"{'AtomicLoad' if op >= LOAD else 'AtomicStore'}.{FUNCTIONS[op % 8]}"


def length_of(request):
    """How many bytes the operand has."""
    return 2 ** request["size"] // (2 if request["op"] == COMPARE else 1)


def answers_data(request):
    return request["op"] == READ or request["op"] >= LOAD


def enabled(request):
    """The byte enables of a request that is not a partial write: those of its operand, or of its window."""
    length, lane = length_of(request), request["addr"] % 16
    if request["op"] == COMPARE:
        length, lane = 2 * length, lane - lane % (2 * length)
    return (2**length - 1) << lane


def combined(function, old, sent, order):
    """The bytes that an AtomicStore or AtomicLoad makes of the old ones and the sent ones."""
    if function == ADD:
        number = int.from_bytes(old, order) + int.from_bytes(sent, order)
        return (number % 256 ** len(old)).to_bytes(len(old), order)
    if function == CLR:
        return bytes(a & ~b for a, b in zip(old, sent))
    if function == EOR:
        return bytes(a ^ b for a, b in zip(old, sent))
    if function == SET:
        return bytes(a | b for a, b in zip(old, sent))
    choose = max if function in (SMAX, UMAX) else min
    return choose(old, sent, key=lambda it: int.from_bytes(it, order, signed=function in (SMAX, SMIN)))


def written(request, old):
    """The bytes of the operand after a request."""
    if request["op"] == READ:
        return old
    length, lane, lanes = length_of(request), request["addr"] % 16, bytes.fromhex(request["lanes"])
    sent, op = lanes[lane : lane + length], request["op"]
    if op == WRITE:
        return bytes(new if request["be"] >> (lane + at) & 1 else it for at, (it, new) in enumerate(zip(old, sent)))
    if op == SWAP:
        return sent
    if op == COMPARE:
        other = lane + length if lane % (2 * length) == 0 else lane - length
        return lanes[other : other + length] if old == sent else old
    return combined(op % 8, old, sent, ["little", "big"][request["endian"]])


def execute(word, request):
    """The word after a request, and its reply."""
    at, length, lane = request["addr"] % 8, length_of(request), request["addr"] % 16
    old = word[at : at + length]
    reply = (bytes(lane) + old).ljust(16, b"\0").hex() if answers_data(request) else "comp"
    return word[:at] + written(request, old) + word[at + length :], reply
