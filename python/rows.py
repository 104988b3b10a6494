"""Executes the table of requests by the module chi, and compares."""

import sys

import chi


def answered(call, *arguments):
    """The number of a refusal or 0, and what was answered."""
    try:
        return 0, call(*arguments)
    except chi.Refused as refused:
        return refused.number, None


def work(memory, fields):
    """What the row says is not so, if anything."""
    opcode, size, addr, endian, be, lanes, result, reply, granule, after = fields
    request = chi.Request(int(opcode, 16), int(size), int(addr, 16), int(be, 16), bytes.fromhex(lanes), int(endian))
    region = (memory.base, memory.granules)
    before = [memory.granule(number) for number in range(memory.granules)]
    held = before[int(granule)] if before else bytes(8)
    number, answer = answered(memory.serve, request)
    if number != int(result):
        return f"{chi.result_name(number)} in place of {chi.result_name(int(result))}"
    if (answer.hex() if answer is not None else "comp" if number == 0 else "-") != reply:
        return "another answer"
    if before:
        before[int(granule)] = bytes.fromhex(after)
    if before != [memory.granule(number) for number in range(memory.granules)]:
        return "another memory"
    if answered(chi.apply, request, held, *region) != (number, None if number else (bytes.fromhex(after), answer)):
        return "another answer by apply"
    number, access = answered(chi.decode, request, *region)
    if number != int(result) or (access and (access.granule, access.length) != (int(granule), request.length)):
        return "another access by decode"
    if access and chi.op_name(request.opcode) != ".".join(filter(None, [access.kind, access.operation])):
        return "another kind by decode"
    return None


def main(path):
    requests, opened, memory = 0, None, None
    with open(path, encoding="ascii") as table:
        for line in table:
            if line.startswith("#"):
                continue
            name, base, granules, *fields = line.split()
            if name != opened:
                opened, memory = name, chi.Memory(int(base, 16), int(granules))
            wrong = work(memory, fields)
            if wrong:
                sys.exit(f"rows: {name}: {chi.op_name(int(fields[0], 16))}: {wrong}")
            requests += 1
    if not requests:
        sys.exit("rows: no table of requests")
    print(f"rows: {requests} requests agree by serve, apply and decode")


main(sys.argv[1])
