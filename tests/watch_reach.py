#!/usr/bin/env python3
"""How far chicheck watch says that a granule can be explained, as a process: words in any order, the end of an order, the replies that
would be legal, and what chicheck explain says of the same events."""

import os
import re
import sys
import tempfile

os.chdir(f"{os.path.dirname(os.path.abspath(__file__))}/..")
sys.dont_write_bytecode = True

from lines import HIGH, LOST, REACH, READ, ROWS, STORE, WRITE, adds, answers, asks, counts, data_of, done, drops, forgets, holds, leaves, line, packet, reads, sends
from process import CHECKER, build, end, run, told, wants


def stops(case, text, lines, *numbers, place=None, words="watch"):
    """One granule is not explained, of which these lines say how far it can be, whatever the order of the words in them, and
    whatever its last operations are."""
    status, answer, errors = run(CHECKER, words.split(), text)
    at = f"  at line {place}" if place else "  at the end"
    wanted = [f"not explained: granule {HIGH:016x}", *lines, at, *counts(*numbers).splitlines()]
    shown = [it for it in answer.decode().splitlines() if not it.startswith(ROWS)]
    holds = [it for it in shown if it.startswith(REACH[1])]
    shown = sorted(holds) + [it for it in shown if it not in holds]
    wanted = sorted(it for it in wanted if it in holds) + [it for it in wanted if it not in holds]
    told(f"{case}: {status}, {answer}, {errors}", (status, shown, errors) == (1, wanted, b""))


def operation(reply, op="30 AtomicLoad.ADD", size=3, addr=HIGH):
    """What a transcript has of an operation of requester 1 and transaction 2."""
    return f"1 2 {op} {size} {addr:016x} {reply}"


def holds_word(number):
    return f"  the granule can hold {number.to_bytes(8, 'little').hex()}"

# What is said of an addition that answers 0 after the granule's word was told as 7.
WORD_TOLD_AGAIN = f"""\
not explained: granule 0000000000001008
at 11: 1 2 30 AtomicLoad.ADD 3 0000000000001008 answered
{{3}}
{{4}}
  open from 10 to 11: 1 2 30 AtomicLoad.ADD 3 0000000000001008 answered
  explained up to 10{{2}}
  the last operations of the granule, from time 5 to 11:
    {{0}} 2 |={" " * 39}|   5 to 5   WriteNoSnpPtl   +0 L8  sent 0700000000000000  comp  requester 0 txn 0
  > {{0}} 3 |{" " * 32}{"#" * 8}|  10 to 11  AtomicLoad.ADD  +0 L8  sent 0100000000000000  returned 0000000000000000  requester 1 txn 2
    legal would be:  returned 0700000000000000
    unlike each of these: +0 is 00
  up to 10 {{1}} {{0}}s 2 3
    last written by {{0}} 2: +0
"""

# Nothing comes after it.
EXPLAINED_TO_THE_END = "  a legal response of request 3 explains the granule to its end\n"


def either_order_of_words():
    """A word after unknown bytes: the words that the granule can hold may come in any order."""
    text = forgets(1, HIGH, 8) + holds(5, 7) + done(10, 0)
    orders = [(holds_word(7), holds_word(8)), (holds_word(8), holds_word(7))]
    watched = [f"{WORD_TOLD_AGAIN.format('line', 'in an order that ends with', '', *it)}  at line 4\n{counts(1)}" for it in orders]
    shown = [WORD_TOLD_AGAIN.format("request", "in this order:", " (operations: 2)", *it) + EXPLAINED_TO_THE_END for it in orders]
    for words, wanted in [("watch", watched), ("explain --events", shown)]:
        answer = run(CHECKER, words.split(), text)
        told(f"a word after unknown bytes by {words}: {answer}", answer in [(1, it.encode(), b"") for it in wanted])


def reach():
    """How far a granule can be explained."""
    added, read, write = [operation("answered", it) for it in ("30 AtomicLoad.ADD", "04 ReadNoSnp", "1c WriteNoSnpPtl")]
    unseen = operation("no reply")
    stops("a lost addition", LOST, [f"at 31: {added}", holds_word(1), holds_word(2), f"  open from 30 to 31: {added}", "  explained up to 30"], 2, place=4)
    stops("time 0", adds(0, 0) + answers(0, 0, 7), [f"at 0: {added}", f"  open from 0 to 0: {added}"], 1, place=2)
    from_one = [f"at 1: {added}", holds_word(0), holds_word(1), f"  open from 0 to 1: {added}", "  explained up to 0"]
    stops("time 1", done(0, 7), from_one, 1, place=2)
    beside = adds(10, 7) + done(20, 1) + done(30, 1)
    wanted = [f"at 31: {added}", holds_word(2), holds_word(3), f"  open from 10 on: {unseen}", f"  open from 30 to 31: {added}", "  explained up to 30"]
    stops("one that stays open", beside, wanted, 2, 1)
    over = asks(10, 0) + answers(11, 0, 0) + sends(12, 0) + done(15, 0, READ)
    wanted = [f"at 16: {read}", holds_word(1), f"  open from 15 to 16: {read}", "  explained up to 15"]
    stops("data after the reply", over, wanted, 2, place=5)
    late = asks(10, 0, WRITE) + sends(15, 0, 7) + reads(20, 1) + answers(21, 1, 9) + answers(30, 0, "comp")
    both = [f"  open from 10 to 30: {write}", f"  open from 20 to 21: {read}"]
    stops("a write whose data come at 15", late, [f"at 21: {read}", holds_word(0), holds_word(7), *both, "  explained up to 20"], 2, place=5)
    gone = done(10, None) + done(20, 0, READ) + done(30, 1, READ)
    wanted = [f"at 31: {read}", holds_word(0), f"  open from 30 to 31: {read}", "  explained up to 30"]
    stops("an effect after the end", gone, wanted, 3, place=6)
    dropped = asks(10, 0) + drops(11, 0) + done(20, 1, READ)
    wanted = [f"at 21: {read}", holds_word(0), f"  open from 20 to 21: {read}", "  explained up to 20"]
    stops("dropped", dropped, wanted, 1, place=4)
    stops("another word at the end", done(10, 0) + leaves(20, 2), [f"at the end: {packet(2)[16:]}", holds_word(1)], 1)
    stops("a word that nobody wrote", holds(1, 5) + leaves(2, 6), [f"at the end: {packet(6)[16:]}", holds_word(5)], 0)
    late = done(10, 3) + "".join(done(at, at % 7) for at in range(20, 400, 2))
    wanted = [f"at 11: {added}", holds_word(0), holds_word(1), f"  open from 10 to 11: {added}", "  explained up to 10"]
    stops("what comes after it", late, wanted, 191, place=2, words="watch --keep-going")
    never = adds(9, 1) + "".join(done(at, it, number=2) for it, at in enumerate(range(10, 1010, 2)))
    wanted = [f"at 1011: {added}", holds_word(500), holds_word(501), holds_word(502), f"  open from 9 on: {unseen}", f"  open from 1010 to 1011: {added}", "  explained up to 1010"]
    stops("after five hundred while one is open", never + done(1010, 0, number=2), wanted, 501, 1)
    both = asks(10, 0, WRITE, **data_of(7)) + reads(10, 1) + line("reply", 20, id=0, reply="comp") + answers(20, 1, 9)
    wanted = [f"at 20: {read}", holds_word(0), holds_word(7), f"  open from 10 to 20: {write}", f"  open from 10 to 20: {read}", "  explained up to 19"]
    stops("two that end at the time", both, wanted, 2, place=4)
    tie = adds(10, 0, src=3) + adds(10, 1) + answers(10, 1, 7) + answers(10, 0, 9)
    first = f"3{added[1:]}"
    wanted = [f"at 10: {first}", holds_word(0), f"  open from 10 to 10: {first}", f"  open from 10 to 10: {added}", "  explained up to 9"]
    stops("the first request of two that answer wrongly at a time", tie, wanted, 2, place=4)
    status, answer, errors = run(CHECKER, ["explain", "--events"], tie)
    told(f"and explain: {status}, {answer}, {errors}", (status, answer.splitlines()[1:2], errors) == (1, [f"at 10: {first}".encode()], b""))
    many = "".join(asks(10, it, STORE, **data_of(1 << it)) for it in range(5)) + done(11, 1 << 40, number=9)
    status, answer, errors = run(CHECKER, ["watch"], many)
    held = {int.from_bytes(bytes.fromhex(it.decode()), "little") for it in re.findall(rb"can hold ([0-9a-f]{16})\n", answer)}
    shown = (status, len(held), max(held) <= 32, b"\n  and 17 more\n" in answer, errors)
    told(f"16 of the words 0 to 32: {answer}", shown == (1, 16, True, True, b""))


def orders():
    """Five hundred additions come one after the other, and the last sixteen of them are shown, and a read that overlaps them and has
    not answered, or fewer where that stands among them."""
    text = reads(9, 1) + "".join(done(at, it, number=2) for it, at in enumerate(range(10, 1010, 2))) + done(1010, 0, number=2)
    status, answer, errors = run(CHECKER, ["watch"], text)
    shown = re.search(r"  up to 1010 in an order that ends with lines([ 0-9]*)\n", answer.decode())
    numbers = [int(it) for it in shown[1].split()] if shown else []
    added = [it for it in numbers if it not in (1, 1002)]
    told(f"the end of an order: {answer}", (status, errors, added) == (1, b"", list(range(2, 1002, 2))[500 - len(added) :]) and 14 <= len(added) <= len(numbers) == 16)


def legal():
    """A read from 10 to 40 answers 9, and a write of 7 from 20 to 30 may have come after it or before it: both 0 and 7 would have been
    right, whatever their order, and up to 39 the read, which had no answer, may stand before it or after it, or not at all. The write
    wrote the byte that is wrong last of all but the read. On the line of time from 10 to 40, 20 is in column 13 and 30 in column 26."""
    text = reads(10, 1) + asks(20, 0, WRITE, **data_of(7)) + line("reply", 30, id=0, reply="comp") + answers(40, 1, 9)
    read, sent = operation("answered", "04 ReadNoSnp"), "  sent 0700000000000000  comp  requester 1 txn 2"
    right = [f"    legal would be:  returned {it}00000000000000\n" for it in ("00", "07")]
    wanted = f"not explained: granule {HIGH:016x}\nat 40: {read}\n{holds_word(7)}\n  open from 10 to 40: {read}\n  explained up to 39\n"
    wanted += "  the last operations of the granule, from time 10 to 40:\n"
    wanted += f"    line 2 |{' ' * 13}{'=' * 14}{' ' * 13}|  20 to 30  WriteNoSnpPtl  +0 L8{sent}\n"
    wanted += f"  > line 1 |{'#' * 40}|  10 to 40  ReadNoSnp      +0 L8  returned 0900000000000000  requester 1 txn 2\n"
    wrong = "    unlike each of these: +0 is 09\n"
    ends = [f"{wrong}  up to 39 in an order that ends with lines {it}\n    last written by line 2: +0\n  at line 4\n{counts(2)}" for it in ("2", "1 2", "2 1")]
    found = run(CHECKER, ["watch"], text)
    told(f"two legal replies: {found}", found in [(1, f"{wanted}{''.join(it)}{end}".encode(), b"") for it in (right, right[::-1]) for end in ends])


def whole_runs():
    """chicheck explain on events: an operation's row begins as its last data come, and a page shows what was told."""
    late = reads(20, 1) + asks(21, 0, WRITE) + sends(25, 0, 7) + answers(30, 1, 9) + answers(31, 0, "comp")
    found = run(CHECKER, ["explain", "--events"], late)
    rows = [it.split(" |")[0] for it in found[1].decode().splitlines() if " |" in it]
    told(f"a write whose data come at 25: {found}", found[0] == 1 and rows == ["  > request 1", "    request 2"] and b"21 to 31" in found[1])
    with tempfile.TemporaryDirectory() as folder:
        page = f"{folder}/page.html"
        status = run(CHECKER, ["explain", "--events", "--html", page], LOST)[0]
        with open(page, encoding="utf-8") as file:
            told(f"a page of events: {status}", status == 1 and f"{HIGH:016x}" in file.read())


def fault_after_findings():
    """With --keep-going the lines of what was found before a line that is refused are those of a watch that stops there."""
    whole = LOST + adds(50, 9) + '{"time": 60, "event": "rep'
    stopped = run(CHECKER, ["watch"], LOST + adds(50, 9))[1]
    status, answer, errors = run(CHECKER, ["watch", "--keep-going"], whole)
    wanted = stopped[: stopped.index(b"  operations that ended: ")]
    told("the lines of a watch that stops", (status, answer) == (3, wanted) and b"  explained up to 30\n" in answer)
    wants("without --keep-going it stops before", ["watch"], whole, 1, stopped.decode())


build("chicheck")
for tried in [either_order_of_words, reach, orders, legal, whole_runs, fault_after_findings]:
    tried()
end(24)
