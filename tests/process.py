"""Runs of the programs as processes: with a time limit, on a terminal and with faults (tests/faults.c); and the count of what was tried.
CHIHOME and CHICHECK name other programs than those that make builds."""

import json
import os
import re
import subprocess
import sys
import time

HOME = os.environ.get("CHIHOME", "crates/chi_home/out/chi_home")
CHECKER = os.environ.get("CHICHECK", "crates/chi_check/out/chi_check")
NAME = os.path.basename(sys.argv[0])
tried, failed = 0, 0
# What each member of a trace, of its requests and of events has to be, as the text of a fault says it.
WHOLE, ADDRESS = "a whole number below 2^64", "an address: a whole number below 2^64, of a word a multiple of 8 below 2^52"
WANTED = {
    **dict.fromkeys(["base", "start", "end", "time", "id"], WHOLE),
    **dict.fromkeys(["granules", "src", "txn", "be"], "a whole number up to 65535"),
    **dict.fromkeys(["refused", "reason"], "the name of a refusal"),
    "addr": ADDRESS,
    "op": "a whole number up to 255",
    "size": "a whole number up to 7",
    "endian": "0 or 1",
    "lanes": "32 hex digits",
    "bytes": "16 hex digits",
    "image": "the words of granules",
    "final": "the words of granules, or of a word true or false",
    "requests": "a list",
    "reply": "comp, 32 hex digits or null",
    "event": "the name of an event",
    "length": "a whole number from 1 to 4096, of bytes below 2^52",
}


def build(*programs):
    """Builds these programs where they are not built, but one that the environment names."""
    subprocess.run([".ci/built", *(it for it in programs if it.upper() not in os.environ)], check=True)


def told(case, holds):
    """Counts a case, and says which one fails."""
    global tried, failed
    tried += 1
    if not holds:
        failed += 1
        print(f"{NAME}: {case}"[:2000], file=sys.stderr)


def run(program, words, text, **faults):
    """Returns the status, the output and the errors of a program on some bytes."""
    text = text.encode() if isinstance(text, str) else text
    ran = subprocess.run([program, *words], input=text, capture_output=True, env={**os.environ, **faults}, timeout=60)
    return ran.returncode, ran.stdout, ran.stderr


def wants(case, words, text, status, out="", errors=""):
    """Tries chicheck on a trace: its status, its output and its errors."""
    found, wanted = run(CHECKER, words, text), (status, out.encode(), errors.encode())
    told(f"{case}: {found} in place of {wanted}", found == wanted)


def shown(value):
    """A value as the text of a fault shows it: of a text its first 32 bytes."""
    if isinstance(value, str):
        text = value.encode()
        letters = "".join(chr(byte) if 33 <= byte <= 126 else "?" for byte in text[:32])
        return f'"{letters}{"..." if len(text) > 32 else ""}"'
    if isinstance(value, (list, dict)):
        return "a list" if isinstance(value, list) else "an object"
    if isinstance(value, float) or (value is not None and not -(2**63) <= value < 2**64):
        return "a number"
    return json.dumps(value)


def is_not(name, value):
    """What is said of a member with this value, which is not what it has to be."""
    return f"member {name} is {shown(value)}, and not {WANTED[name]}"


def refused(case, text, fault):
    """The trace is refused with this fault."""
    wants(case, ["explain"], text, 3, errors=f"chicheck: {fault}\n")


def explained(case, text, lines):
    """The trace is explained by a witness of these lines."""
    wants(case, ["explain", "--witness"], text, 0, f"explained\n{lines}")


def unexplained(case, text, first):
    """The answer is that the trace is not explained, with this first line."""
    status, out, errors = run(CHECKER, ["explain"], text)
    told(f"{case}: {(status, out, errors)}", status == 1 and out.decode().startswith(first) and not errors)


def trace(requests, granules=1, **members):
    """A trace over these granules from 4096 on, as text."""
    return json.dumps({"base": 4096, "granules": granules, **members, "requests": requests})


def on_terminal(words, text, wait=0, **faults):
    """Returns the status, the output and what stood on a terminal that took the errors."""
    screen, line = os.openpty()
    pipes = {"stdin": subprocess.PIPE, "stdout": subprocess.PIPE, "stderr": line}
    with subprocess.Popen([CHECKER, *words], env={**os.environ, **faults}, **pipes) as ran:
        time.sleep(wait)
        out = ran.communicate(text.encode(), timeout=60)[0]
    os.close(line)
    shown = b""
    try:
        while part := os.read(screen, 1 << 16):
            shown += part
    except OSError:
        pass  # All was read.
    os.close(screen)
    return ran.returncode, out, shown


def faults_library(folder):
    """Builds the library that makes calls fail, into the folder."""
    library = f"{folder}/faults.so"
    words = ["cc", "-O1", "-Wall", "-Wextra", "-Werror", "-shared", "-fPIC", "-o", library, "tests/faults.c", "-ldl"]
    subprocess.run(words, check=True, timeout=60)
    return library


def refuse_in_turn(case, preload, words, text, *files):
    """Refuses each block of memory in turn, and each from it on: the answer is as it was, or that there is no memory, for one of these
    files where it is read, with what a watch had found by lines until then."""
    right = run(CHECKER, words, text)
    faults = [(4, out, f"chicheck: {it}no memory\n".encode()) for it in ["", *(f"{file}: " for file in files)] for out in found_by_lines(right[1])]
    for on in ["0", "1"]:
        for block in range(1, 100000):
            met = f"{preload}.met"
            found = run(CHECKER, words, text, LD_PRELOAD=preload, FAULT_MEMORY=str(block), FAULT_ON=on, FAULT_MET=met)
            if not os.path.exists(met):
                told(f"{case}: the last block", found == right and block > 10)
                break
            os.remove(met)
            told(f"{case}: block {block} refused: {found}", found in (right, *faults))


def found_by_lines(answer):
    """What a watch may have found by lines before a fault: nothing, or a front of its answer that ends with a granule."""
    return [b"", *(answer[: it.end()] for it in re.finditer(rb"^  at line \d+\n", answer, re.M))]


def fail_in_turn(preload, words, text):
    """Fails each read and write of chicheck, one byte a call."""
    right = run(CHECKER, words, text)
    for case, call, fault in [
        ("reader_that_fails", "READ", "input could not be read"),
        ("writer_that_fails", "WRITE", "output could not be written"),
    ]:
        for n in range(1, 100000):
            met = f"{preload}.met"
            found = run(CHECKER, words, text, LD_PRELOAD=preload, FAULT_BYTES="1", FAULT_MET=met, **{f"FAULT_{call}": str(n)})
            if not os.path.exists(met):
                told(f"one byte a {call}", found == right and n > 100)
                break
            os.remove(met)
            outs = [right[1][: n - 1]] if call == "WRITE" else found_by_lines(right[1])
            told(f"{case}: {call} {n}: {found}", found in [(5, out, f"chicheck: {fault}\n".encode()) for out in outs])


def data_of(page, name):
    """The data of a page."""
    return json.loads(page.split(f'<script type="application/json" id="{name}">', 1)[1].split("</script>", 1)[0])


def end(least):
    """Says how many cases there were, and fails where one does or where there were too few."""
    if failed:
        sys.exit(f"{NAME}: {failed} of {tried} cases fail")
    if tried < least:
        sys.exit(f"{NAME}: only {tried} cases were tried")
    print(f"{NAME}: {tried} cases agree")
