#!/usr/bin/env python3
"""The memory of chicheck watch, as a process: where nothing is to be shown, a granule whose operations have ended is kept as its word."""

import os
import subprocess
import sys
import tempfile

os.chdir(f"{os.path.dirname(os.path.abspath(__file__))}/..")
sys.dont_write_bytecode = True

from lines import adds, answers
from process import CHECKER, build, end, told

GRANULES = 100_000
# Starts a program, and says how many kilobytes it had at most: the memory of what starts it counts too.
STARTED = "import os, sys; print(os.wait4(os.spawnvp(os.P_NOWAIT, sys.argv[1], sys.argv[1:]), 0)[2].ru_maxrss, file=sys.stderr)"


def bytes_each(text, *words):
    """The bytes for each granule that a watch has at once, at most."""
    text.seek(0)
    said = subprocess.run([sys.executable, "-ISc", STARTED, CHECKER, "watch", *words], stdin=text, capture_output=True, timeout=300)
    told(f"{words}: {said}", said.stdout.startswith(b"explained\n"))
    return 1024 * int(said.stderr) / GRANULES


build("chicheck")
with tempfile.TemporaryFile("w+") as text:
    for it in range(GRANULES):
        text.write(adds(2 * it, it, addr=8 * it) + answers(2 * it + 1, it, 0, addr=8 * it))
    settled, shown = bytes_each(text, "--around", "0"), bytes_each(text)
told(f"a settled granule takes {settled} bytes", settled < 200)
told(f"with its last operations it takes {shown} bytes", shown > 2 * settled)
end(4)
