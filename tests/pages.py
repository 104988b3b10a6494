#!/usr/bin/env python3
"""What README.md and docs/ of a folder show, tried on its programs as processes. Scripts, transcripts and commands are taken out of the
pages themselves, so that a page that is wrong fails.

    tests/pages.py                  those of the repository, on what is built there
    tests/pages.py FOLDER BIN       those of a folder, on the programs chihome and chicheck in its folder BIN

PYTHON names the Python that runs chi-waves, where it is not python3 on the path."""

import os
import re
import subprocess
import sys
import tempfile
from pathlib import Path

sys.dont_write_bytecode = True

from process import CHECKER, HOME, build, end, run, told

FOLDER, BIN = sys.argv[1:] or (Path(__file__).resolve().parent.parent, None)
os.chdir(FOLDER)
PROGRAMS = {it: f"{BIN}/{it}" for it in ["chihome", "chicheck"]} if BIN else {"chihome": HOME, "chicheck": CHECKER}
MODULES = os.path.realpath("share/chi/python" if BIN else "python")
PAGES = {it: it.read_text(encoding="utf-8") for it in [Path("README.md"), *sorted(Path("docs").glob("*.md"))]}


def blocks(page):
    """Each block of a page: the text before it, its kind and its lines."""
    parts = re.split(r"^```(.*)\n", PAGES[page], flags=re.M)
    return zip(parts[::4], parts[1::4], parts[2::4])


def last(pattern, text, otherwise=None):
    """What was found last in a text."""
    return [otherwise, *re.findall(pattern, text)][-1]


def try_scripts(page):
    """Each script is the file that the text before it names, and is answered by the transcript after it."""
    since, task, script = "", "run", ""
    for before, kind, lines in blocks(page):
        since += before
        if kind == "json":
            told(f"{page}: a script without its transcript: {script}", not script)
            task, example, script = last(r"chihome (run|race) <", since, "run"), last(r"examples/[a-z_]+\.json", since), lines
            told(f"{page}: it shows another script than {example}", not example or script == Path(example).read_text(encoding="utf-8") + "\n")
            since = ""
        elif kind == "" and re.match(r"\d+ \d+ [0-9a-f]{2} |m [0-9a-f]+ ", lines):
            found = run("chihome", [task], script)
            told(f"{page}: {task} of {script}: {found}", found == (0, lines.encode(), b""))
            script = ""
    told(f"{page}: a script without its transcript: {script}", not script)


def try_commands(page):
    """What is shown after each command is what comes on standard output and error."""
    for words, shown in [it for _, kind, lines in blocks(page) if kind == "console" for it in re.findall(r"^\$ (.+)\n((?:(?!\$ ).+\n)*)", lines, re.M)]:
        ran = subprocess.run(["bash", "-c", words], stdin=subprocess.DEVNULL, stdout=subprocess.PIPE, stderr=subprocess.STDOUT, timeout=60)
        told(f"{page}: {words}: {ran.stdout}", ran.stdout == shown.encode())


if not BIN:
    build(*PROGRAMS)
with tempfile.TemporaryDirectory() as folder:
    for name, program in PROGRAMS.items():
        os.symlink(os.path.realpath(program), f"{folder}/{name}")
    waves = Path(folder, "chi-waves")
    waves.write_text(f'#!/bin/sh\nPYTHONPATH="{MODULES}" exec "{os.environ.get("PYTHON", "python3")}" -B -m chi_waves "$@"\n', encoding="utf-8")
    waves.chmod(0o755)
    os.environ["PATH"] = f"{folder}:{os.environ['PATH']}"
    for page in PAGES:
        try_scripts(page)
        try_commands(page)
    for example in Path("examples").glob("*.json"):
        told(f"{example}: no page shows it", any(str(example) in it for it in PAGES.values()))
end(55)
