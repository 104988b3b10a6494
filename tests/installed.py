#!/usr/bin/env python3
"""What is installed beside the programs: man pages and completions name the options that each program's help names, and no
others, and the version is told everywhere as in the file VERSION."""

import os
import re
import subprocess
import sys

os.chdir(f"{os.path.dirname(os.path.abspath(__file__))}/..")
sys.dont_write_bytecode = True

from process import CHECKER, HOME

TASKS = {"chihome": ["run", "race", "generate"], "chicheck": ["explain", "watch", "cover"]}
BUILT = {"chihome": HOME, "chicheck": CHECKER}
OPTION = r"(?<![\w-])--[a-z][a-z-]*"
wrong = []


def text_of(file):
    with open(file, encoding="utf-8") as it:
        return it.read()


def said(program, *words):
    return subprocess.run([BUILT[program], *words], capture_output=True, text=True, timeout=60, check=True).stdout


def offered(program, *words):
    """What bash offers after these words of the program's command line."""
    script = f'. completions/{program}; COMP_WORDS=("$@" ""); COMP_CWORD=$#; _{program} "$1" "" "${{@: -1}}"; printf "%s\\n" "${{COMPREPLY[@]}}"'
    ran = subprocess.run(["bash", "-c", script, "bash", program, *words], capture_output=True, text=True, timeout=60, check=True)
    return set(ran.stdout.split())


def same(what, found, wanted):
    if found != wanted:
        wrong.append(f"{what}: {' '.join(sorted(found ^ wanted))}")


version = text_of("VERSION").strip()
for program, tasks in TASKS.items():
    page = text_of(f"man/{program}.1").replace("\\-", "-")
    options = {"--help", "--version"}
    same(f"completions/{program}", offered(program), {*tasks, *options})
    for task in tasks:
        named = set(re.findall(OPTION, said(program, task, "--help")))
        same(f"completions/{program} {task}", offered(program, task), named)
        options |= named
    same(f"man/{program}.1", set(re.findall(OPTION, page)), options)
    same(f"{program} --version", {said(program, "--version").strip()}, {f"{program} {version}"})
    same(f"the version of man/{program}.1", set(re.findall(rf'"{program} ([^"]*)"', page)), {version})
same("the version of include/chi.h", set(re.findall(r'^#define CHI_VERSION "(.*)"', text_of("include/chi.h"), re.M)), {version})
same("the version of bench/Cargo.toml", set(re.findall(r'^version = "(.*)"', text_of("bench/Cargo.toml"), re.M)), {version})
for line in wrong:
    print(f"installed: {line}", file=sys.stderr)
print(f"installed: {len(TASKS)} programs, {len(wrong)} mistakes")
sys.exit(1 if wrong else 0)
