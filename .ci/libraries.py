"""The libraries below crates, proved and built side by side: `.ci/libraries`, and what `tools/must_fail/edits` stands on."""

import concurrent.futures
import os
import shutil
import subprocess
import sys

ROOMS = "out/libraries"
# No run of rt takes longer than this, in seconds.
LIMIT = 3 * 3600


def crates_txt():
    """Returns the lines of crates.txt by the crate, and the repository's crates that each uses."""
    with open("crates.txt", encoding="utf-8") as file:
        lines = {it.split()[0].rstrip(":"): it for it in file if it.strip()}
    return lines, {it: [other for other in line.partition(":")[2].split() if other in lines] for it, line in lines.items()}


def below(crate, uses):
    """Returns the crates that this one stands on."""
    found = set(uses[crate])
    for it in uses[crate]:
        found |= below(it, uses)
    return found


def longest(libraries, uses):
    """Returns the libraries, those first for which the longest chain of others waits, by the seconds that .ci/proofs.txt tells
    of each proof; one of which it tells nothing counts as a minute."""
    with open(".ci/proofs.txt", encoding="utf-8") as file:
        took = {it: int(seconds) for it, seconds in map(str.split, file)}
    ways = {}
    for it in sorted(libraries, key=lambda it: -len(below(it, uses))):
        ways[it] = took.get(it, 60) + max((ways[other] for other in ways if it in uses[other]), default=0)
    return sorted(libraries, key=lambda it: -ways[it])


def run(words, folder):
    """Runs rt, and ends the program with what it said where it fails."""
    how = {"stdout": subprocess.PIPE, "stderr": subprocess.STDOUT, "text": True, "errors": "replace"}
    ran = subprocess.run(words, cwd=folder, timeout=LIMIT, **how)
    if ran.returncode:
        sys.exit(f"{ran.stdout[-3000:]}\n{' '.join(words)} failed in {folder}")


def prove(crate, lines, uses, jobs, priority):
    """Proves and builds a library, where those below it are built, in a room of its own: into the folder of a library rt lets one
    check at a time."""
    room, stands_on = f"{ROOMS}/{crate}", below(crate, uses)
    os.makedirs(room)
    shutil.copy("HANDLES", room)
    with open(f"{room}/crates.txt", "w", encoding="utf-8") as file:
        file.writelines(lines[it] for it in [*stands_on, crate])
    for it in [*stands_on, crate]:
        shutil.copytree(f"crates/{it}", f"{room}/crates/{it}", ignore=shutil.ignore_patterns("out", "must-fail"))
    for it in stands_on:
        shutil.copytree(f"crates/{it}/out", f"{room}/crates/{it}/out", copy_function=os.link)
    own, made = f"crates/{crate}/out", f"{room}/crates/{crate}/out"
    if os.path.isdir(own):
        # so that rt goes on from what was built before
        os.rename(own, made)
    try:
        run([*priority, "rt", "lib", "--jobs", str(jobs)], f"{room}/crates/{crate}")
    finally:
        if os.path.isdir(made):
            os.rename(made, own)
    shutil.rmtree(room)


def build(crates):
    """Proves and builds the libraries below these crates, each as soon as those below it are built. A library has the provers that
    no other one waits for; that for which most wait has two, where two are free, and the last one four. One on which no library
    stands leaves the processors to the others."""
    lines, uses = crates_txt()
    libraries = set().union(*(below(it, uses) for it in crates))
    needed = {other for it in libraries for other in uses[it]}
    processors = len(os.sched_getaffinity(0))
    left, running = longest(libraries, uses), {}
    shutil.rmtree(ROOMS, ignore_errors=True)
    with concurrent.futures.ThreadPoolExecutor(len(lines)) as pool:
        while left or running:
            waiting = {*left, *(it for it, _ in running.values())}
            ready = [it for it in left if not below(it, uses) & waiting]
            for at, it in enumerate(ready):
                idle = max(processors - sum(jobs for _, jobs in running.values()), 0)
                jobs = max(min(4, idle // (len(ready) - at)), 2 if it == left[0] and idle > 1 else 1)
                if len(left) == 1:
                    jobs = min(4, processors)
                priority = [] if it in needed or it == left[0] else ["nice"]
                left.remove(it)
                running[pool.submit(prove, it, lines, uses, jobs, priority)] = it, jobs
            for it in concurrent.futures.wait(running, return_when=concurrent.futures.FIRST_COMPLETED).done:
                del running[it]
                it.result()
    shutil.rmtree(ROOMS, ignore_errors=True)
