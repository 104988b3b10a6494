"""Tries edits that the prover has to refuse: those of a crate that turn different functions are tried in one check.

In such a check each other function of the crate is taken by its contract, so that little has to be proved. An edit is refused
where the function that it turns is not proved, for a goal of its own: that a function which it calls is not proved does not count.
An edit whose change lies in no one body is tried alone: the function of its name has to be refused. Where it is asked for, it is
seen first that each of these functions is proved in the same surroundings with its own body."""

import glob
import os
import re
import shutil
import subprocess
import sys
import tempfile
import threading
from collections import Counter
from concurrent.futures import ThreadPoolExecutor
from typing import NamedTuple

from assumed import assume_all_but, changed_in
from edit import applied
from said import Kind, refusals_of

# What keeps the prover from a verdict.
ERROR = re.compile(r"\berror[\[:]")
# A run of the prover that came to its verdict ends so.
ENDED = re.compile(r"^(only=|logic=)")


class Tried(NamedTuple):
    """An edit that was tried, with its refusal if it is refused, and why it is or is not."""

    edit: object
    refusal: object
    why: str

    def __str__(self):
        end = f"refused: {self.refusal}" if self.refusal else "NOT REFUSED"
        return f"{self.edit.crate}/{self.edit.name}: {end}: {' '.join(self.why.split())}"


def counts_of(tried):
    """Returns how many edits are refused, and on what their refusals rest, in one line."""
    kinds = Counter(it.refusal.kind for it in tried if it.refusal)
    return f"{sum(kinds.values())} of {len(tried)} edits refused: {', '.join(f'{it.value} {kinds[it]}' for it in Kind)}"


def kit():
    """Returns the kit's own module, which knows how the prover is called."""
    folder = os.path.dirname(os.path.realpath(shutil.which("rt")))
    if folder not in sys.path:
        sys.path.append(folder)
    import rtlib

    return rtlib


def is_function(path, function):
    """Returns whether a path is that of a function, which is told by the end of its path, or of a closure in it."""
    closures = "::fn::".join(function.rsplit("::", 1))
    return f"::{path}".endswith(f"::{function}") or f"::{closures}::" in f"::{path}"


def refused(edit, refusals):
    """Returns an edit with the refusal of the function that it turns, or none; where that is not known, with that of some function."""
    for path, it in refusals.items():
        if not edit.function or is_function(path, edit.function):
            return Tried(edit, it, f"{path}: {it.why}")
    return Tried(edit, None, "it is not refused for a reason of its own")


def size_of(folder):
    """Returns how many bytes of code, definitions and proofs a crate has."""
    return sum(os.path.getsize(it) for ending in ("rt", "antt") for it in glob.glob(f"{folder}/[sp]*/**/*.{ending}", recursive=True))


def turns_of(edits):
    """Returns how many checks, one after another, edits of a crate take at least."""
    functions = Counter(it.function for it in edits if it.is_of_body)
    return max(functions.values(), default=0) + sum(not it.is_of_body for it in edits)


class Crate:
    """A crate whose libraries are built, and the edits of it."""

    def __init__(self, root, name, rtlib):
        self.rtlib = rtlib
        self.crate = next(it for it in rtlib.crates_below(root) if it.name == name)

    def check(self, functions, edits, kept):
        """Checks some functions in a copy of the crate with these edits, over what is kept, if anything is. The others are taken by their
        contracts, but those that the edits change; where no function is named, the whole copy is checked. Returns what the prover says
        where it came to a verdict, or else its first error, and whether it did."""
        words = [*self.crate.words(["--jobs", "1"], keeps=False), *(["--incremental", kept] if kept else [])]
        texts = applied(edits, self.crate.folder)
        with tempfile.TemporaryDirectory(prefix="must-fail-") as room:
            for part in ("src", "specs", "proofs"):
                if os.path.isdir(f"{self.crate.folder}/{part}"):
                    shutil.copytree(f"{self.crate.folder}/{part}", f"{room}/{part}")
            for path, text in texts.items():
                with open(f"{room}/{path}", "w", encoding="utf-8") as file:
                    file.write(text)
            if functions:
                assume_all_but({*functions} | changed_in(self.crate.folder, texts), room, self.crate.name)
                words += ["--allow-holes", *(word for it in functions for word in ("--only", it))]
            how = {"stdin": subprocess.DEVNULL, "stdout": subprocess.PIPE, "stderr": subprocess.STDOUT, "text": True, "errors": "replace"}
            ran = subprocess.run(["nice", *self.rtlib.guarded(), self.rtlib.RATTLE, "check", *words], cwd=room, **how)
        lines = ran.stdout.rstrip("\n").split("\n")
        has_ended = bool(ENDED.match(lines[-1])) and ran.returncode in (0, 1)
        return ran.stdout if has_ended else next((it for it in lines if ERROR.search(it)), lines[-1]), has_ended

    def try_alone(self, edit, kept):
        said, has_ended = self.check([edit.function] if edit.function else [], [edit], kept)
        if not has_ended:
            return Tried(edit, None, f"BAD EDIT: it did not reach the prover: {said}")
        return refused(edit, refusals_of(said))

    def try_together(self, edits, kept):
        """Tries edits of different functions in one check. Returns those that are refused, and those to be tried once more."""
        said, has_ended = self.check([it.function for it in edits], edits, kept)
        refusals = refusals_of(said) if has_ended else {}
        if any(all(not is_function(path, it.function) for it in edits) for path in refusals):
            return [], edits
        tried = [refused(it, refusals) for it in edits]
        return [it for it in tried if it.refusal], [it.edit for it in tried if not it.refusal]

    def not_proved(self, edits, kept):
        """Returns why functions that edits turn are not proved as they stand, by the function: such an edit shows nothing."""
        functions = sorted({it.function for it in edits if it.function})
        said, has_ended = self.check(functions, [], kept) if functions else ("", True)
        if not has_ended:
            return dict.fromkeys(functions, said)
        refusals = refusals_of(said)
        return {it: refusal.why for it in functions for path, refusal in refusals.items() if is_function(path, it)}

    def try_all(self, edits, are_seen_to_prove):
        """Tries edits of the crate, and says of each whether it is refused; perhaps once it is seen that what they turn is proved."""
        with tempfile.TemporaryDirectory(prefix="must-fail-kept-") as kept:
            # to keep what is checked takes time itself, which one check alone would not win back
            kept = kept if are_seen_to_prove or turns_of(edits) > 1 else None
            broken = self.not_proved(edits, kept) if are_seen_to_prove else {}
            tried = [Tried(it, None, f"NOT TRIED, since it is not proved as it stands: {broken[it.function]}") for it in edits if it.function in broken]
            edits = [it for it in edits if it.function not in broken]
            left, alone = [it for it in edits if it.is_of_body], [it for it in edits if not it.is_of_body]
            while left:
                turn = [*{it.function: it for it in reversed(left)}.values()]
                done, again = self.try_together(turn, kept) if len(turn) > 1 else ([], turn)
                tried += done
                left = [it for it in left if it not in turn]
                # one whose goals wait for those of another edit is tried without that one
                left, alone = (left + again, alone) if done else (left, alone + again)
            tried += [self.try_alone(it, kept) for it in alone]
        return sorted(tried, key=lambda it: it.edit.name)


class Trials:
    """The edits of a repository's crates, tried while rt ci runs: those of a crate once that is proved, where few provers run, and those
    first that take longest, by the size of the crate and the checks that follow one another."""

    def __init__(self, root, edits, provers_of, are_seen_to_prove=False):
        self.root, self.edits, self.rtlib, self.are_seen_to_prove = root, edits, kit(), are_seen_to_prove
        # says how many provers work on the crates of a folder
        self.provers_of = provers_of
        self.processors = len(os.sched_getaffinity(0))
        # so many provers may run, those of rt ci among them
        self.most = self.processors + self.processors // 2
        self.pool, self.begun = ThreadPoolExecutor(max(1, len(edits))), {}
        self.door, self.stopped, self.waiting, self.trying = threading.Lock(), threading.Event(), set(), set()
        self.work = {it: size_of(f"{root}/crates/{it}") * turns_of(edits[it]) for it in edits}
        # its first call sets a signal's handler, which only the main thread may
        self.rtlib.guarded()

    def begin(self, crate):
        """Tries the edits of a crate, which is proved."""
        if crate in self.edits:
            self.waiting.add(crate)
            self.begun[crate] = self.pool.submit(self.try_crate, crate)

    def may_begin(self, crate):
        """Whether it is the crate's turn, which then has come."""
        with self.door:
            is_first = crate == max(self.waiting, key=self.work.get)
            if not is_first or len(self.trying) + self.provers_of(self.root) >= self.most:
                return False
            self.waiting.discard(crate)
            self.trying.add(crate)
            return True

    def try_crate(self, crate):
        while not self.may_begin(crate):
            if self.stopped.wait(0.5):
                return []
        try:
            return Crate(self.root, crate, self.rtlib).try_all(self.edits[crate], self.are_seen_to_prove)
        finally:
            self.trying.discard(crate)

    def end(self):
        """Waits for all edits, on all processors, and returns what became of them."""
        self.most = self.processors
        return [it for crate in sorted(self.edits) for it in self.begun[crate].result()]

    def stop(self):
        """Begins no further edits."""
        self.stopped.set()
        self.pool.shutdown(wait=False, cancel_futures=True)
