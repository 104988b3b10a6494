"""What the provers of this machine do: how many work on a folder, and below this process the processor time of each crate's proof, of
its tests and of its edits."""

import collections
import contextlib
import glob
import os
import threading

TICKS = os.sysconf("SC_CLK_TCK")
Process = collections.namedtuple("Process", "name parent seconds began")
# kind is proof, tests or edits
Work = collections.namedtuple("Work", "kind crate")


def processes():
    """Returns what runs on this machine, by its number."""
    found = {}
    for entry in glob.glob("/proc/[0-9]*/stat"):
        try:
            with open(entry, encoding="utf-8", errors="replace") as file:
                text = file.read()
        except OSError:
            continue
        fields = text[text.rindex(")") + 2 :].split()
        seconds = sum(int(it) for it in fields[11:15]) / TICKS
        name = text[text.index("(") + 1 : text.rindex(")")]
        found[int(entry.split("/")[2])] = Process(name, int(fields[1]), seconds, fields[19])
    return found


def provers_of(folder):
    """Returns how many provers work on the crates of a folder. One that has copies of itself do so only waits for these."""
    found = {number: it for number, it in processes().items() if it.name == "rattle"}
    waiting, count = {it.parent for it in found.values()}, 0
    for number in found.keys() - waiting:
        with contextlib.suppress(OSError):
            count += os.readlink(f"/proc/{number}/cwd").startswith(f"{os.path.realpath(folder)}/")
    return count


class Watch(threading.Thread):
    """Looks twice a second at the provers below this process that work on the crates of a folder, until it is ended."""

    def __init__(self, room):
        super().__init__(daemon=True)
        self.room = os.path.realpath(room)
        self.ended, self.works, self.spent = threading.Event(), {}, {}

    def run(self):
        while not self.ended.wait(0.5):
            self.look()

    def end(self):
        self.ended.set()
        self.join()

    def look(self):
        found, spent = processes(), collections.Counter()
        for number, process in found.items():
            top = self.top_of(number, found) if process.name == "rattle" else None
            if top:
                spent[top, found[top].began] += process.seconds
        for key in spent:
            if key not in self.works:
                self.works[key] = self.work_of(key[0])
        self.spent.update(spent)

    def top_of(self, number, found):
        """Returns the prover that this one is a copy of, where that stands below this process."""
        top = None
        while number in found and number != os.getpid():
            top = number if found[number].name == "rattle" else top
            number = found[number].parent
        return top if number in found else None

    def work_of(self, number):
        """Returns what a prover works on, or nothing where it proves nothing of the folder."""
        try:
            folder = os.readlink(f"/proc/{number}/cwd")
            with open(f"/proc/{number}/cmdline", encoding="utf-8", errors="replace") as file:
                words = file.read().split("\0")
            crate = words[words.index("--crate-name") + 1]
        except (OSError, ValueError):
            return None
        if os.path.basename(folder).startswith("must-fail-"):
            return Work("edits", crate)
        return Work("tests" if "--test" in words else "proof", crate) if folder.startswith(f"{self.room}/") else None

    def seconds(self):
        """Returns the processor time of each piece of work."""
        total = collections.Counter()
        for key, work in self.works.items():
            if work:
                total[work] += self.spent[key]
        return total
