"""A copy of the tests' own crate, whose files end in .in so that rt finds no crate here, and edits of it."""

import os
import shutil
import tempfile

from edit import read_edit

FILES = f"{os.path.dirname(os.path.abspath(__file__))}/sample"


class Sample:
    """The crate in a repository of its own, in a temporary folder."""

    def __init__(self):
        self.room = tempfile.TemporaryDirectory(prefix="sample-")
        self.root = self.room.name
        self.folder = f"{self.root}/crates/sample"
        shutil.copytree(FILES, self.folder)
        for folder, _, files in os.walk(self.folder):
            for it in files:
                os.rename(f"{folder}/{it}", f"{folder}/{it.removesuffix('.in')}")
        self.write("crates.txt", "sample:\n")
        self.write("HANDLES", "Handles allowed: none.\n")

    def write(self, name, text):
        with open(f"{self.root}/{name}", "w", encoding="utf-8") as file:
            file.write(text)

    def edit(self, function, *pairs, path="src/lib.rt"):
        """Returns an edit named after a function, which replaces the first text of each pair by the second."""
        lines = [f"file: {path}", *(line for old, new in pairs for line in (f"old: {old}", f"new: {new}"))]
        self.write(f"01_{function}.turned.edit", "\n".join(lines))
        return read_edit(f"{self.root}/01_{function}.turned.edit", self.folder)
