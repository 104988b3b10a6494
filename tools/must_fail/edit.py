"""An edit of a crate's code, which the prover has to refuse: what it changes, and which function it turns."""

import glob
import os
import re
from typing import NamedTuple

# The heads of a function, of an implementation, and of what else may hold functions, as rt fmt lays them out.
FUNCTION = re.compile(r"^( *)(?:pub(?:\([^)]*\))? )?(const )?(?:unsafe )?(?:extern \"C\" )?fn (\w+)")
OWNER = re.compile(r"(?:unsafe )?impl(?:<(?P<own>.*?)>)? (?:(?P<trait>[^ ].*) for )?(?:\w+::)*(?P<type>\w+)")
PARAMETER = re.compile(r"(?:^|, )(?:const )?(\w+)")
NAME = re.compile(r"(?<![\w'])(?:\w+::)*(\w+)")
TYPE = re.compile(r"^(?:pub(?:\([^)]*\))? )?(?:struct|enum) (\w+)", re.M)
ITEM = re.compile(r"(?:pub(?:\([^)]*\))? )?(?:unsafe )?(?:impl|trait|mod|macro_rules!)\b")
# A function that a trait, a macro or a module within a file holds has no path that its text tells.
WITHIN = "    "


class Edit(NamedTuple):
    name: str
    crate: str
    # each file that it changes, as it leaves it
    texts: dict
    # the function that it turns, by its path: the one whose body has all of the change, or else the one of its name
    function: str | None
    # whether one body has all of the change
    is_of_body: bool


class Function(NamedTuple):
    """A function in a file: its path, the line of its head, that with the brace before its body, and its last."""

    path: str
    head: int
    brace: int
    last: int
    is_const: bool


class Change(NamedTuple):
    """Where a text is replaced, by its first byte and the one after its last."""

    begin: int
    end: int
    new: str


def changed_by(edit, folder):
    """Returns the files of a crate that an edit changes, as it leaves them, or raises ValueError where it fits no more."""
    path, old, texts = "", None, {}
    with open(edit, encoding="utf-8") as file:
        lines = file.read().split("\n")
    for line in lines:
        if line.startswith("file: "):
            path = line[len("file: ") :].strip()
            if not path.startswith("src/"):
                raise ValueError(f"it changes {path}, and an edit changes code alone")
        elif line.startswith("old: "):
            old = line[len("old: ") :]
        elif line.startswith("new:"):
            if path not in texts:
                texts[path] = text_of(f"{folder}/{path}")
            count = texts[path].count(old) if old else 0
            if count != 1:
                raise ValueError(f"an 'old:' text stands {count} times in {path}, and not once")
            texts[path], old = texts[path].replace(old, line[len("new:") :].removeprefix(" ")), None
    if not texts:
        raise ValueError("it has no 'old:' and 'new:' pair")
    return texts


def text_of(path):
    with open(path, encoding="utf-8") as file:
        return file.read()


def change_of(text, changed):
    """Returns the least part of a text by which it becomes another one."""
    most = min(len(text), len(changed))
    begin = next((at for at in range(most) if text[at] != changed[at]), most)
    after = next((at for at in range(most - begin) if text[-1 - at] != changed[-1 - at]), most - begin)
    return Change(begin, len(text) - after, changed[begin : len(changed) - after])


def body_of(lines, head, indent):
    """Returns the line with the brace before a function's body, and the function's last line."""
    heads = (f"{indent}{{", f"{indent}) ", lines[head])
    at = next(it for it in range(head, len(lines)) if lines[it].endswith(("{", "{}")) and lines[it].startswith(heads))
    return at, at if lines[at].endswith("{}") else lines.index(f"{indent}}}", at)


def module_of(path, crate):
    """Returns the path of a file's module."""
    names = path.removeprefix("src/").removesuffix(".rt").split("/")
    return "::".join([crate] if names in (["lib"], ["main"]) else [crate, *names])


def sources(folder):
    """Returns the text of each file of a crate's code, by its path."""
    files = sorted(glob.glob(f"{folder}/src/**/*.rt", recursive=True))
    return {os.path.relpath(it, folder): text_of(it) for it in files}


def functions_of(texts, crate):
    """Returns the functions in files of a crate, by the file, but those within traits, macros and modules of a file. A method of a type
    itself stands in the type's module, and one of a trait in that of its file."""
    modules = {it: module_of(path, crate) for path, text in texts.items() for it in TYPE.findall(text)}
    found = {}
    for path, text in texts.items():
        lines, found[path], item = text.split("\n"), [], ""
        for at, line in enumerate(lines):
            item = line if ITEM.match(line) else item
            head, owner = FUNCTION.match(line), OWNER.match(item)
            if head and (not head[1] or owner and head[1] == WITHIN):
                names = [module_of(path, crate), head[3]]
                if head[1]:
                    # what a type does when it is dropped is the type's own
                    of_trait = NAME.findall(owner["trait"] or "") if owner["trait"] != "Drop" else []
                    # the name has no parameter of the implementation
                    own = PARAMETER.findall(owner["own"] or "")
                    of_trait = [it for it in of_trait if it not in own]
                    module = names[0] if of_trait else modules.get(owner["type"], names[0])
                    names = [module, "".join([owner["type"], *of_trait]), head[3]]
                found[path].append(Function("::".join(names), at, *body_of(lines, at, head[1]), bool(head[2])))
    return found


def turned_by(texts, functions, folder):
    """Returns the function whose body has all of these changes, where it is one."""
    if len(texts) != 1:
        return None
    ((path, changed),) = texts.items()
    text = text_of(f"{folder}/{path}")
    change = change_of(text, changed)
    first, last = text.count("\n", 0, change.begin), text.count("\n", 0, change.end)
    return next((it.path for it in functions[path] if it.head < first and last <= it.last), None)


def named(name, texts, functions):
    """Returns the function of this name in the files of a crate that are changed, or else in any of its files, where it is one."""
    for files in (texts, functions):
        found = [it.path for file in files for it in functions[file] if it.path.rsplit("::", 1)[1] == name]
        if len(found) == 1:
            return found[0]
    return None


def read_edit(file, folder):
    """Returns an edit of the crate in a folder, or raises ValueError where it fits no more."""
    name, texts = os.path.basename(file), changed_by(file, folder)
    functions = functions_of(sources(folder), os.path.basename(folder))
    turned = turned_by(texts, functions, folder)
    function = turned or named(name.split(".")[0][3:], texts, functions)
    return Edit(name, os.path.basename(folder), texts, function, turned is not None)


def applied(edits, folder):
    """Returns each file that some edits change, with all of their changes. No two of them change the same part."""
    changes = {}
    for edit in edits:
        for path, changed in edit.texts.items():
            changes.setdefault(path, []).append(change_of(text_of(f"{folder}/{path}"), changed))
    texts = {}
    for path, them in changes.items():
        text = text_of(f"{folder}/{path}")
        for it in sorted(them, reverse=True):
            text = text[: it.begin] + it.new + text[it.end :]
        texts[path] = text
    return texts
