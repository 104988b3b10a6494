"""Functions that are taken by their contracts, as their callers take them: their bodies and proofs are left out, so that the prover
reads little of them."""

import contextlib
import os

from edit import functions_of, sources

# A proof with a hole: the prover takes the theorem, that the function meets its contract, by its signature.
PROOF = """use Rattle.{path}.Statement.{{statement}}

pub {name}_spec : {{M : Type 1}} → statement M
{name}_spec = ?
"""
PROOFS = ("Answers.antt", "Invariants.antt", "Proof.antt")


def bodies(texts, crate):
    """Returns the lines of each function in files of a crate, by its path."""
    functions = functions_of(texts, crate)
    return {it.path: texts[path].split("\n")[it.head : it.last + 1] for path in texts for it in functions[path]}


def changed_in(folder, texts):
    """Returns the paths of the functions that stand otherwise in these texts of a crate's files, or only there."""
    crate, was = os.path.basename(folder), sources(folder)
    before, after = bodies(was, crate), bodies({**was, **texts}, crate)
    return {path for path, lines in after.items() if before.get(path) != lines}


def without_bodies(text, functions):
    """Returns a file's text without the bodies of some of its functions."""
    lines = text.split("\n")
    for it in reversed(functions):
        head, indent = lines[it.brace].removesuffix("}"), lines[it.head][: -len(lines[it.head].lstrip()) or None]
        lines[it.brace : it.last + 1] = [head, f"{indent}    loop {{}}", f"{indent}}}"]
    return "\n".join(lines)


def write_hole(room, path):
    """Writes the proof of a function with a hole in it, in place of what the function has of proofs: where it calls itself, they stand in
    a folder whose name has a `+` before it."""
    crate, *names = path.split("::")
    above = "/".join([room, "proofs", *names[:-1]])
    for it in PROOFS:
        for folder in (names[-1], f"+{names[-1]}"):
            with contextlib.suppress(FileNotFoundError):
                os.remove(f"{above}/{folder}/{it}")
    os.makedirs(f"{above}/{names[-1]}", exist_ok=True)
    with open(f"{above}/{names[-1]}/Proof.antt", "w", encoding="utf-8") as file:
        file.write(PROOF.format(path=".".join([crate, "proofs", *names]), name=names[-1]))


def assume_all_but(kept, room, crate):
    """Takes each function in a copy of a crate by its contract, but those that are kept, and those that a constant may call."""
    texts = sources(room)
    for path, functions in functions_of(texts, crate).items():
        taken = [it for it in functions if it.path not in kept and not it.is_const and it.path != f"{crate}::main"]
        for it in taken:
            write_hole(room, it.path)
        with open(f"{room}/{path}", "w", encoding="utf-8") as file:
            file.write(without_bodies(texts[path], taken))
