#!/usr/bin/env python3
"""Writes what the first example calls, `init` and `run`, as one crate: checks/joined.py FOLDER

`rt try` is done with one crate in two thirds of the time that it takes for a hundred, and with the functions of two modes sooner than with
those of nine. Each crate that they reach becomes a module of the same name. A try proves nothing, so what guides the proofs is left out.
"""

import re
import sys
from pathlib import Path

TOP = Path(__file__).resolve().parent.parent
PROGRAM = "ode"
# The module of the program's top that has `init` and `run`.
MODES = ("ode_top", "running")
# Of these crates of the kit the program takes what stands in a part, which a try reads in less time than the whole.
PARTS = {"jiff": "jiff_core"}
# Lines that guide the proofs, and what a file says of itself, which has no place in a module.
GUIDES = re.compile(r"^(?:#!\[.*\]|//!.*| *#\[tactic\(.*\)\])\n", re.M)
# A name that a path begins with.
HEAD = re.compile(r"(?<![\w.:$])(\w+)(?=::)")


def needs():
    """What each crate stands on."""
    lines = (TOP / "crates.txt").read_text().splitlines()
    return {name.strip(): row.split() for name, _, row in (line.partition(":") for line in lines)}


def texts_of(name):
    """The texts of a crate's files that are wanted, by the files' names."""
    folder = TOP / "crates" / name / "src"
    files = [folder / f"{MODES[1]}.rt"] if name == MODES[0] else sorted(folder.glob("*.rt"))
    return {file.name: GUIDES.sub("", file.read_text()) for file in files}


def reached(rows):
    """The texts of the crates whose code the modes reach, and the crates of the kit that these name."""
    found, kit, left = {}, set(), [MODES[0]]
    while left:
        name = left.pop()
        if name not in rows:
            kit.add(PARTS.get(name, name))
        elif name not in found:
            found[name] = texts_of(name)
            named = {head for text in found[name].values() for head in HEAD.findall(text)}
            left += [other for other in rows[name] if other in named]
    return found, kit


def joined(text, names, own):
    """A file's text as it stands in a module of the crate's name."""

    def path(found):
        head = PARTS.get(found[1], found[1])
        return f"crate::{head}" if head in names else f"crate::{own}" if head == "crate" and own else head

    return HEAD.sub(path, text)


def main():
    found, kit = reached(needs())
    target = Path(sys.argv[1])
    source = target / "crates" / PROGRAM / "src"
    source.mkdir(parents=True)
    for name, texts in found.items():
        (source / name).mkdir()
        for file, text in texts.items():
            place = source / f"{name}.rt" if file == "lib.rt" else source / name / file
            place.write_text(joined(text, found, name))
    (source / f"{MODES[0]}.rt").write_text(f"pub mod {MODES[1]};\n")
    modules = "".join(f"mod {name};\n" for name in sorted(found))
    (source / "main.rt").write_text(modules + joined(GUIDES.sub("", (TOP / "checks" / "first.main").read_text()), found, ""))
    (target / "crates.txt").write_text(f"{PROGRAM}: {' '.join(sorted(kit))}\n")


main()
