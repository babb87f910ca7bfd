#!/usr/bin/env python3
"""Looks whether the documents still say what is there: checks/documents.py

Each name in docs/GLOSSARY.md and docs/MACHINE.md stands in its file, each clause in docs/PROVED.md in its crate (each claim in some crate's specs/Claims) and, where
a line there begins with a function, at one that it names; each crate of crates.txt stands in docs/ARCHITECTURE.md with the crates that
it stands on, and the README has at most 1,000 words. Prints what doesn't; the status is then 1.
"""

import functools
import glob
import os
import re
import sys

TOP = os.path.dirname(os.path.dirname(os.path.abspath(__file__)))
WORDS = 1000
faults = []


@functools.cache
def read(*names):
    return "\n".join(open(name, encoding="utf-8").read() for name in names)


def document(name):
    return read(f"{TOP}/docs/{name}.md").split("\n")


def rows(lines):
    """The rows of tables, each with the number of its line: cells in which bars are written `\\|`."""
    for number, line in enumerate(lines, 1):
        if line.startswith("| `") or line.startswith("| ") and not set(line) <= set("|- "):
            yield number, [cell.strip() for cell in re.split(r"(?<!\\)\|", line)[1:-1]]


def quoted(text):
    return re.findall(r"`([^`]+)`", text)


def spec(crate, name):
    """The file that a cell names: a path, or a name among the definitions of a crate."""
    homes = (f"crates/{it}/specs" for it in (crate, "ode_machine", "ode_timer"))
    for path in (name, f"crates/{name}", f"crates/{crate}/{name}", *(f"{home}/{name}" for home in homes)):
        for end in ("", ".antt"):
            if os.path.isfile(f"{TOP}/{path}{end}"):
                return f"{TOP}/{path}{end}"
    return None


def is_named(name, text):
    return re.search(rf"(?<!\w){re.escape(name)}(?!\w)", text)


def look(document, number, crate, files, names, also=()):
    paths = [spec(crate, file) for file in files]
    for file, path in zip(files, paths):
        if path is None:
            faults.append(f"{document}:{number}: there is no file {file}")
    text = read(*[path for path in paths if path], *also)
    for name in names:
        if not is_named(name, text):
            faults.append(f"{document}:{number}: {name} doesn't stand in {', '.join(files)}")


def glossary():
    lines = document("GLOSSARY")
    first = next(i for i, line in enumerate(lines) if line.startswith("## Definitions"))
    last = next(i for i, line in enumerate(lines) if i > first and line.startswith("## "))
    crate = ""
    for i in range(first, last):
        crate = (re.match(r"\*\*(ode\w*)\*\*", lines[i]) or [crate, crate])[1]
        for _, cells in rows(lines[i : i + 1]):
            if len(cells) == 3 and cells[0] != "File":
                also = glob.glob(f"{TOP}/crates/ode_types/specs/*.antt") if "beside it" in cells[0] else ()
                look("docs/GLOSSARY.md", i + 1, crate, quoted(cells[0]), quoted(cells[2]), also)


def machine():
    for number, cells in rows(document("MACHINE")):
        if cells[0] != "Rule":
            files = quoted(cells[2]) if len(cells) > 2 else ["Limits"]
            look("docs/MACHINE.md", number, "ode_value", files, quoted(cells[1]))


def clauses_in(text):
    """The clauses of each function of some source, by its name."""
    found, at = {}, set()
    for line in text.split("\n"):
        if start := re.match(r"\s*(?:pub(?:\([a-z]+\))? )?(?:const )?fn (\w+)", line):
            at = found.setdefault(start[1], set())
        elif clause := re.match(r"\s*ensures\*? (\w+) \{", line):
            at.add(clause[1])
    return found


def proved():
    crate = ""
    for number, line in enumerate(document("PROVED"), 1):
        if line.startswith("## What is only tested"):
            return
        named = re.match(r"## .*: (ode\w*)$|\*\*(ode\w*)\*\*", line)
        crate = (named[1] or named[2]) if named else crate
        text = read(*glob.glob(f"{TOP}/crates/{crate}/src/**/*.rt", recursive=True)) if crate else ""
        fields = read(*glob.glob(f"{TOP}/crates/*/specs/Claims.antt"))
        functions = clauses_in(text)
        named = [name.split("::")[-1] for name in quoted(re.sub(r"\[[^\]]*`[^\]]*\]", "", line))]
        if not re.match(r"- `", line) or named[0] not in functions:
            named = functions
        own = set().union(*(functions.get(name, ()) for name in named), re.findall(r"pub (\w+) :", fields))
        for clauses in re.findall(r"\[([^\]]*`[^\]]*)\]", line):
            for name in quoted(clauses):
                if name not in own:
                    faults.append(f"docs/PROVED.md:{number}: {crate} has no clause {name} there")


def crates():
    stands = {cells[0]: set(re.findall(r"\w+", cells[1])) for _, cells in rows(document("ARCHITECTURE")) if len(cells) == 3}
    for line in read(f"{TOP}/crates.txt").split("\n"):
        name, _, below = line.partition("#")[0].partition(":")
        name = name.split(" ")[0]
        if name and name not in stands:
            faults.append(f"docs/ARCHITECTURE.md: {name} isn't there")
        elif name and stands[name] - {"and", "the", "kit", "s"} != {it.removeprefix("ode_") for it in below.split()}:
            faults.append(f"docs/ARCHITECTURE.md: {name} stands on other crates")


def readme():
    count = len(read(f"{TOP}/README.md").split())
    if count > WORDS:
        faults.append(f"README.md: {count} words")


for part in (glossary, machine, proved, crates, readme):
    part()
print("\n".join(faults + [f"{len(faults)} faults"]))
sys.exit(1 if faults else 0)
