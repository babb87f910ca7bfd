#!/usr/bin/env python3
"""Goes on with files that an earlier program stored: checks/stored.py PROGRAM

That program gave each table a state for each of its event's trees, where tables are the least ones today. A case of checks/stored.txt has
the bytes of a file, by lines with the place of the first, and zeros where there is no line; its tables as a dump shows them, before and
behind a run; perhaps queries and comparisons with what they print, which leave the file as it is; the script of the run; and what that
prints, which is what it prints on a file of today. Prints what differs; the status is then 1.
"""

import re
import subprocess
import sys
import tempfile
from pathlib import Path

CASES = Path(__file__).resolve().parent / "stored.txt"


def cases():
    """Each case's name and parts."""
    for case in CASES.read_text().split("== ")[1:]:
        name, _, rest = case.rstrip("\n").partition("\n")
        parts = re.split(r"^\$ (.*)\n", rest + "\n", flags=re.M)
        yield name, dict(zip((word.split(" ")[0] for word in parts[1::2]), parts[2::2])), parts[1]


def image(length, lines):
    """The bytes of a file."""
    made = bytearray(length)
    for line in lines.splitlines():
        at, row = line.split()
        row = bytes.fromhex(row)
        made[int(at) : int(at) + len(row)] = row
    return made


def main():
    program, faults, count = Path(sys.argv[1]).resolve(), 0, 0

    def is_so(name, words, script, expected, lines=""):
        ran = subprocess.run([program, *words], input=script.encode(), capture_output=True, timeout=60)
        text = "".join(line for line in ran.stdout.decode().splitlines(True) if line.startswith(lines))
        if (text, ran.stderr, ran.returncode) == (expected, b"", 0):
            return 0
        print(f"{name}: {words[0]} ended with {ran.returncode} and printed\n{text}in place of\n{expected}", end="")
        return 1

    with tempfile.TemporaryDirectory() as folder:
        for name, parts, words in cases():
            file = Path(folder) / f"{count}.db"
            file.write_bytes(image(int(words.split(" ")[1]), parts["file"]))
            faults += is_so(name, ["dump", file], "", parts["tables"], "table ")
            for mode, said in (("query", "rows"), ("same", "verdicts")):
                faults += is_so(name, [mode, file], parts[mode], parts[said]) if mode in parts else 0
            if file.read_bytes() != image(int(words.split(" ")[1]), parts["file"]):
                print(f"{name}: questions changed the file")
                faults += 1
            faults += is_so(name, ["run", file], parts["run"], parts["text"])
            faults += is_so(name, ["dump", file], "", parts["tables"], "table ")
            count += 1
    print(f"{count} files of an earlier program, {faults} faults")
    return 1 if faults else 0


if __name__ == "__main__":
    sys.exit(main())
