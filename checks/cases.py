#!/usr/bin/env python3
"""Runs the cases of ode_cases on real files: checks/cases.py PROGRAM

Each as it stands, and once more with a run for each stretch behind which no transaction is open: the database is opened again between
any two of these. Both ways must print what is expected, and leave the same file. It prints the first that differs; the status is then 1.
Cases of other words, of chunks, or of calls without memory are left out.
"""

import os
import re
import subprocess
import sys
import tempfile

CASES = os.path.join(os.path.dirname(os.path.abspath(__file__)), "..", "crates", "ode_cases")
WORDS = re.compile(r"(init|run|check|dump|query|same|ship|follow) f|gen f [1-9]\d*")
SCRIPTS = ("run f", "query f", "same f")
SKIPPED = re.compile(r'//[^\n]*|"(?:\\[^\n]|[^"\\\n])*"?|[{};]')


def text_of(name):
    with open(os.path.join(CASES, name), encoding="utf-8") as it:
        return it.read()


def script_of(lines):
    """The script in the lines behind a call, as `ode_cases` reads them."""
    lines = lines.strip("\n") if not lines.strip("\n") else lines.rstrip("\n")
    if not lines:
        return ""
    whole = not lines.endswith("\n\\ no newline at the end")
    lines = lines.removesuffix("\n\\ no newline at the end")
    script = re.sub(r"(?:^|\n)\\ (\d+) blanks(?:\n|$)", lambda it: " " * int(it[1]), lines)
    return script + "\n" if whole else script


def cases():
    """The name of each case, its calls with their scripts, and what is expected of each: a text, a status and what else is told."""
    expected = dict(part.split("\n", 1) for part in ("\n" + text_of("stdout")).split("\n== ")[1:])
    for part in text_of("stdin").split("\n== ")[1:]:
        name, _, rest = part.partition("\n")
        notes, *calls = ("\n" + rest).split("\n$")
        answers = ("\n" + expected[name]).split("\n$")[1:]
        steps = [(words.strip(), script_of(lines)) for words, _, lines in (call.partition("\n") for call in calls)]
        told = [re.fullmatch(r"[^\n]*\n(.*?)status (\d+)([^\n]*)\n*", answer, re.S) for answer in answers]
        if "chunks" in notes or not all(WORDS.fullmatch(words) for words, _ in steps) or None in told:
            continue
        if not any("without memory" in it[3] for it in told):
            yield name, [(*step, it[1], int(it[2])) for step, it in zip(steps, told)]


def stretches(script):
    """The parts of a script behind each of which no transaction is open."""
    found, begun, at, depth, is_open = [], 0, 0, 0, False
    for token in SKIPPED.finditer(script):
        if token[0] == "{":
            depth += 1
        elif token[0] == "}":
            depth = max(depth - 1, 0)
        elif token[0] == ";" and depth == 0:
            word = re.sub(r"//[^\n]*", "", script[at:token.start()]).strip()
            is_open = word == "begin" or is_open and word not in ("commit", "abort")
            at = token.end()
            if not is_open:
                found.append(script[begun:at])
                begun = at
    return [*found, script[begun:]]


def call(program, words, script):
    ran = subprocess.run([program, *words.split()], input=script.encode(), capture_output=True, timeout=60)
    if ran.stderr:
        sys.exit(f"{words}: {ran.stderr.decode()}")
    return ran.stdout.decode(), ran.returncode


def in_stretches(program, words, script):
    """The text and the status of a script with a run for each stretch; the lines keep their numbers."""
    text, status, lines = "", 0, 0
    for stretch in stretches(script) if words in SCRIPTS else [script]:
        said, ended = call(program, words, "\n" * lines + stretch)
        text, status, lines = text + said, max(status, ended), lines + stretch.count("\n")
        if ended > 1:
            break
    return text, status


def left(program, steps, way):
    """The file that a case leaves, if all its calls answer as is expected."""
    if os.path.exists("f"):
        os.remove("f")
    for words, script, text, status in steps:
        answer = way(program, words, script)
        if answer != (text, status):
            return f"{words}: expected\n{text}status {status}\n--- and not\n{answer[0]}status {answer[1]}\n"
    return open("f", "rb").read() if os.path.exists("f") else b""


def main(program):
    count = 0
    with tempfile.TemporaryDirectory(dir="/dev/shm" if os.access("/dev/shm", os.W_OK) else None) as folder:
        os.chdir(folder)
        for name, steps in cases():
            whole, cut = left(program, steps, call), left(program, steps, in_stretches)
            for found in (whole, cut):
                if isinstance(found, str):
                    sys.exit(f"== {name}\n{found}")
            if whole != cut:
                sys.exit(f"== {name}\nwith a run for each stretch another file is left")
            count += 1
    print(f"  {count} cases on real files, whole and with a run for each stretch")


main(os.path.abspath(sys.argv[1]))
