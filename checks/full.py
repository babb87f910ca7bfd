#!/usr/bin/env python3
"""A database that is full to its last byte: `full.py fill` prints a script that fills a new one but for what one object takes, `full.py last`
one that goes on behind it, and `full.py text` what that prints."""
import sys

# A database has so many bytes of records. The counters have 62, a class of one letter 46 and its text, an object with one version 48, and
# a text 3 and its own.
MOST, COUNTERS, CLASS, OBJECT, TEXT = 268_435_456, 62, 46, 48, 3
LONGEST = (2048, 1908)

P = "class P { text a; text b; }"


def times(count, call):
    return " ".join([f"{call}(a, b);"] * count)


F = ("class F { void one(text a, text b) { pnew P(a = a, b = b); } "
     f"void ten(text a, text b) {{ {times(10, 'one')} }} "
     f"void hundred(text a, text b) {{ {times(10, 'ten')} }} "
     f"void most(text a, text b) {{ {times(5, 'hundred')} {times(1, 'ten')} }} }}")

ROOM = MOST - COUNTERS - sum(CLASS + len(text) for text in (P, F)) - OBJECT
LONG = OBJECT + 2 * TEXT + sum(LONGEST)
# so many objects with the longest texts have room, and beside them one whose first text has this length, and whose second one is empty
COUNT, LEFT = divmod(ROOM, LONG)
LAST = LEFT - OBJECT - 2 * TEXT


def blanks(count):
    return '"' + " " * count + '"'


def making(first):
    return f"pnew P(a = {blanks(first)});"


def fill():
    print(f"{P};\n{F};\npnew F();")
    left = COUNT
    for method, count in ("most", 510), ("hundred", 100), ("ten", 10), ("one", 1):
        for _ in range(left // count):
            print(f"#1.{method}({blanks(LONGEST[0])}, {blanks(LONGEST[1])});")
        left %= count


def transactions():
    """How many the script to fill has."""
    left, count = COUNT, 3
    for size in 510, 100, 10, 1:
        count, left = count + left // size, left % size
    return count


def last():
    number = COUNT + 3
    print(making(LAST + 1), making(LAST), "pnew P();", "class Q { int n; };", "change class P { int n = 0; };",
          f"show #{number - 2}.a == #2.a;", f"pdelete #{number};", 'pnew P(b = "b");', sep="\n")


def text():
    number, tx = COUNT + 2, transactions() + 1
    print(f"new #{number}", f"tx {tx} aborted space", f"new #{number + 1}", f"tx {tx + 1} committed",
          f"new #{number + 2}", f"tx {tx + 2} aborted space", "class Q", f"tx {tx + 3} aborted space",
          "changed P", f"tx {tx + 4} aborted space", "value true", f"tx {tx + 5} committed", f"tx {tx + 6} committed",
          f"new #{number + 3}", f"tx {tx + 7} committed", sep="\n")


if __name__ == "__main__":
    {"fill": fill, "last": last, "text": text}[sys.argv[1]]()
