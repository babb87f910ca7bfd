#!/usr/bin/env python3
"""Makes a file by hand that has more bytes of records than the keeper of its layout takes: checks/heavy.py LAYOUT KIND FILE

LAYOUT is `areas` or `pages`. KIND is `whole`, where the file breaks no rule but that of its size, or `ungiven`, where its objects have numbers
that weren't given. It prints the line that tells the first rule that the file breaks.
"""
import sys

# Of a class with two texts an object that has one version with the longest texts counts 4,010 bytes.
TEXT = b"class P { text a; text b; }"
OBJECT = 4010
TAKES = {"areas": 16_777_216, "pages": 276_824_064}
PAGE, JOURNAL, PLACES = 4096, 4096, 33_558_528


def number(width, value):
    return value.to_bytes(width, "big")


def record(kind, a, b, value):
    return number(1, kind) + number(8, a) + number(8, b) + number(2, len(value)) + value


def text(count):
    return b"\2" + number(2, count) + b" " * count


def head(given):
    """The counters and the class: the records before the objects."""
    return [record(1, 0, 0, number(8, given) + number(8, 2) + number(8, 1) + bytes(21)),
            record(2, 1, 0, b"\1P" + number(4, 0) + number(4, len(TEXT)) + number(2, 0)),
            record(3, 1, 0, TEXT)]


def thing(id):
    return record(6, id, 0, number(4, 1) + number(4, 1))


def version(id):
    return record(7, id, 1, number(4, 0) + number(2, 2) + text(2048) + text(1908))


def slot(layout, *places):
    """The open first slot: format and layout are one number here."""
    return b"\xA5ODEBASE1" + number(4, layout) + number(4, layout) + number(8, 1) + b"".join(number(8, at) for at in places)


def areas(file, first, count):
    body = first + [thing(n) for n in range(1, count + 1)] + [version(n) for n in range(1, count + 1)]
    length = sum(map(len, body))
    file.write(slot(1, JOURNAL, length, JOURNAL + length, PLACES))
    file.seek(JOURNAL)
    file.writelines(body)
    file.write(b"\0")


def pages(file, first, count):
    file.write(slot(2, PLACES, count + 1, JOURNAL, 16_781_312))
    file.seek(PLACES)
    for records in [first] + [[thing(n), version(n)] for n in range(1, count + 1)]:
        file.write((number(2, len(records)) + b"".join(records)).ljust(PAGE, b"\0"))


def main(layout, kind, name):
    count = TAKES[layout] // OBJECT + 1
    first = head({"whole": count + 1, "ungiven": 1}[kind])
    with open(name, "wb") as file:
        {"areas": areas, "pages": pages}[layout](file, first, count)
    size = sum(len(it) - 2 for it in first) + count * OBJECT
    print({"whole": f"bad file size {size}", "ungiven": "bad file record 6 1 0"}[kind])


if __name__ == "__main__":
    main(*sys.argv[1:])
