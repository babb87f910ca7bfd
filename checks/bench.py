#!/usr/bin/env python3
"""Counts transactions a second: checks/bench.py PROGRAM FOLDER

2,000 method calls, each a transaction, on a real file in the folder; beside them the bare protocol, which does nothing but what each
transaction has to: append a frame, sync, write one byte, sync; and SQLite, where Python has it, in WAL mode with full sync. They take
turns, and the middle one of five rounds counts. Then the same calls with two triggers on, one of which fires at every third call; and
with one that queues a firing at each call, which is one more transaction a call.

Then what 100,000 objects cost: the opening of their file, with the frames of 2,000 shows behind them, by turns with SQLite's quick check
of the same objects and versions, of which the shortest times count, its memory, and a method call on one of them by turns with one of
100. These files are in memory where they can be, so that syncs don't hide the rest.
"""

import os
import shutil
import statistics
import subprocess
import sys
import tempfile
import time

CALLS = 2000
ROUNDS = 5
OPENINGS = 15
OBJECTS = 100_000
SHOWS = 2000
MEMORY = "/dev/shm" if os.access("/dev/shm", os.W_OK) else None
CLASS = "class Counter { int n; void add(int k) { n = n + k; } };\npnew Counter();\n"
SCRIPT = "#1.add(1);\n" * CALLS

# Calls with triggers: the class, what begins their watch, and how many transactions a call comes to.
WATCHED = {
    "two triggers": (
        "class Counter { int n; void add(int k) { n = n + k; } event after add; trigger perpetual third(): every 3 (after add) ==> { }"
        " trigger never(): after add && n < 0 ==> { } };\npnew Counter();\nactivate #1.third();\nactivate #1.never();\n",
        1,
    ),
    "a queued firing": (
        "class Counter { int n; void add(int k) { n = n + k; } event after add; trigger perpetual dependent each(): after add ==> { } };\n"
        "pnew Counter();\nactivate #1.each();\n",
        2,
    ),
}

program, folder = os.path.abspath(sys.argv[1]), sys.argv[2]
os.makedirs(folder, exist_ok=True)
os.chdir(folder)


def ode(*words, script=""):
    ran = subprocess.run([program, *words], input=script.encode(), capture_output=True)
    if ran.returncode != 0:
        sys.exit(f"{words}: status {ran.returncode}")
    return ran.stdout.decode()


def new_file(declared=CLASS):
    if os.path.exists("bench.db"):
        os.remove("bench.db")
    ode("init", "bench.db")
    ode("run", "bench.db", script=declared)


def timed(file, script, text=os.devnull):
    """How long a run takes, which reads a file and prints to one, and the most memory that it has, in KiB."""
    with open("script.ode", "w") as to:
        to.write(script)
    with open("script.ode") as source, open(text, "w") as to:
        began = time.perf_counter()
        ran = subprocess.Popen([program, "run", file], stdin=source, stdout=to)
        _, status, used = os.wait4(ran.pid, 0)
        taken = time.perf_counter() - began
    if status != 0:
        sys.exit(f"run {file}: status {status}")
    return taken, used.ru_maxrss


def calls(declared=CLASS, each=1):
    """The program, with its start and the opening of the file, for so many transactions a call. Its text is kept in memory where it can be,
    so that no sync waits for it."""
    new_file(declared)
    with tempfile.NamedTemporaryFile("r", dir=MEMORY) as text:
        taken, _ = timed("bench.db", SCRIPT, text.name)
        if text.read().count("committed") != CALLS * each:
            sys.exit("a call was not committed")
    return taken / each


def frame_length():
    new_file()
    before = os.path.getsize("bench.db")
    ode("run", "bench.db", script=SCRIPT)
    return (os.path.getsize("bench.db") - before) // CALLS


def bare(length):
    shutil.copyfile("bench.db", "bare.bin")
    at = os.path.getsize("bare.bin")
    frame = bytes(length)
    file = os.open("bare.bin", os.O_RDWR)
    began = time.perf_counter()
    for _ in range(CALLS):
        os.pwrite(file, frame, at)
        os.fdatasync(file)
        os.pwrite(file, b"\xA5", at - 1)
        os.fdatasync(file)
        at += length
    taken = time.perf_counter() - began
    os.close(file)
    return taken


def sqlite(module):
    for name in ("bench.sqlite", "bench.sqlite-wal", "bench.sqlite-shm"):
        if os.path.exists(name):
            os.remove(name)
    base = module.connect("bench.sqlite", isolation_level=None)
    base.execute("pragma journal_mode = wal")
    base.execute("pragma synchronous = full")
    base.execute("create table counter (id integer primary key, n integer)")
    base.execute("insert into counter values (1, 0)")
    began = time.perf_counter()
    for _ in range(CALLS):
        base.execute("update counter set n = n + 1 where id = 1")
    taken = time.perf_counter() - began
    base.close()
    return taken


def crowd(folder, count):
    """A file with so many objects, and behind them the frames of some transactions that only show a field."""
    file = f"{folder}/crowd{count}.db"
    ode("init", file)
    making = "".join("begin;" + "pnew Counter();" * min(500, count - at) + "commit;\n" for at in range(0, count, 500))
    timed(file, "class Counter { int n; void add(int k) { n = n + k; } };\n" + making)
    timed(file, "show #1.n;\n" * SHOWS)
    return file


# What the records of an object and of a version have, with the rules of theirs that a table can state.
TABLES = (
    "create table object (id integer primary key, class integer not null, last integer not null, check (last >= 1))",
    "create table version (object integer not null, number integer not null, parent integer not null, n integer not null,"
    " primary key (object, number), check (1 <= number and parent < number)) without rowid",
)


def tables(module, folder, count):
    """A file of SQLite with the same data: so many objects, and a version of each."""
    file = f"{folder}/crowd.sqlite"
    base = module.connect(file)
    for table in TABLES:
        base.execute(table)
    ids = range(1, count + 1)
    base.executemany("insert into object values (?, 1, 1)", ((at,) for at in ids))
    base.executemany("insert into version values (?, 1, 0, 0)", ((at,) for at in ids))
    base.commit()
    base.close()
    return file


def quick_check(module, file):
    began = time.perf_counter()
    base = module.connect(file)
    base.execute("pragma quick_check").fetchall()
    base.close()
    return time.perf_counter() - began


def crowds(module):
    with tempfile.TemporaryDirectory(dir=MEMORY) as folder:
        files = {count: crowd(folder, count) for count in (OBJECTS, 100)}
        other = module and tables(module, folder, OBJECTS)
        openings, checks = [], []
        for _ in range(OPENINGS):
            openings.append(timed(files[OBJECTS], ""))
            if other:
                checks.append(quick_check(module, other))
        opened, memory = min(openings)
        print(f"{OBJECTS:,} objects: opened in {opened:.3f} s, with at most {memory / 1024:.1f} MiB")
        if other:
            print(f"  opening to SQLite's quick check: {opened / min(checks):.2f} (2 is the limit)")
        costs = {count: [] for count in files}
        for _ in range(ROUNDS):
            for count, file in files.items():
                start, _ = timed(file, "")
                called, _ = timed(file, f"#{count // 2}.add(1);\n" * CALLS)
                costs[count].append(called - start)
        many, few = (max(statistics.median(all), 0.000001) for all in costs.values())
        print(f"  a call on one of them to one of 100: {many / few:.2f} (2 is the limit)")


def main():
    try:
        import sqlite3
    except ImportError:
        sqlite3 = None
    length = frame_length()
    ways = {"ode": calls, "the bare protocol": lambda: bare(length)}
    if sqlite3:
        ways["SQLite"] = lambda: sqlite(sqlite3)
    for name, (declared, each) in WATCHED.items():
        ways[f"ode with {name}"] = lambda declared=declared, each=each: calls(declared, each)
    times = {name: [] for name in ways}
    for _ in range(ROUNDS):
        for name, way in ways.items():
            times[name].append(way())
    speed = {name: CALLS / statistics.median(all) for name, all in times.items()}
    print(f"{CALLS} method calls, each a transaction of {length} bytes, in {os.getcwd()}:")
    for name, rate in speed.items():
        print(f"  {name}: {rate:,.0f} transactions a second")
    print(f"  ode to the bare protocol: {speed['ode'] / speed['the bare protocol']:.2f} (0.95 is the aim)")
    for name in WATCHED:
        print(f"  with {name} to the bare protocol: {speed[f'ode with {name}'] / speed['the bare protocol']:.2f} (0.95 is the aim)")
    if sqlite3:
        print(f"  ode to SQLite: {speed['ode'] / speed['SQLite']:.2f}")
        print("SQLite syncs once a transaction and ode twice, so on a slow disk SQLite is ahead.")
    crowds(sqlite3)


main()
