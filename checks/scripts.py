#!/usr/bin/env python3
"""Runs random scripts whole, and in two halves on one file: checks/scripts.py PROGRAM COUNT

Both ways must print the same and leave the same file. The scripts are the same in each call of this check. It prints the first
one that differs; the status is then 1.
"""

import os
import random
import subprocess
import sys
import tempfile

CLASSES = """class Item { int n; text name; ref Item next; constraint small: n < 1000; soft constraint even: n % 2 == 0;
    void add(int k) { n = n + k; } void twice() { add(n); } void link(ref Item to) { next = to; }
    void both(int k) { add(k); next.add(k); } void copy() { let v = newversion this; v.add(2); show v; }
    int sum(int depth) { if (depth <= 0) { return n; } let rest = this.sum(depth - 1); return rest + n; }
    void check(int k) { if (n > k) { say "too many in " + name; tabort; } else { say "fine"; } }
    event after add, before twice, after link, after create, before delete, after tbegin, before tcomplete, after tcommit, after tabort, time every 10,
        after newversion, before delversion;
    trigger perpetual low(int k): after add && n < k ==> { say "low"; show n; }
    trigger third(): choose 3 (after add) ==> { twice(); }
    trigger perpetual whole often(): every 4 (after add or before twice) ==> { say "often"; }
    trigger perpetual deferred pair(): sequence(after add, after add) ==> { show this; }
    trigger perpetual dependent later(int k): after add && k > n ==> { say "later"; add(2); }
    trigger perpetual whole independent kept(ref Item log): prior(before twice, after tabort) ==> { log.add(2); }
    trigger perpetual gap(): fa(after tbegin, after link, after add) and !before delete ==> { say "linked first"; }
    trigger perpetual again(): relplus(choose 2 (after add)) ==> { say "again"; }
    trigger perpetual whole third_add(): pipe(after add, every 3 (any)) ==> { say "third add"; }
    trigger perpetual between(): faabs(after tbegin, after link, choose 2 (after add)) ==> { say "linked between"; }
    trigger perpetual few(int k): (after add or before twice) && n < k ==> { say "few"; show n; }
    trigger once loop(): relative(before twice, after add) ==> { add(-2); }
    trigger perpetual grown(): after newversion && n > 2 ==> { say "grown"; add(-2); }
    trigger whole shrunk(ref Item r): before delversion ==> { delversion r; show version(this); }
    trigger initial perpetual dependent tick(): time every 10 && n < 40 ==> { add(4); }
    trigger perpetual whole tock(): every 2 (time every 10) ==> { say "tock"; check(8); } };
class Rare : Item { int worth; constraint dear: worth >= 0; void add(int k) { n = n + k; worth = worth + 2 * k; } void swap(ref Rare with) { worth = with.worth; }
    event before add, after swap, time every 25;
    trigger perpetual rise(): before add ==> { say "rise"; }
    trigger initial perpetual whole deferred worthy(): every 3 (after add or time every 25) ==> { show worth; } };
class Bag { bool open; ref Item item; ref Bag outer; void set(ref Item i) { item = i; open = !open; } void fill() { let i = pnew Item(n = 4); item = i; }
    void empty() { pdelete item; item = null; } bool full() { return item != null && item.n > 10; } };
"""


class Writer:
    """Statements over the numbers that are likely to be drawn by now."""

    def __init__(self, seed):
        self.random = random.Random(seed)
        self.drawn = 0
        self.items = []
        self.bags = []
        self.now = 0

    def new(self, numbers, statement):
        self.drawn += 1
        numbers.append(self.drawn)
        # an item has a trigger that is on from the start, and a rare one has two
        self.drawn += (numbers is self.items) + ("Rare" in statement)
        return statement

    def reference(self, numbers):
        number = self.random.choice(numbers) if numbers and self.random.random() < 0.95 else self.random.randint(1, self.drawn + 2)
        return f"#{number}" + self.random.choice(["", "", "", "", "@1", "@2"])

    def number(self):
        return self.random.choice(["0", "2", "4", "4", "10", "40", "1 + 1", "-6", "7", "600", "9223372036854775807", "1 / 0"])

    def clock(self):
        self.now = max(self.now + self.random.choice([0, 1, 9, 10, 25, -1]), 0)
        return f'clock "1970-01-01T00:{self.now // 60 % 60:02}:{self.now % 60:02}Z";'

    def change(self):
        """A class gets a field, or two, which it may have."""
        fields = ["int gain = 3;", "int gain = -1;", 'text note = "x";', "bool mark = true;", "ref Item kin = null;", "int worth = 1;", "int mark = 2;"]
        return f"change class {self.random.choice(['Item', 'Item', 'Rare', 'Bag'])} {{ {' '.join(self.random.sample(fields, self.random.choice([1, 1, 2])))} }};"

    def statement(self):
        item, other, bag, n = self.reference(self.items), self.reference(self.items), self.reference(self.bags), self.number()
        if self.random.random() < 0.2 or not self.items:
            return self.new(self.items, self.random.choice([f"pnew Item(n = {2 * self.random.randint(0, 40)});", 'pnew Item(name = "a" + "b");', "pnew Rare(worth = 9, n = 2);"]))
        if self.random.random() < 0.05 or not self.bags:
            return self.new(self.bags, self.random.choice([f"pnew Bag(item = {item});", "pnew Bag();"]))
        if self.random.random() < 0.05:
            return self.new(self.items, f"{bag}.fill();")
        if self.random.random() < 0.12:
            self.drawn += 1
            trigger = self.random.choice(["low(20)", "third()", "often()", "pair()", "later(30)", f"kept({other})", "gap()", "again()", "third_add()", "between()", "few(10)", "loop()", "tock()", "tock()", "grown()", f"shrunk({item})", f"shrunk({other})", "rise()", "rise()", "low(true)", "none()"])
            return f"activate {item}.{trigger};"
        if self.random.random() < 0.1:
            return self.clock()
        if self.random.random() < 0.06:
            return self.change()
        if self.random.random() < 0.04:
            return f"deactivate {item}, {self.random.randint(1, self.drawn + 2)};"
        return self.random.choice([
            f"{item}.add({n});", f"{item}.add({n});", f"{item}.twice();", f"{item}.link({other});", f"{item}.both({n});", f"{item}.copy();",
            f"show {item}.sum(3);", f"{item}.check({n});", f"{item}.swap({other});", f"show {item}.worth;", f"{bag}.set({item});", f"{bag}.empty();", f"show {bag}.full();",
            f"show {item}.n;", f"show {item}.gain;", f"show {item}.mark;", f"show {item}.kin;", f"show {bag}.note;", f"show {item}.next.gain;", f"show {item}.next;", f"show {bag}.item.n;", f"show version({item});", f"newversion {item};", f"newversion {bag};",
            f"delversion {item};", f"pdelete {item};", 'say "x" + "y";', f"show {n};", ";", "begin;", "commit;", "show $;", "say 1 +;",
        ])

    def stretch(self):
        """Statements behind which no transaction is open."""
        if self.random.random() < 0.7:
            one = self.statement()
            return one if one != "begin;" else "begin; abort;"
        inner = [self.statement() for _ in range(self.random.randint(1, 6))]
        return "\n".join(["begin;", *(one for one in inner if one != "begin;"), self.random.choice(["commit;", "commit;", "abort;"])])

    def stretches(self):
        return [self.stretch() for _ in range(self.random.randint(5, 60))]


def run(program, file, script):
    ran = subprocess.run([program, "run", file], input=script.encode(), capture_output=True, timeout=60)
    if ran.returncode not in (0, 1) or ran.stderr:
        sys.exit(f"status {ran.returncode} of\n{script}\n{ran.stderr.decode()}")
    return ran.stdout


def new(program, file):
    if os.path.exists(file):
        os.remove(file)
    subprocess.run([program, "init", file], check=True, stdout=subprocess.DEVNULL)
    return file


def differs(program, folder, seed):
    writer = Writer(seed)
    parts = writer.stretches()
    cut = writer.random.randint(0, len(parts))
    front = CLASSES + "".join(part + "\n" for part in parts[:cut])
    rest = "".join(part + "\n" for part in parts[cut:])
    one, two = new(program, f"{folder}/one.db"), new(program, f"{folder}/two.db")
    whole = run(program, one, front + rest)
    # the lines in front keep the numbers of the lines
    halves = run(program, two, front) + run(program, two, "\n" * front.count("\n") + rest)
    if whole == halves and open(one, "rb").read() == open(two, "rb").read():
        return whole, None
    return whole, f"script {seed}, cut behind {cut} stretches:\n{front}--- cut\n{rest}--- whole\n{whole.decode()}--- halves\n{halves.decode()}"


def main(program, count):
    shared = "/dev/shm" if os.access("/dev/shm", os.W_OK) else None
    settled = refused = aborted = 0
    with tempfile.TemporaryDirectory(dir=shared) as folder:
        for seed in range(count):
            text, difference = differs(program, folder, seed)
            if difference:
                sys.exit(difference)
            lines = text.split(b"\n")
            settled += sum(line.startswith(b"tx ") for line in lines)
            aborted += sum(b" aborted " in line for line in lines if line.startswith(b"tx "))
            refused += sum(line.startswith(b"refused ") for line in lines)
    print(f"  {count} scripts: {settled} transactions, {aborted} of them aborted, and {refused} refusals")


main(os.path.abspath(sys.argv[1]), int(sys.argv[2]))
