"""What the tool's tests share: the binary, a folder for each test, days of records."""
import os
import random
import shutil
import struct
import subprocess
import tempfile
import unittest

ROOT = os.path.dirname(os.path.dirname(os.path.dirname(os.path.abspath(__file__))))
TOOL = os.environ.get("YORDZEPA", os.path.join(ROOT, "build", "yordzepa"))
BOOK = 49152
ENTRY = 128

# Statuses, as docs/TOOL.md has them.
DONE, DIFFERS, USAGE, BAD_INPUT, DAMAGED, SYSTEM, IN_USE, INTERRUPTED = range(8)

# The kinds' fields as struct codes, from document 01's table and not from the tool.
FORMS = {0: "II", 1: "BIIHI", 2: "BBIB", 3: "BQB", 4: "BBI", 5: "BBI", 6: "BBBBQIIQ", 7: "BBBBQIQ",
         8: "BI", 9: "", 10: "", 11: "BBBI", 12: ""}

EXAMPLE = """0: 1, 10000
1: 0, 1000, 1000000, 500, 1
2: 1, 2, 0, 1
2: 2, 0, 0, 1
3: 0, 1, 5
4: 1, 0, 100000
6: 0, 1, 2, 0, 1000000, 1, 0, 7
9
5: 1, 0, 90001
12
1: 0, 1000, 900000, 500, 2
10
"""

EXAMPLE_LINES = """1 0 0 0 0 0
2 1 0 0 0 0
3 2 0 0 0 0
4 2 0 0 0 0
5 3 0 0 0 0
6 4 0 0 0 0
7 6 0 1 2 0
8 9 0 1 0 950000
9 5 10 0 0 0
10 12 0 2 0 0
11 1 0 0 0 0
12 10 0 0 1 9500
"""


def record(kind, *fields):
    """A record's bytes."""
    return struct.pack(">B" + FORMS[kind], kind, *fields)


def fields_of(data):
    """A record's kind and fields."""
    return data[0], struct.unpack(">" + FORMS[data[0]], data[1:])


def example():
    """Document 01's example as records."""
    days = []
    for line in EXAMPLE.splitlines():
        kind, _, rest = line.partition(":")
        days.append(record(int(kind), *[int(part) for part in rest.split(",") if part.strip()]))
    return days


OPEN_DAYS = [1, 2, 3, 6, 7, 8, 9, 10, 13, 14, 15, 16, 17, 20, 21, 22, 23, 24]


def set_up(chance):
    """An opening, securities, participants, baskets, accounts."""
    made = [record(0, 1, 10000)]
    made += [record(1, s, chance.choice([100, 1000]), chance.randint(800000, 1200000),
                    chance.randint(0, 3000), 1) for s in range(8)]
    made += [record(2, p, chance.choice([0, 1, 2, 2]), chance.getrandbits(32), chance.randint(0, 1))
             for p in range(6)]
    made += [record(3, b, chance.randint(1, 255), 20) for b in range(3)]
    made += [record(4, p, s, chance.randint(1, 50) * 1000) for p in range(6) for s in range(8)]
    return made


def some_record(chance, today):
    """One record of a running desk; many are refused, which is as it should be."""
    draw = chance.random()
    giver, taker = chance.randrange(6), chance.randrange(6)
    later = OPEN_DAYS[min(today + chance.randrange(3), len(OPEN_DAYS) - 1)]
    if draw < 0.45:
        return record(6, chance.randint(0, 1), giver, taker, chance.randrange(3),
                      chance.choice([1000000, 2000000]), later, chance.choice([0, 0, 20]),
                      chance.getrandbits(16))
    if draw < 0.6:
        return record(7, chance.randint(0, 1), giver, taker, chance.randrange(8),
                      chance.choice([500000, 1000000]), later, chance.getrandbits(16))
    if draw < 0.75:
        return record(8, chance.randrange(6), chance.randint(1, 400))
    if draw < 0.8:
        return record(chance.choice([4, 5]), giver, chance.randrange(8), chance.randint(1, 9000))
    if draw < 0.84:
        return record(11, giver, chance.randrange(8), chance.randrange(8), 1000)
    if draw < 0.88:
        return record(1, chance.randrange(8), 1000, chance.randint(700000, 1300000), 500, 1)
    if draw < 0.9:
        return record(2, giver, chance.randint(0, 2), chance.getrandbits(32), chance.randint(0, 1))
    return record(chance.choice([9, 9, 10]))


def days(count, seed=1):
    """Days of a desk: so many records."""
    chance = random.Random(seed)
    made = set_up(chance)
    today = 0
    while len(made) < count:
        made.append(some_record(chance, today))
        if len(made) % max(count // 15, 40) == 0 and today < 14:
            made.append(record(12))
            today += 1
    return made[:count]


def run(*words, data=None, env=None, **more):
    """Runs the tool; its status, output and messages."""
    done = subprocess.run([TOOL, *words], input=data, capture_output=True, env=env, **more)
    assert b"Sanitizer" not in done.stderr and b"runtime error" not in done.stderr, done.stderr
    return done.returncode, done.stdout, done.stderr.decode()


class Case(unittest.TestCase):
    """A test with a folder of its own."""

    def setUp(self):
        self.folder = tempfile.mkdtemp(prefix="yordzepa-")
        self.addCleanup(shutil.rmtree, self.folder, ignore_errors=True)
        self.book = self.path("desk.book")
        self.journal = self.book + ".journal"
        self.last = self.book + ".last"

    def restart(self):
        """No book, no journal."""
        for path in (self.book, self.journal, self.last, self.book + ".new"):
            if os.path.exists(path):
                os.remove(path)

    def path(self, name):
        return os.path.join(self.folder, name)

    def write(self, name, data):
        with open(self.path(name), "wb") as file:
            file.write(data)
        return self.path(name)

    def read(self, path):
        with open(path, "rb") as file:
            return file.read()

    def done(self, *words, data=None):
        """Runs the tool, which has to succeed; its output."""
        status, out, messages = run(*words, data=data)
        self.assertEqual((status, messages), (DONE, ""), words)
        return out

    def fails(self, status, words, *parts, data=None, out=b""):
        """Runs the tool, which has to fail so; the messages have these parts."""
        got, printed, messages = run(*words, data=data)
        self.assertEqual(got, status, messages)
        self.assertEqual(printed, out)
        for part in parts:
            self.assertIn(part, messages)
        return messages

    def load(self, records, *choices):
        return self.done("load", *choices, self.book, data=b"".join(records))
