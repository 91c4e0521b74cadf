"""Damaged books and journals: every changed byte is found, a crash's work is told from damage."""
import os
import random
import unittest

import journal
from common import (BOOK, DAMAGED, DIFFERS, DONE, ENTRY, INTERRUPTED, Case, days, example, record,
                    run)

# Every byte with the plain binary; fewer where each run is slow.
STEP = int(os.environ.get("STEP", "1"))


class Changed(Case):
    """A changed byte anywhere in book or journal is found by audit, at its place."""

    def setUp(self):
        super().setUp()
        self.load(example())
        self.good_book, self.good_journal = self.read(self.book), self.read(self.journal)

    def audit(self):
        return run("audit", self.book)

    def put(self, path, data):
        with open(path, "wb") as file:
            file.write(data)

    def test_journal(self):
        chance = random.Random(2)
        for at in range(0, len(self.good_journal), STEP):
            data = bytearray(self.good_journal)
            data[at] ^= chance.choice([1, 128, chance.randint(1, 255)])
            self.put(self.journal, data)
            status, out, messages = self.audit()
            self.assertEqual((status, out), (DIFFERS, b""), at)
            if at < ENTRY:
                self.assertIn("header is damaged", messages)
            else:
                self.assertIn("place %d:" % (at // ENTRY), messages)

    def test_book(self):
        chance = random.Random(3)
        places = chance.sample(range(BOOK), 600 // STEP) + list(range(BOOK, BOOK + ENTRY, STEP))
        for at in places:
            data = bytearray(self.good_book)
            data[at] ^= chance.choice([1, 128, chance.randint(1, 255)])
            self.put(self.book, data)
            status, out, messages = self.audit()
            self.assertEqual((status, out), (DIFFERS, b""), at)
            if at < BOOK:
                self.assertIn("place 12: byte %d (" % at, messages)
        for at in places[::20]:
            data = bytearray(self.good_book)
            data[at] ^= 1
            self.put(self.book, data)
            for command in ("load", "show", "pairs"):
                self.fails(DAMAGED, [command, self.book], "desk.book", data=record(9))
            self.assertEqual(self.read(self.book), bytes(data))
            self.assertEqual(self.read(self.journal), self.good_journal)

    def test_book_bytes_are_named(self):
        data = bytearray(self.good_book)
        data[10191] ^= 1
        self.put(self.book, data)
        self.assertIn("byte 10191 (settlements, row 0) is 0, the journal's calls make it 1",
                      self.audit()[2])

    def test_cut_journal(self):
        """At every length: the book stands for a place that is not there any more."""
        for length in range(0, len(self.good_journal), STEP):
            self.put(self.journal, self.good_journal[:length])
            status, out, _ = self.audit()
            self.assertEqual((status, out), (DIFFERS, b""), length)
            if length % 16 == 0:
                self.fails(DAMAGED, ["load", self.book], data=record(9))
                self.assertEqual(self.read(self.journal), self.good_journal[:length])

    def test_longer_journal(self):
        """What stands after the book's place is a crash's work or damage."""
        for more, status in ((b"x", INTERRUPTED), (bytes(127), INTERRUPTED), (bytes(500), INTERRUPTED),
                             (b"x" * 128, DIFFERS), (bytes(128) + b"x" * 128, DIFFERS),
                             (self.good_journal[-ENTRY:], DIFFERS)):
            self.put(self.journal, self.good_journal + more)
            self.assertEqual(self.audit()[0], status, more)
            got, _, messages = run("load", self.book, data=b"")
            if status == DIFFERS:
                self.assertEqual(got, DAMAGED)
                self.assertIn("no crash's work", messages)
                self.assertEqual(self.read(self.journal), self.good_journal + more)
            else:
                self.assertEqual(got, DONE)
                self.assertIn("cut off", messages)
                self.assertEqual(self.read(self.journal), self.good_journal)

    def entries(self):
        return [self.good_journal[at:at + ENTRY] for at in range(0, len(self.good_journal), ENTRY)]

    def test_moved_entries(self):
        """Entries that are removed, doubled or change places."""
        for place in range(1, 12):
            parts = self.entries()
            for changed in (parts[:place] + parts[place + 1:],
                            parts[:place] + [parts[place]] + parts[place:],
                            parts[:place] + [parts[place + 1], parts[place]] + parts[place + 2:],
                            parts[:place] + [bytes(ENTRY)] + parts[place + 1:]):
                self.put(self.journal, b"".join(changed))
                status, _, messages = self.audit()
                self.assertEqual(status, DIFFERS)
                self.assertRegex(messages, "place (%d|%d)" % (place, place + 1))

    def test_forged_entries(self):
        """Entries changed with all checksums made anew: the engine's answers show it."""
        def change(name, value, place):
            found = journal.entries(self.good_journal)
            setattr(found[place - 1], name, value)
            return journal.written(found)
        for data, place in ((change("code", 5, 9), 9), (change("m", 950001, 8), 8),
                            (change("a", 3, 7), 7), (change("sum", 77, 4), 4),
                            (change("record", record(4, 1, 0, 100001), 6), 6),
                            (change("record", record(2, 1, 1, 0, 1), 3), 3),
                            (change("padding", b"x", 5), 5),
                            (change("type", 2, 5), 5), (change("before", 2, 5), 5),
                            (change("after", 2, 5), 5), (change("place", 2, 5), 5)):
            self.put(self.journal, data)
            status, _, messages = self.audit()
            self.assertEqual(status, DIFFERS)
            self.assertIn("place %d:" % place, messages)

    def test_forged_book(self):
        """A changed book with a last entry that agrees with it, all checksums made anew."""
        book = bytearray(self.good_book)
        book[22223 + 256] ^= 1
        found = journal.entries(self.good_journal)
        found[-1].sum = journal.book_sum(bytes(book[:BOOK]))
        data = journal.written(found)
        self.put(self.journal, data)
        self.put(self.book, bytes(book[:BOOK]) + data[-ENTRY:])
        self.done("show", self.book)
        status, _, messages = self.audit()
        self.assertEqual(status, DIFFERS)
        self.assertIn("place 12: the engine's answer is the journal's, but the book after it is "
                      "another", messages)

    def test_another_book(self):
        """A book of another journal, or later than this one."""
        other = example()
        other[5] = record(4, 1, 0, 200000)
        os.remove(self.book)
        os.remove(self.journal)
        self.load(other)
        self.put(self.journal, self.good_journal)
        self.fails(DAMAGED, ["load", self.book], "place 12", "another one in the journal",
                   data=record(9))
        self.assertEqual(self.audit()[0], DIFFERS)
        os.remove(self.book)
        os.remove(self.journal)
        self.load(example() + [record(9)])
        self.put(self.journal, self.good_journal)
        self.fails(DAMAGED, ["load", self.book], "place 13", "ends at place 12", data=record(9))

    def test_mended_from_the_journal(self):
        """What the message on a damaged book says, done."""
        self.put(self.book, b"\xff" + self.good_book[1:])
        messages = self.fails(DAMAGED, ["load", self.book], data=record(9))
        self.assertIn("yordzepa load --after=12 %s /dev/null" % self.book, messages)
        os.rename(self.book, self.book + ".away")
        self.done("load", "--after=12", self.book, "/dev/null")
        self.assertEqual(self.read(self.book), self.good_book)


class Random(Case):
    """No bytes in the files or the input bring a command down."""

    def run_all(self):
        for words in (["audit"], ["show"], ["pairs"], ["load"], ["load", "--after=3"]):
            status, _, messages = run(*words, self.book, data=self.chance.randbytes(40))
            self.assertIn(status, range(8), (words, messages))

    def test_random_files(self):
        self.chance = random.Random(8)
        self.load(days(80))
        book, data = self.read(self.book), self.read(self.journal)
        parts = [data[at:at + ENTRY] for at in range(ENTRY, len(data), ENTRY)] + [bytes(ENTRY)]
        for place in range(40 // STEP + 2):
            size = self.chance.randrange(2000)
            mixed = b"".join(self.chance.choice(parts) for _ in range(size % 20))
            for made in (self.chance.randbytes(size), data[:size] + self.chance.randbytes(size),
                         journal.HEADER + mixed, data[:ENTRY * (size % 80)] + mixed):
                self.write("desk.book.journal", made)
                if size % 3 == 0 and os.path.exists(self.book):
                    os.remove(self.book)
                else:
                    self.write("desk.book", self.chance.choice(
                        [book, self.chance.randbytes(len(book)), book[:BOOK] + made[-ENTRY:]]))
                self.run_all()

    def test_random_input(self):
        chance = random.Random(9)
        self.load(days(80))
        for _ in range(40 // STEP + 2):
            status, out, _ = run("load", self.book, data=chance.randbytes(chance.randrange(200)))
            self.assertIn(status, (DONE, 3))
            self.assertEqual(status == 3, out.endswith(b" 3 0 0 0\n"))
        self.done("audit", self.book)


class Crashes(Case):
    """Last batches that a crash cut, before any of their lines was printed."""

    def setUp(self):
        super().setUp()
        self.records = days(230)
        self.first = self.load(self.records[:100])
        self.older = self.read(self.book)
        self.rest = b"".join(self.records[100:])
        self.lines = self.load(self.records[100:], "--batch=40")
        self.newest, self.whole = self.read(self.book), self.read(self.journal)

    def restore(self, data):
        self.write("desk.book", self.older)
        self.write("desk.book.journal", data)

    def check(self, data, kept, torn):
        """The load can be repeated, with so many places kept."""
        self.restore(data)
        self.assertEqual(run("audit", self.book)[0], INTERRUPTED)
        status, out, messages = run("load", "-b", "40", "--after=100", self.book, data=self.rest)
        self.assertEqual((status, out), (DONE, self.lines), messages)
        self.assertEqual("from place %d on" % (kept + 1) in messages, torn, messages)
        self.assertEqual(self.read(self.book)[:BOOK], self.newest[:BOOK])
        self.done("audit", self.book)

    def test_cut_anywhere(self):
        """Batches end at the places 140, 180, 220 and 230."""
        chance = random.Random(4)
        for at in [ENTRY * 181 - 1, ENTRY * 181 + 1, ENTRY * 182, ENTRY * 200 + 64,
                   ENTRY * 220, ENTRY * 221 - 1] + [chance.randrange(ENTRY * 181, ENTRY * 221)
                                                   for _ in range(30 // STEP)]:
            kept = 140 if at < ENTRY * 181 else 180
            self.check(self.whole[:at], kept, at != ENTRY * 181)
        self.check(self.whole[:ENTRY * 181], 180, False)
        self.check(self.whole, 230, False)

    def test_sectors_that_were_not_written(self):
        """A machine's crash may keep any sectors of what was not flushed; the others are zeros."""
        chance = random.Random(5)
        for _ in range(40 // STEP + 1):
            data = bytearray(self.whole[:ENTRY * 221])
            lost = [s for s in range(ENTRY * 184 // 512, ENTRY * 220 // 512)
                    if chance.random() < 0.5] or [60]
            for sector in lost:
                data[sector * 512:sector * 512 + 512] = bytes(512)
            self.check(bytes(data), 180, True)
        self.check(self.whole[:ENTRY * 181] + bytes(4096), 180, True)

    def test_damage_is_no_crash(self):
        """A changed byte, or a gap before a batch that was flushed later, is refused."""
        cases = []
        for place in (101, 139, 140, 181, 200, 220, 221, 230):
            data = bytearray(self.whole)
            data[place * ENTRY + 20] ^= 4
            cases.append((bytes(data), place))
        for place in (101, 140, 181, 220):
            data = bytearray(self.whole)
            data[place * ENTRY:(place + 1) * ENTRY] = bytes(ENTRY)
            cases.append((bytes(data), place))
        data = bytearray(self.whole[:ENTRY * 221])
        data[190 * ENTRY + 20] ^= 4
        data[200 * ENTRY:201 * ENTRY] = bytes(ENTRY)
        cases.append((bytes(data), 190))
        data = bytearray(self.whole[:ENTRY * 221])
        data[190 * ENTRY:191 * ENTRY] = bytes(ENTRY)
        data[200 * ENTRY + 20] ^= 4
        cases.append((bytes(data), 190))
        for data, place in cases:
            self.restore(data)
            for command in ("load", "show", "pairs"):
                self.fails(DAMAGED, [command, self.book], "place %d:" % place, "no crash's work",
                           data=b"")
            self.assertEqual(self.read(self.journal), data)
            self.assertEqual(self.read(self.book), self.older)
            self.fails(DIFFERS, ["audit", self.book], "place %d:" % place)

    def test_answers_that_the_engine_does_not_give(self):
        """A tail with checksums made anew is refused by the replay."""
        found = journal.entries(self.whole)
        found[149].a += 1
        self.restore(journal.written(found))
        for command in ("load", "show", "pairs"):
            self.fails(DAMAGED, [command, self.book], "place 150: the journal has the answer",
                       data=b"")

    def test_what_had_been_flushed(self):
        """BOOK.last tells whole batches that were cut off or made zeros from a crash's work."""
        entry = self.whole[ENTRY * 220:ENTRY * 221]
        cut, blank = self.whole[:ENTRY * 181], self.whole[:ENTRY * 181] + bytes(ENTRY * 40)
        for data in (cut, blank, self.whole[:ENTRY * 101], self.whole[:ENTRY * 200],
                     self.whole[:ENTRY * 181] + bytes(ENTRY * 39)):
            self.restore(data)
            self.write("desk.book.last", entry)
            for command in ("load", "show", "pairs"):
                self.fails(DAMAGED, [command, self.book], "desk.book.journal", data=b"")
            self.fails(DIFFERS, ["audit", self.book], "desk.book.journal")
            self.assertEqual((self.read(self.book), self.read(self.journal), self.read(self.last)),
                             (self.older, data, entry))
        # What an older one tells is less, and nothing wrong.
        for place in (100, 140, 180):
            self.write("desk.book.last", self.whole[ENTRY * place:ENTRY * (place + 1)])
            self.check(cut, 180, False)
            self.assertFalse(os.path.exists(self.last))

    def test_last_that_tells_nothing(self):
        """As a crash of the machine may leave it; the next load makes it anew."""
        entry = self.whole[ENTRY * 220:ENTRY * 221]
        for data in (b"", bytes(ENTRY), entry[:100], entry + b"x", journal.HEADER,
                     entry[:64] + self.whole[ENTRY * 180 + 64:ENTRY * 181]):
            self.write("desk.book.last", data)
            self.check(self.whole[:ENTRY * 181], 180, False)
            self.assertFalse(os.path.exists(self.last))

    def test_changed_last(self):
        """A changed byte of it is found or makes it tell nothing; no call is lost by it."""
        entry = self.whole[ENTRY * 230:]
        self.restore(self.whole)
        for at in range(0, ENTRY, STEP):
            data = bytearray(entry)
            data[at] ^= 1 << at % 8
            self.write("desk.book.last", data)
            status, _, messages = run("show", self.book, "exposures")
            self.assertEqual(status, DONE if at < 96 else DAMAGED, (at, messages))
            self.assertEqual(run("audit", self.book)[0], INTERRUPTED if at < 96 else DIFFERS)
        self.write("desk.book.last", self.whole[ENTRY * 220:ENTRY * 221])
        found = journal.entries(self.whole)
        found[149].record = record(10)
        self.write("desk.book.journal", journal.written(found[:220]))
        self.fails(DAMAGED, ["load", self.book], "place 220", "had been flushed", data=b"")

    def test_reading_changes_nothing(self):
        data = self.whole[:ENTRY * 200 + 5]
        self.restore(data)
        for command in ("show", "pairs"):
            status, out, messages = run(command, self.book)
            self.assertEqual(status, DONE)
            self.assertIn("does not count", messages)
            self.assertTrue(out)
        self.assertEqual((self.read(self.book), self.read(self.journal)), (self.older, data))


if __name__ == "__main__":
    unittest.main()
