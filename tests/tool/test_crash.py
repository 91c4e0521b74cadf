"""Crashes of a load: at every call that changes a file, and by kills at random moments."""
import errno
import os
import random
import shutil
import signal
import subprocess
import tempfile
import time
import unittest

import bench
import journal
from common import (BOOK, DAMAGED, DIFFERS, DONE, ENTRY, INTERRUPTED, SYSTEM, TOOL, Case, days,
                    run)

KILLS = int(os.environ.get("KILLS", "200"))


class Crash(Case):
    """Records, what a load without crashes makes of them, and the checks after a crash."""

    count = 300
    batch = "60"

    def setUp(self):
        super().setUp()
        self.data = b"".join(days(self.count, 11))
        self.input = self.write("day.rec", self.data)
        self.want = self.done("load", "-b", self.batch, self.book, self.input)
        self.want_book = self.read(self.book)
        self.want_journal = self.read(self.journal)
        self.restart()

    def check_files(self, printed, machine=False):
        """What was printed is in the journal, and the book is one of the journal's. If the machine
        did not crash, BOOK.last has it too."""
        whole = printed[:printed.rfind(b"\n") + 1]
        self.assertTrue(self.want.startswith(printed))
        kept = b""
        if os.path.exists(self.journal):
            found = journal.whole_entries(self.read(self.journal))
            kept = "".join(entry.line() for entry in found).encode()
        self.assertTrue(self.want.startswith(kept))
        self.assertTrue(kept.startswith(whole), "lines were printed that the journal has not")
        place = 0
        if os.path.exists(self.book):
            journal.check_book(self.read(self.book), self.read(self.journal))
            place = int.from_bytes(self.read(self.book)[BOOK:BOOK + 8], "big")
        if os.path.exists(self.last):
            place = max(place, journal.flushed_place(self.read(self.last), self.read(self.journal)))
        if not machine:
            self.assertGreaterEqual(place, whole.count(b"\n"), "lines were printed that no file names")
        return kept.count(b"\n")

    def check_cuts(self, places):
        """Whole batches cut off or made zeros after a kill are found, and nothing is changed."""
        data, book = self.read(self.journal), os.path.exists(self.book) and self.read(self.book)
        for place in places:
            cut = data[:(place + 1) * ENTRY]
            for changed in (cut, cut + bytes(len(data) - len(cut))):
                self.write("desk.book.journal", changed)
                for command in ("load", "show", "pairs"):
                    self.assertEqual(run(command, self.book, data=b"")[0], DAMAGED, place)
                self.assertEqual(run("audit", self.book)[0], DIFFERS, place)
                self.assertEqual(self.read(self.journal), changed)
        os.remove(self.journal)
        for command in ("load", "show", "pairs"):
            self.assertEqual(run(command, self.book, data=b"")[0], DAMAGED)
        self.assertFalse(os.path.exists(self.journal))
        self.write("desk.book.journal", data)
        self.assertEqual(os.path.exists(self.book) and self.read(self.book), book)

    def check_repeated(self):
        """The load is repeated, and all is as without a crash."""
        status, out, messages = run("load", "-b", self.batch, "--after=0", self.book, self.input)
        self.assertEqual((status, out), (DONE, self.want), messages)
        self.check_end()

    def check_end(self):
        self.assertEqual(self.read(self.book)[:BOOK], self.want_book[:BOOK])
        self.done("audit", self.book)
        self.assertFalse(os.path.exists(self.book + ".new") or os.path.exists(self.last))


class EveryCall(Crash):
    @classmethod
    def setUpClass(cls):
        cls.work = tempfile.mkdtemp(prefix="yordzepa-")
        cls.shim = bench.crash_library(cls.work)

    @classmethod
    def tearDownClass(cls):
        shutil.rmtree(cls.work)

    def crashed(self, at, how, *more, **env):
        return subprocess.run([TOOL, "load", "-b", self.batch, *more, self.book, self.input],
                              capture_output=True,
                              env=dict(os.environ, LD_PRELOAD=self.shim, CRASH_AT=str(at),
                                       CRASH_HOW=str(how), **env))

    def calls(self):
        """How many calls change a file in a load of 5 batches: the journal is made, BOOK.last
        begins, each batch is written, flushed once and noted, the book is replaced, BOOK.last goes."""
        log = self.path("log")
        self.assertEqual(self.crashed(0, "", CRASH_LOG=log).returncode, DONE)
        letters = self.read(log).decode()
        self.assertEqual(letters, "twff" + "tp" + 5 * "wdp" + "wfrf" + "u")
        os.remove(log)
        self.restart()
        return len(letters)

    def test_killed(self):
        count = self.calls()
        for how in ("before", "after", "half", "lose"):
            for at in range(1, count + 1):
                done = self.crashed(at, how)
                self.assertEqual(done.returncode, -signal.SIGKILL, (at, how))
                # No kill leaves half of BOOK.last: that stands for the machine's crash too.
                self.check_files(done.stdout, how in ("half", "lose"))
                # A crash while the crash is mended.
                again = self.crashed(at % 7 + 1, how, "--after=0")
                self.assertIn(again.returncode, (DONE, -signal.SIGKILL))
                self.check_files(again.stdout, how in ("half", "lose"))
                self.check_repeated()
                self.restart()

    def test_flushed_before_it_is_repeated(self):
        """Killed after a batch was written and before it was flushed: the next load flushes it before
        its lines are printed or the book is written."""
        first = self.calls() - len("wdp" + "wfrf" + "u") + 1
        self.assertEqual(self.crashed(first, "after").returncode, -signal.SIGKILL)
        self.assertEqual(self.check_files(b""), self.count)
        log = self.path("log")
        done = self.crashed(0, "", "--after=0", CRASH_LOG=log)
        self.assertEqual((done.returncode, done.stdout), (DONE, self.want))
        self.assertEqual(self.read(log).decode(), "fd" + "tp" + "wfrf" + "u")
        os.remove(log)
        # Nothing is printed if it cannot be flushed.
        self.restart()
        self.crashed(first, "after")
        for at in (1, 2):
            done = self.crashed(at, errno.EIO, "--after=0")
            self.assertEqual((done.returncode, done.stdout), (SYSTEM, b""))
        self.check_repeated()

    def test_failed(self):
        """The same calls fail: a message, a status, and the load can be repeated."""
        for number in (errno.ENOSPC, errno.EIO):
            for at in range(1, self.calls() + 1):
                done = self.crashed(at, number)
                self.assertEqual(done.returncode, SYSTEM, (at, done.stderr))
                self.assertIn(os.strerror(number).encode(), done.stderr)
                self.check_files(done.stdout)
                self.check_repeated()
                self.restart()


class Kills(Crash):
    count = 2000
    batch = "25"

    def start(self):
        with open(self.path("lines"), "wb") as out:
            return subprocess.Popen([TOOL, "load", "-b", self.batch, "--after=0", self.book,
                                     self.input], stdout=out, stderr=subprocess.DEVNULL)

    def cut_somewhere(self, chance):
        """If a batch was flushed, and noted, after the book's place."""
        size = int(self.batch)
        if os.path.exists(self.last):
            place = journal.flushed_place(self.read(self.last), self.read(self.journal))
            if place >= size:
                self.check_cuts({0, place - size, chance.randrange(place // size) * size})
                self.cuts += 1

    def test_random_kills(self):
        """Killed at random moments, repeated and killed again, until all kills are done."""
        chance = random.Random(12)
        begun = time.monotonic()
        self.assertEqual(self.start().wait(), DONE)
        whole = time.monotonic() - begun
        self.restart()
        kills = ended = self.cuts = 0
        places = set()
        while kills < KILLS:
            begun = time.monotonic()
            child = self.start()
            time.sleep(chance.uniform(0, whole * chance.choice([0.4, 0.8, 1.0])))
            child.kill()
            status = child.wait()
            places.add(self.check_files(self.read(self.path("lines"))))
            if status == DONE:
                ended += 1
                # The machine has become quieter.
                whole = min(whole, time.monotonic() - begun)
                self.assertEqual(self.read(self.path("lines")), self.want)
                self.check_end()
                self.restart()
                continue
            self.assertEqual(status, -signal.SIGKILL)
            kills += 1
            if kills % 20 == 0:
                self.assertIn(run("audit", self.book)[0], (DONE, INTERRUPTED, SYSTEM))
                self.cut_somewhere(chance)
            # Most loads are taken up where they were killed, some from the start.
            if chance.random() < 0.2:
                self.check_repeated()
                self.restart()
        self.check_repeated()
        print("\n%d kills, with %d different places reached, and %d loads that ended before the kill"
              % (kills, len(places), ended), end=" ")
        self.assertGreater(len(places), 10)
        self.assertGreater(self.cuts, 0)


if __name__ == "__main__":
    unittest.main()
