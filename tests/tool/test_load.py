"""load: lines, batches, the journal, locks, signals, limits."""
import fcntl
import os
import pty
import resource
import select
import signal
import subprocess
import time
import unittest

import journal
from common import (BAD_INPUT, BOOK, DAMAGED, DONE, ENTRY, EXAMPLE_LINES, IN_USE, INTERRUPTED,
                    SYSTEM, TOOL, Case, days, example, record, run)


# Linux's number; Python has it from 3.10 on.
F_SETPIPE_SZ = 1031

# Fewer cases where each run is slow.
STEP = int(os.environ.get("STEP", "1"))


def limited(size):
    """Called in the child: no file grows past a size."""
    return lambda: resource.setrlimit(resource.RLIMIT_FSIZE, (size, size))


class Lines(Case):
    def test_example(self):
        self.assertEqual(self.load(example()).decode(), EXAMPLE_LINES)
        self.assertIn(b"12 calls", self.done("audit", self.book))
        self.assertEqual(sorted(os.listdir(self.folder)), ["desk.book", "desk.book.journal"])

    def test_files_are_as_written_down(self):
        records = days(700)
        lines = self.load(records, "--batch=100").decode()
        data = self.read(self.journal)
        found = journal.entries(data)
        self.assertEqual([entry.record for entry in found], records)
        self.assertEqual("".join(entry.line() for entry in found), lines)
        self.assertEqual([entry.after for entry in found[:101]],
                         list(range(99, -1, -1)) + [99])
        self.assertEqual(journal.written(found), data)
        journal.check_book(self.read(self.book), data)

    def test_batches_do_not_matter(self):
        records = days(900)
        lines = self.load(records)
        book = self.read(self.book)[:BOOK]
        for batch in (1, 7, 64, 65536):
            self.restart()
            self.assertEqual(self.load(records, "-b", str(batch)), lines)
            self.assertEqual(self.read(self.book)[:BOOK], book)
            self.done("audit", self.book)

    def test_two_loads_are_one(self):
        records = days(900)
        lines = self.load(records)
        whole = self.read(self.book)[:BOOK]
        self.restart()
        first = self.load(records[:333])
        begun = self.read(self.journal)
        self.assertEqual(first + self.load(records[333:]), lines)
        self.assertEqual(self.read(self.book)[:BOOK], whole)
        self.assertTrue(self.read(self.journal).startswith(begun))
        self.done("audit", self.book)

    def test_nothing(self):
        self.assertEqual(self.load([]), b"")
        self.assertEqual(self.read(self.journal), journal.HEADER)
        journal.check_book(self.read(self.book), journal.HEADER)
        self.done("audit", self.book)
        self.assertEqual(self.load(example()).decode(), EXAMPLE_LINES)

    def test_refused_calls_are_kept(self):
        lines = self.load([record(9), record(0, 4, 1), record(0, 1, 10000), record(12, )])
        self.assertEqual(lines, b"1 9 2 0 0 0\n2 0 7 0 0 0\n3 0 0 0 0 0\n4 12 0 2 0 0\n")
        self.assertEqual([entry.code for entry in journal.entries(self.read(self.journal))],
                         [2, 7, 0, 0])
        self.done("audit", self.book)

    def test_broken_records(self):
        """A cut or unknown record prints code 3 and ends the load, on any book."""
        for before in ([], example()[:6]):
            for broken, kind in ((b"\x0d", 13), (b"\xff", 255), (record(0, 1, 5)[:8], 0),
                                 (record(6, 0, 1, 2, 0, 1000000, 1, 0, 7)[:1], 6)):
                self.restart()
                place = len(before) + 1
                lines = "".join(EXAMPLE_LINES.splitlines(True)[:place - 1])
                lines += "%d %d 3 0 0 0\n" % (place, kind)
                data = b"".join(before) + broken + (b"" if len(broken) > 1 or kind == 6 else
                                                    b"".join(example()))
                self.fails(BAD_INPUT, ["load", self.book], "cut record or an unknown kind, record "
                           "%d" % place, data=data, out=lines.encode())
                found = journal.entries(self.read(self.journal))
                self.assertEqual((found[-1].type, found[-1].record), (journal.BROKEN, broken))
                self.done("audit", self.book)
                # The same again: nothing is added.
                self.fails(BAD_INPUT, ["load", "--after=0", self.book], data=data,
                           out=lines.encode())
                self.assertEqual(len(journal.entries(self.read(self.journal))), place)
                self.assertEqual(self.load([record(10)]), b"%d 10 %d 0 0 0\n"
                                 % (place + 1, 0 if before else 2))

    def test_from_a_file_and_through_a_link(self):
        path = self.write("day.rec", b"".join(example()))
        os.mkdir(self.path("kept"))
        os.symlink("kept/desk.book", self.path("link"))
        self.done("load", self.path("kept/desk.book"), "/dev/null")
        self.assertEqual(self.done("load", self.path("link"), path).decode(), EXAMPLE_LINES)
        self.assertTrue(os.path.islink(self.path("link")))
        self.assertEqual(sorted(os.listdir(self.path("kept"))), ["desk.book", "desk.book.journal"])
        self.done("audit", self.path("link"))

    def test_rights_are_kept(self):
        self.load(example()[:3])
        os.chmod(self.book, 0o600)
        self.load(example()[3:])
        self.assertEqual(os.stat(self.book).st_mode & 0o777, 0o600)

    def test_answers_come_before_the_next_record(self):
        """A batch does not wait for records that are not there."""
        child = subprocess.Popen([TOOL, "load", self.book], stdin=subprocess.PIPE,
                                 stdout=subprocess.PIPE)
        for data, line in zip(example(), EXAMPLE_LINES.splitlines(True)):
            child.stdin.write(data[:1])
            child.stdin.flush()
            child.stdin.write(data[1:])
            child.stdin.flush()
            self.assertEqual(child.stdout.readline().decode(), line)
            # What was printed is in the journal.
            kept = journal.whole_entries(self.read(self.journal))
            self.assertEqual(kept[-1].line(), line)
        child.stdin.close()
        self.assertEqual(child.wait(), DONE)
        child.stdout.close()
        self.done("audit", self.book)


class Repeating(Case):
    def test_after(self):
        records = days(400)
        first = self.load(records[:150])
        second = self.load(records[150:])
        data = self.read(self.journal)
        book = self.read(self.book)
        whole = b"".join(records)
        # All again, from any place: the lines are printed, nothing is applied.
        self.assertEqual(self.done("load", "--after=0", self.book, data=whole), first + second)
        self.assertEqual(self.done("load", "--after=150", self.book, data=b"".join(records[150:])),
                         second)
        self.assertEqual(self.done("load", "--after=0", self.book, data=b"".join(records[:150])),
                         first)
        self.assertEqual((self.read(self.journal), self.read(self.book)), (data, book))
        # The rest that is not there yet is applied.
        more = days(500)
        self.assertEqual(more[:60], records[:60])
        self.assertEqual(len(self.done("load", "--after=400", self.book,
                                       data=b"".join(more[400:])).splitlines()), 100)
        self.done("audit", self.book)

    def test_after_wrong_records(self):
        self.load(example())
        data = self.read(self.journal)
        other = example()
        other[3] = record(2, 3, 0, 0, 1)
        lines = "".join(EXAMPLE_LINES.splitlines(True)[:3]).encode()
        self.fails(BAD_INPUT, ["load", "--after=0", self.book], "record 4 of standard input is not",
                   data=b"".join(other), out=lines)
        self.fails(BAD_INPUT, ["load", "--after=13", self.book], "its last place is 12",
                   data=b"".join(other))
        self.assertEqual(self.read(self.journal), data)

    def test_older_book(self):
        """The book is brought up to the journal, but not without the operator's word."""
        records = days(600)
        self.load(records[:200])
        older = self.read(self.book)
        lines = self.load(records[200:])
        newest = self.read(self.book)
        tables = self.done("show", self.book)
        for book in (older, None):
            if book:
                self.write("desk.book", book)
            else:
                os.remove(self.book)
            place = 200 if book else 0
            self.fails(INTERRUPTED, ["load", self.book], "did not end", "--after=%d" % place,
                       "--after=600", data=record(9))
            self.fails(INTERRUPTED, ["audit", self.book], "did not end",
                       out=b"600 calls: every answer is the engine's" +
                       (b", and the book at place 200 is theirs, byte for byte\n" if book else
                        b"\n"))
            self.assertEqual(self.done("show", self.book), tables)
            self.assertEqual(self.done("load", "--after=200", self.book,
                                       data=b"".join(records[200:])), lines)
            self.assertEqual(self.read(self.book), newest)
            self.done("audit", self.book)


class Trouble(Case):
    def test_lock(self):
        self.load(example())
        with open(self.journal, "rb") as file:
            fcntl.flock(file, fcntl.LOCK_EX)
            for command in ("load", "show", "pairs", "audit"):
                self.fails(IN_USE, [command, self.book], "in use", data=b"")
            fcntl.flock(file, fcntl.LOCK_SH)
            self.fails(IN_USE, ["load", self.book], "in use", data=b"")
            self.done("audit", self.book)

    def test_two_loads_at_once(self):
        child = subprocess.Popen([TOOL, "load", self.book], stdin=subprocess.PIPE,
                                 stdout=subprocess.PIPE)
        child.stdin.write(record(0, 1, 10000))
        child.stdin.flush()
        child.stdout.readline()
        self.fails(IN_USE, ["load", self.book], "in use", data=record(9))
        child.communicate(record(9))
        self.assertEqual(len(journal.entries(self.read(self.journal))), 2)

    def test_signals(self):
        records = days(300)
        data = b"".join(records)
        want = self.load(records)
        book = self.read(self.book)
        for number in (signal.SIGINT, signal.SIGTERM, signal.SIGHUP):
            self.restart()
            # A shell lets programs behind '&' ignore SIGINT, and so this test may have been started.
            child = subprocess.Popen([TOOL, "load", self.book], stdin=subprocess.PIPE,
                                     stdout=subprocess.PIPE, stderr=subprocess.PIPE,
                                     preexec_fn=lambda: signal.signal(number, signal.SIG_DFL))
            child.stdin.write(data[:2000])
            child.stdin.flush()
            child.stdout.readline()
            time.sleep(0.05)
            child.send_signal(number)
            _, messages = child.communicate()
            self.assertEqual(child.returncode, 128 + number)
            self.assertIn(b"--after=0", messages)
            self.fails(INTERRUPTED, ["load", self.book], data=data)
            self.assertEqual(self.done("load", "--after=0", self.book, data=data), want)
            self.assertEqual(self.read(self.book)[:BOOK], book[:BOOK])
            self.done("audit", self.book)

    def test_signal_in_a_long_load(self):
        """Input that never has to be awaited: the load ends after the batch."""
        path = self.write("long.rec", b"".join(days(9000)))
        child = subprocess.Popen([TOOL, "load", "-b", "50", self.book, path],
                                 stdout=subprocess.PIPE, stderr=subprocess.PIPE)
        child.stdout.readline()
        child.terminate()
        child.communicate()
        self.assertEqual(child.returncode, 128 + signal.SIGTERM)
        self.assertLess(len(journal.entries(self.read(self.journal))), 9000)
        self.assertEqual(len(self.done("load", "--after=0", self.book, path).splitlines()), 9000)
        self.done("audit", self.book)

    def test_ignored_signal(self):
        """Under nohup a hang-up does not end a load."""
        child = subprocess.Popen([TOOL, "load", self.book], stdin=subprocess.PIPE,
                                 stdout=subprocess.PIPE,
                                 preexec_fn=lambda: signal.signal(signal.SIGHUP, signal.SIG_IGN))
        child.stdin.write(record(0, 1, 10000))
        child.stdin.flush()
        child.stdout.readline()
        child.send_signal(signal.SIGHUP)
        self.assertEqual(child.communicate(record(9))[0], b"2 9 0 0 0 0\n")
        self.assertEqual(child.returncode, DONE)

    def test_output_that_fails(self):
        """Lines that cannot be printed are printed by a repeated load."""
        records = days(500)
        data = b"".join(records)
        want = self.load(records)
        self.restart()
        with open("/dev/full", "wb") as full:
            done = subprocess.run([TOOL, "load", "-b", "100", self.book], input=data, stdout=full,
                                  stderr=subprocess.PIPE)
        self.assertEqual(done.returncode, SYSTEM)
        self.assertIn(b"No space left", done.stderr)
        self.assertIn(b"--after=0", done.stderr)
        self.assertEqual(len(journal.entries(self.read(self.journal))), 100)
        reading, writing = os.pipe()
        os.close(reading)
        done = subprocess.run([TOOL, "load", "--after=0", self.book], input=data, stdout=writing,
                              stderr=subprocess.PIPE)
        os.close(writing)
        self.assertEqual(done.returncode, SYSTEM)
        self.assertIn(b"Broken pipe", done.stderr)
        self.assertEqual(self.done("load", "--after=0", self.book, data=data), want)
        self.done("audit", self.book)

    def check_recovery(self, data, want, book):
        """After a load that failed: what was printed is kept, and the load can be repeated."""
        status, _, _ = run("load", self.book, data=b"")
        self.assertIn(status, (DONE, INTERRUPTED))
        self.assertEqual(self.done("load", "--after=0", self.book, data=data), want)
        self.assertEqual(self.read(self.book)[:BOOK], book)
        self.assertEqual(sorted(os.listdir(self.folder)), ["desk.book", "desk.book.journal"])
        self.done("audit", self.book)

    def test_limit_on_file_size(self):
        """A disk that is full at any point of the load, by a limit on file size."""
        records = days(600)
        data = b"".join(records)
        want = self.load(records)
        book = self.read(self.book)[:BOOK]
        sizes = (0, 1, 127, 128, 129, 255, 256, 5000, 128 * 101 - 1, 128 * 101, 128 * 101 + 1,
                 30000, 49152, 49279, 49280, 60000, 128 * 601 - 1)
        for size in sizes[::1 if STEP < 10 else 4]:
            self.restart()
            done = subprocess.run([TOOL, "load", "-b", "100", self.book], input=data,
                                  capture_output=True, preexec_fn=limited(size))
            self.assertEqual(done.returncode, SYSTEM, size)
            self.assertIn(b"File too large", done.stderr)
            self.assertTrue(want.startswith(done.stdout))
            # What was written of the batch that failed is taken back at once.
            kept = journal.entries(self.read(self.journal)) if size >= ENTRY else []
            self.assertEqual("".join(entry.line() for entry in kept).encode(), done.stdout)
            self.check_recovery(data, want, book)

    def test_full_disk(self):
        """The same on a small file system in memory, where one can be mounted."""
        if os.geteuid() != 0:
            self.skipTest("needs root to mount")
        disk = self.path("disk")
        os.mkdir(disk)
        if subprocess.run(["mount", "-t", "tmpfs", "-o", "size=160k", "tmpfs", disk],
                          capture_output=True).returncode:
            self.skipTest("no tmpfs can be mounted here")
        try:
            self.fill_disk(disk)
        finally:
            subprocess.run(["umount", disk])

    def fill_disk(self, disk):
        records = days(900)
        data = b"".join(records)
        want = self.load(records)
        book = os.path.join(disk, "desk.book")
        status, out, messages = run("load", "-b", "50", book, data=data)
        self.assertEqual(status, SYSTEM)
        self.assertIn("No space left", messages)
        self.assertTrue(want.startswith(out))
        self.assertNotIn("desk.book.new", os.listdir(disk))
        self.assertEqual(run("load", "--after=0", book, data=data)[0], SYSTEM)
        self.assertEqual(run("audit", book)[0], INTERRUPTED)
        self.assertEqual(subprocess.run(["mount", "-o", "remount,size=4m", disk]).returncode, 0)
        self.assertEqual(self.done("load", "--after=0", book, data=data), want)
        self.assertEqual(self.read(book)[:BOOK], self.read(self.book)[:BOOK])
        self.done("audit", book)

    def test_books_that_are_none(self):
        self.load(example())
        good = self.read(self.book)
        for data, part in ((b"", "fewer"), (good[:-1], "fewer"), (good + b"x", "more"),
                           (good[:BOOK], "fewer")):
            self.write("desk.book", data)
            self.fails(DAMAGED, ["load", self.book], part, data=record(9))
            self.fails(1, ["audit", self.book], part)
        os.remove(self.book)
        os.mkdir(self.book)
        self.fails(SYSTEM, ["load", self.book], "s a directory", data=record(9))
        os.rmdir(self.book)
        self.write("desk.book", good)
        os.rename(self.journal, self.journal + ".away")
        for command in ("load", "show", "pairs"):
            self.fails(DAMAGED, [command, self.book], "has no journal", data=record(9))
        self.fails(1, ["audit", self.book], "has no journal")

    def test_a_beginning_that_was_cut(self):
        """A crash while the journal was made: nothing had been accepted."""
        for data in [journal.HEADER[:n] for n in (0, 1, 59, 127)] + [bytes(50), bytes(128)]:
            self.write("desk.book.journal", data)
            self.assertEqual(self.load(example()).decode(), EXAMPLE_LINES)
            self.done("audit", self.book)
            os.remove(self.book)
        self.write("desk.book.journal", b"something else")
        self.fails(DAMAGED, ["load", self.book], "does not begin as a journal", data=b"")
        self.assertEqual(self.read(self.journal), b"something else")


class Progress(Case):
    def watch(self, words, out):
        """Starts with standard error on a terminal; the other end shows what it gets."""
        master, slave = pty.openpty()
        child = subprocess.Popen([TOOL, *words], stdin=subprocess.PIPE, stdout=out, stderr=slave)
        os.close(slave)
        return child, master

    def seen(self, master):
        shown = b""
        while select.select([master], [], [], 5)[0]:
            try:
                part = os.read(master, 65536)
            except OSError:
                break
            if not part:
                break
            shown += part
        os.close(master)
        return shown

    def test_bar(self):
        """A load that takes long because its lines are not read at first: no machine is too fast."""
        path = self.write("long.rec", b"".join(days(2000)))
        reading, writing = os.pipe()
        fcntl.fcntl(writing, F_SETPIPE_SZ, 4096)
        child, master = self.watch(["load", "-b", "50", self.book, path], writing)
        os.close(writing)
        first = os.read(reading, 1)
        time.sleep(0.4)
        with os.fdopen(reading, "rb") as lines:
            self.assertEqual((first + lines.read()).count(b"\n"), 2000)
        shown = self.seen(master)
        child.communicate()
        self.assertEqual(child.returncode, DONE)
        self.assertRegex(shown, rb"\r\[#+\.+\] +[0-9]+%  [0-9]+ records")
        self.assertIn(b"2000 records after place 0", shown)

    def test_no_bar_on_short_loads(self):
        child, master = self.watch(["load", self.book, "/dev/null"], subprocess.DEVNULL)
        shown = self.seen(master)
        child.communicate()
        self.assertNotIn(b"\r[", shown)

    def test_no_bar_beside_lines(self):
        lines, out = pty.openpty()
        path = self.write("day.rec", b"".join(example()))
        child, master = self.watch(["load", self.book, path], out)
        os.close(out)
        shown = self.seen(master)
        child.communicate()
        os.close(lines)
        self.assertEqual(shown, b"")


if __name__ == "__main__":
    unittest.main()
