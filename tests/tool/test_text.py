"""encode and decode."""
import datetime
import os
import pty
import random
import struct
import subprocess
import unittest

from common import (BAD_INPUT, DONE, EXAMPLE, SYSTEM, TOOL, USAGE, Case, days, example, record,
                    run)

NAMES = ["opening", "price", "participant", "basket", "deposit", "withdrawal", "fop", "return",
         "cancel", "settle", "mark", "recall", "next-day"]
ANY_32 = 2**32 - 1
NOMINAL = ("nominal", 1, 500000000)
PARTICIPANT, SECURITY, EXPOSURE = ("participant", 0, 31), ("security", 0, 63), ("exposure", 0, 63)
SIDE, GIVER, TAKER = ("side", 0, 1), ("giver", 0, 31), ("taker", 0, 31)
AMOUNT, SETTLEMENT = ("amount", 1, 10**12), ("settlement", 0, ANY_32)
REFERENCE = ("reference", 0, 2**64 - 1)
# Document 01's table: names and ranges.
RANGES = [
    [("day", 0, ANY_32), ("tolerance", 1, 100000000)],
    [SECURITY, ("lot", 1, 1000000), ("price", 1, 3000000), ("haircut", 0, 9999),
     ("quote-day", 0, ANY_32)],
    [("number", 0, 31), ("mode", 0, 2), ("list", 0, ANY_32), ("partial", 0, 1)],
    [("number", 0, 15), ("map", 1, 2**64 - 1), ("greatest-age", 0, 255)],
    [PARTICIPANT, SECURITY, NOMINAL],
    [PARTICIPANT, SECURITY, NOMINAL],
    [SIDE, GIVER, TAKER, ("basket", 0, 15), AMOUNT, SETTLEMENT, ("closing", 0, ANY_32), REFERENCE],
    [SIDE, GIVER, TAKER, EXPOSURE, AMOUNT, SETTLEMENT, REFERENCE],
    [PARTICIPANT, ("request-number", 0, ANY_32)],
    [],
    [],
    [GIVER, EXPOSURE, SECURITY, ("nominal", 1, ANY_32)],
    [],
]


def by_places(kind, values):
    return "%d: %s" % (kind, ", ".join(map(str, values)))


def by_names(kind, values):
    pairs = zip((name for name, _, _ in RANGES[kind]), values)
    return " ".join([NAMES[kind]] + ["%s=%d" % pair for pair in pairs])


class Encode(Case):
    def encoded(self, text):
        return self.done("encode", data=text.encode())

    def test_example(self):
        self.assertEqual(self.encoded(EXAMPLE), b"".join(example()))

    def test_names(self):
        line = ("fop side=giver giver=1 taker=2 basket=0 amount=1000000 settlement=2002-01-02 "
                "closing=0 reference=7")
        same = record(6, 0, 1, 2, 0, 1000000, 1, 0, 7)
        self.assertEqual(self.encoded(line), same)
        self.assertEqual(self.encoded("FOP: 0,1,2,0,1000000,1,0,7"), same)
        self.assertEqual(self.encoded("  fop 0 1\t2 0 1000000 2002-01-02 0 7 . # why\r\n"), same)
        self.assertEqual(self.encoded("6: giver, 1, 2, 0, 1000000, 1, 0, 7."), same)
        self.assertEqual(self.encoded("participant number=3 mode=By-Hand list=0x80000001 partial=yes"),
                         record(2, 3, 2, 0x80000001, 1))
        self.assertEqual(self.encoded("basket map=0xFFFFFFFFFFFFFFFF, number=1, greatest-age=5"),
                         record(3, 1, 2**64 - 1, 5))

    def test_nothing(self):
        self.assertEqual(self.encoded(""), b"")
        self.assertEqual(self.encoded("\n# only a comment\n   \n\r\n"), b"")
        self.assertEqual(self.encoded("next-day"), record(12))
        self.assertEqual(self.encoded("\ufeff12  # f\u00fcr"), record(12))

    def test_ranges(self):
        """The ends of every range are taken and what lies past them is named."""
        for kind, ranges in enumerate(RANGES):
            least = [low for _, low, _ in ranges]
            for place, (name, low, high) in enumerate(ranges):
                good, bad = [], []
                for value in (low, high):
                    good.append(least[:place] + [value] + least[place + 1:])
                for value in (low - 1, high + 1):
                    if 0 <= value < 2**64:
                        bad.append(least[:place] + [value] + least[place + 1:])
                for form in (by_places, by_names):
                    text = "\n".join(form(kind, values) for values in good)
                    self.assertEqual(self.encoded(text), b"".join(record(kind, *v) for v in good))
                    for values in bad:
                        self.fails(BAD_INPUT, ["encode"], "line 2, field %s:" % name, "out of range",
                                   data=("# first\n" + form(kind, values)).encode())

    def test_dates(self):
        first = datetime.date(2002, 1, 1)
        dates = [first + datetime.timedelta(day) for day in range(146097)]
        text = "".join("opening day=%s tolerance=1\n" % date for date in dates)
        want = b"".join(record(0, day, 1) for day in range(146097))
        self.assertEqual(self.encoded(text), want)
        self.assertEqual(self.done("decode", "-n", data=want).decode(), text)
        for wrong in ("2001-12-31", "2402-01-01", "2026-02-29", "2026-13-01", "2026-00-10",
                      "2026-04-31", "2100-02-29"):
            self.fails(BAD_INPUT, ["encode"], "line 1, field day: there is no day " + wrong,
                       data=("0: %s, 1" % wrong).encode())

    def test_wrong_lines(self):
        for line, field, part in (
                ("13", "kind", "'13' is no kind"),
                ("fopp 1", "kind", "'fopp' is no kind"),
                (": 1, 2", "kind", "'' is no kind"),
                ("-1: 2", "kind", "'-1' is no kind"),
                ("99999999999999999999: 2", "kind", "is no kind"),
                ("0: 1", "tolerance", "missing"),
                ("0: 1, 2, 3", "3", "one value too many"),
                ("9: 1", "1", "a settle has no fields"),
                ("0: 1,, 2", "tolerance", "comma"),
                ("0: , 1, 2", "day", "comma"),
                ("0: 1, 2,", "kind", "comma"),
                ("0: -1, 2", "day", "'-1' is not a whole number"),
                ("0: 1.5, 2", "day", "'1.5' is not"),
                ("0: 1, 0x10", "tolerance", "'0x10' is not"),
                ("0: 18446744073709551616, 2", "day", "is not a whole number of at most 64 bits"),
                ("opening day=1 day=2", "day", "twice"),
                ("opening dayy=1", "dayy", "no such field; it has day, tolerance"),
                ("opening day=1 2", "2", "not both"),
                ("opening 1 tolerance=2", "tolerance=2", "not both"),
                ("opening day= tolerance=2", "day", "'' is not"),
                ("fop side=left", "side", "giver, taker"),
                ("participant 1 sometimes 0 0", "mode", "automatic, list, by-hand"),
                ("participant 1 0 0 perhaps", "partial", "no, yes"),
                ("basket 1 0xg 0", "map", "base sixteen"),
                ("opening 2026-1-1 5", "day", "a date like"),
                ("0: 1, 2\x01", "kind", "character 8 of the line is byte 0x01"),
                ("0: 1, 2 " + "x" * 600, "kind", "511 are the most"),
                ("\xff\xfe", "kind", "byte 0xff")):
            self.fails(BAD_INPUT, ["encode"], "standard input line 3, field %s:" % field, part,
                       "nothing was written", data=("9\n\n%s\n10\n" % line).encode("latin-1"))

    def test_all_wrong_lines_are_named(self):
        path = self.write("day.txt", b"\n".join([b"bad"] * 25))
        messages = self.fails(BAD_INPUT, ["encode", path], path + " line 1,", path + " line 20,",
                              "and 5 more", "25 wrong lines")
        self.assertNotIn("line 21", messages)

    def test_output_file(self):
        out = self.write("out.rec", b"old")
        self.fails(BAD_INPUT, ["encode", "-o", out], data=b"bad")
        self.assertEqual(self.read(out), b"old")
        os.chmod(out, 0o640)
        self.done("encode", "--output=" + out, data=EXAMPLE.encode())
        self.assertEqual(self.read(out), b"".join(example()))
        self.assertEqual(os.stat(out).st_mode & 0o777, 0o640)
        self.assertEqual(os.listdir(self.folder), ["out.rec"])

    def test_output_that_is_no_plain_file(self):
        """A device is written to and not replaced; through a link its file is replaced."""
        device = os.stat("/dev/null")
        self.done("encode", "-o", "/dev/null", data=EXAMPLE.encode())
        self.assertEqual(os.stat("/dev/null").st_rdev, device.st_rdev)
        self.fails(SYSTEM, ["encode", "-o", "/dev/full"], "No space left", data=EXAMPLE.encode())
        self.fails(SYSTEM, ["encode", "-o", self.folder], "s a directory", data=EXAMPLE.encode())
        self.fails(SYSTEM, ["encode", "-o", self.path("none/x")], "none/x", data=EXAMPLE.encode())
        self.write("out.rec", b"old")
        os.symlink("out.rec", self.path("link"))
        self.done("encode", "-o", self.path("link"), data=EXAMPLE.encode())
        self.assertTrue(os.path.islink(self.path("link")))
        self.assertEqual(self.read(self.path("out.rec")), b"".join(example()))

    def test_random_text(self):
        """No text brings it down."""
        chance = random.Random(5)
        letters = "0123456789,:=. \t#-xfopgiver\n"
        for _ in range(60):
            text = "".join(chance.choice(letters) for _ in range(chance.randrange(200)))
            status, out, _ = run("encode", data=text.encode())
            self.assertIn(status, (DONE, BAD_INPUT))
            self.assertTrue(status == DONE or out == b"")
        for _ in range(20):
            status, _, _ = run("encode", data=chance.randbytes(chance.randrange(300)))
            self.assertIn(status, (DONE, BAD_INPUT))


class Decode(Case):
    def test_both_forms_come_back(self):
        records = b"".join(days(3000, 7) + example())
        for choice in ((), ("--names",)):
            text = self.done("decode", *choice, data=records)
            self.assertEqual(self.done("encode", data=text), records)
        self.assertEqual(self.done("decode", data=b"".join(example())).decode(), EXAMPLE)

    def test_random_legal_records(self):
        chance = random.Random(9)
        records = b""
        for _ in range(3000):
            kind = chance.randrange(13)
            values = [chance.choice([low, high, chance.randint(low, high)])
                      for _, low, high in RANGES[kind]]
            records += record(kind, *values)
        for choice in ((), ("-n",)):
            text = self.done("decode", *choice, data=records)
            self.assertEqual(self.done("encode", data=text), records)

    def test_wrong_records(self):
        good = record(9) + record(6, 0, 1, 2, 0, 1000000, 1, 0, 7)
        self.fails(BAD_INPUT, ["decode"], "record 3, at byte 30: 13 is no kind",
                   data=good + b"\x0d")
        self.fails(BAD_INPUT, ["decode"], "record 3 (opening), at byte 30: cut after 8 of its 9",
                   data=good + record(0, 1, 2)[:8])
        for kind, ranges in enumerate(RANGES):
            least = [low for _, low, _ in ranges]
            for place, (name, low, high) in enumerate(ranges):
                for value in (low - 1, high + 1):
                    try:
                        data = record(kind, *least[:place], value, *least[place + 1:])
                    except struct.error:
                        continue
                    self.fails(BAD_INPUT, ["decode"], "record 3 (%s), at byte 30, field %s: %d is"
                               % (NAMES[kind], name, value), data=good + data)

    def test_random_bytes(self):
        chance = random.Random(6)
        for _ in range(60):
            status, out, _ = run("decode", data=chance.randbytes(chance.randrange(200)))
            self.assertTrue(status == DONE or (status, out) == (BAD_INPUT, b""))


class Manners(Case):
    def test_help(self):
        self.assertRegex(self.done("--version").decode(), r"^yordzepa \d+\.\d+\.\d+\n$")
        for words in (["--help"], ["-h"], ["encode", "--help"], ["decode", "-h"],
                      ["load", "--help"], ["show", "--help"], ["pairs", "--help"],
                      ["audit", "--help"]):
            self.assertTrue(self.done(*words).startswith(b"usage: yordzepa"))
        self.assertIn(b"12 next-day", self.done("encode", "--help"))

    def test_usage(self):
        self.fails(USAGE, [], "usage:")
        for words, part in ((["bla"], "'bla' is no command"),
                            (["decode", "--bla"], "unknown choice '--bla'"),
                            (["decode", "--names=1"], "no value goes with"),
                            (["decode", "-o"], "a value is missing"),
                            (["decode", "a", "b"], "one word too many: 'b'"),
                            (["load"], "a file is missing"),
                            (["load", "--batch=0", "x"], "from 1 to 65536"),
                            (["load", "--batch=x", "x"], "from 1 to 65536"),
                            (["load", "--after=-1", "x"], "give a number"),
                            (["show", "x", "bla"], "'bla' is no table"),
                            (["show", "--csv", "x"], "name it"),
                            (["pairs", "--request=0", "x"], "give a number"),
                            (["audit", "a", "b"], "one word too many")):
            self.fails(USAGE, words, part)

    def test_files(self):
        missing = self.path("none")
        for words in (["encode", missing], ["decode", missing], ["decode", self.folder],
                      ["load", self.book, missing], ["load", missing + "/x", "/dev/null"],
                      ["show", missing], ["pairs", missing], ["audit", missing]):
            self.fails(SYSTEM, words, "yordzepa " + words[0] + ": ")
        self.assertEqual(os.listdir(self.folder), [])

    def test_full_output(self):
        for words in (["encode"], ["decode", "-n"], ["--help"]):
            with open("/dev/full", "wb") as full:
                data = EXAMPLE.encode() if words[0] == "encode" else b"".join(example())
                done = subprocess.run([TOOL, *words], input=data, stdout=full,
                                      stderr=subprocess.PIPE)
            self.assertEqual(done.returncode, SYSTEM)
            self.assertIn(b"No space left", done.stderr)

    def test_terminal(self):
        """Records are neither typed on a terminal nor printed to one."""
        master, slave = pty.openpty()
        for words, keep in ((["encode"], "stdout"), (["decode"], "stdin"),
                            (["load", self.book], "stdin")):
            done = subprocess.run([TOOL, *words], stderr=subprocess.PIPE,
                                  **{"stdin": subprocess.DEVNULL, "stdout": subprocess.DEVNULL,
                                     keep: slave})
            self.assertEqual(done.returncode, USAGE)
            self.assertIn(b"records are no text", done.stderr)
        os.close(master)
        os.close(slave)

    def test_dash(self):
        self.assertEqual(self.done("decode", "-", data=record(9)), b"9\n")
        path = self.write("-x", record(10))
        os.chdir(self.folder)
        self.assertEqual(self.done("decode", "--", "-x"), b"10\n")
        self.assertTrue(os.path.exists(path))
        os.chdir("/")


if __name__ == "__main__":
    unittest.main()
