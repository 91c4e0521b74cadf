"""show and pairs."""
import csv
import datetime
import io
import os
import re
import unittest

import journal
from common import (BAD_INPUT, BOOK, DAMAGED, DONE, ROOT, Case, days, example, fields_of, record,
                    run)

SIDES = ["giver", "taker"]


def tables_of(book):
    """The book's numbers by the names of docs/LAYOUT.md, read from that table."""
    with open(os.path.join(ROOT, "docs", "LAYOUT.md")) as file:
        rows = re.findall(r"^\| \d+ (\w+) \| (\d+) \| (\d+) \| (\d) \|", file.read(), re.M)
    tables = {}
    for name, begin, count, width in rows:
        begin, count, width = int(begin), int(count), int(width)
        tables[name] = [int.from_bytes(book[begin + width * i:begin + width * (i + 1)], "big")
                        for i in range(count)]
    assert len(tables) == 39
    return tables


def date(day):
    return str(datetime.date(2002, 1, 1) + datetime.timedelta(day))


def bits(value):
    return " ".join(str(n) for n in range(64) if value >> n & 1) or "none"


def yes(value):
    return "yes" if value else "no"


class Show(Case):
    def csv(self, name):
        text = self.done("show", "--csv", self.book, name).decode()
        return list(csv.DictReader(io.StringIO(text)))

    def load_days(self):
        self.load(days(1500, 3))
        return tables_of(self.read(self.book)[:BOOK])

    def value(self, t, security, nominal):
        return nominal * t["prices"][security] * (10000 - t["haircuts"][security]) // 10**8

    def test_set_up(self):
        t = self.load_days()
        modes = ["-", "automatic", "list", "by-hand"]
        want = []
        for p in range(32):
            if t["modes"][p]:
                waits = t["waitingModes"][p]
                want.append({"participant": str(p), "mode": modes[t["modes"][p]],
                             "partial": yes(t["partials"][p]), "list": bits(t["lists"][p]),
                             "next mode": modes[waits],
                             "next partial": yes(t["waitingPartials"][p]) if waits else "-",
                             "next list": bits(t["waitingLists"][p]) if waits else "-"})
        self.assertEqual(self.csv("participants"), want)
        self.assertTrue(any(row["next mode"] != "-" for row in want))
        found = self.csv("securities")
        self.assertEqual([(row["security"], row["lot"], row["price"], row["haircut"],
                           row["quote day"], row["value of a lot"]) for row in found],
                         [(str(s), str(t["lots"][s]), str(t["prices"][s]), str(t["haircuts"][s]),
                           date(t["quoteDays"][s]), str(self.value(t, s, t["lots"][s])))
                          for s in range(64) if t["lots"][s]])
        self.assertEqual([list(row.values()) for row in self.csv("baskets")],
                         [[str(b), str(t["greatestAges"][b]), str(bin(t["maps"][b]).count("1")),
                           bits(t["maps"][b]).split()[0], bits(t["maps"][b])]
                          for b in range(16) if t["maps"][b]])
        self.assertEqual([list(map(int, row.values())) for row in self.csv("accounts")],
                         [[n // 64, n % 64, t["accounts"][n],
                           self.value(t, n % 64, t["accounts"][n])]
                          for n in range(2048) if t["accounts"][n]])

    def test_requests(self):
        t = self.load_days()
        want = []
        for row in sorted((r for r in range(256) if t["numbers"][r]),
                          key=lambda r: t["numbers"][r]):
            fop = t["requestKinds"][row] == 6
            amount, settled = t["amounts"][row], t["settledAmounts"][row]
            partner = t["partners"][row]
            state = ("settled" if settled == amount else "ended" if t["ends"][row] else
                     "settled in part" if settled else "paired" if partner else "waits")
            want.append([str(t["numbers"][row]), "fop" if fop else "return",
                         SIDES[t["sides"][row]], str(t["givers"][row]), str(t["takers"][row]),
                         str(t["basketsOrExposures"][row]) if fop else "-",
                         "-" if fop else str(t["basketsOrExposures"][row]), str(amount),
                         date(t["settlements"][row]),
                         "-" if not fop else date(t["closings"][row]) if t["closings"][row]
                         else "open", str(t["references"][row]), state, str(settled),
                         str(t["numbers"][partner - 1]) if partner else "none",
                         yes(t["pairPartials"][row]), yes(t["cancels"][row])])
        self.assertGreater(len(want), 20)
        self.assertEqual([list(row.values()) for row in self.csv("requests")], want)

    def test_exposures(self):
        t = self.load_days()
        want, positions = [], []
        for e in range(64):
            if not t["inUse"][e]:
                continue
            held = [(s, t["positions"][64 * e + s]) for s in range(64) if t["positions"][64 * e + s]]
            value = sum(self.value(t, s, n) for s, n in held)
            amount = t["exposureAmounts"][e]
            cover = value * 10000 // amount if amount else 0
            closing = t["exposureClosings"][e]
            want.append([str(e), str(t["exposureGivers"][e]), str(t["exposureTakers"][e]),
                         str(t["exposureBaskets"][e]), date(closing) if closing else "open",
                         str(amount), str(value),
                         "%d.%02d%%" % divmod(cover, 100) if amount else "-",
                         str(max(amount - value, 0))])
            positions += [[str(e), str(s), str(n), str(self.value(t, s, n))] for s, n in held]
        self.assertGreater(len(want), 10)
        self.assertEqual([list(row.values()) for row in self.csv("exposures")], want)
        found = self.csv("positions")
        self.assertEqual([list(row.values())[:4] for row in found], positions)
        self.assertEqual({row["eligible"] for row in found} - {"yes", "no"}, set())

    def test_aligned(self):
        self.load(example())
        text = self.done("show", self.book).decode()
        self.assertIn("today is 2002-01-03 (day 2), tolerance 10000, next request 3, place 12", text)
        self.assertIn("exposure  giver  taker  basket  closing  amount   value  coverage  shortfall\n"
                      "       0      1      2       0  open     950000  940500    99.00%       9500\n",
                      text)
        two = self.done("show", self.book, "baskets", "exposures").decode()
        self.assertNotIn("participants", two)
        self.assertIn("baskets\n", two)

    def test_bare_book(self):
        """A host's own book, without a journal."""
        self.load(example())
        path = self.write("bare", self.read(self.book)[:BOOK])
        self.assertEqual(self.done("show", "--csv", path, "exposures"),
                         self.done("show", "--csv", self.book, "exposures"))
        self.assertNotIn(b"place", self.done("show", path).splitlines()[0])
        self.fails(DAMAGED, ["show", self.write("bare", bytes(BOOK))], "is not sound")
        self.fails(DAMAGED, ["show", self.write("bare", b"\xff" * BOOK)], "is not sound")

    def test_no_opening(self):
        self.load([record(9)])
        self.fails(DAMAGED, ["show", self.book], "no opening yet")


def opened(*modes):
    """A book with a basket, and participants 1, 2, .. of these modes."""
    made = [record(0, 1, 10000), record(1, 0, 1000, 1000000, 0, 1), record(3, 0, 1, 50)]
    return made + [record(2, place + 1, mode, 0, 1) for place, mode in enumerate(modes)]


def fop(side, reference, settlement=3, closing=0):
    return record(6, side, 1, 2, 0, 1000000, settlement, closing, reference)


class Pairs(Case):
    def pairs(self, *choices):
        return self.done("pairs", *choices, self.book).decode()

    def test_example(self):
        self.load(example())
        self.assertEqual(self.pairs(), """\
place 7: requests 1 and 2 are a pair: fop, giver 1, taker 2, basket 0, amount 1000000, \
settlement 2002-01-02, closing open
  paired       giver request 1, place 7, reference 7: entered, and was paired at once
  paired       taker request 2, place 7, reference 7: made for request 1, since taker 2 accepts \
giver 1 automatically
  passed over  no earlier request was equal
""")

    def test_order(self):
        """Equal requests keep their order; what was passed over is told with its reason."""
        self.load(opened(2, 2) + [fop(0, 70), fop(0, 71), fop(0, 72), record(8, 1, 2), fop(1, 80),
                                  fop(1, 81, settlement=6), fop(1, 82)])
        self.assertEqual(self.pairs(), """\
place 10: requests 1 and 4 are a pair: fop, giver 1, taker 2, basket 0, amount 1000000, \
settlement 2002-01-04, closing open
  paired       giver request 1, place 6, reference 70: the earliest equal request that waited
  paired       taker request 4, place 10, reference 80: entered, and was paired at once
  passed over  no earlier request was equal

place 12: requests 3 and 6 are a pair: fop, giver 1, taker 2, basket 0, amount 1000000, \
settlement 2002-01-04, closing open
  paired       giver request 3, place 8, reference 72: the earliest equal request that waited
  paired       taker request 6, place 12, reference 82: entered, and was paired at once
  passed over  giver request 1, place 6, reference 70: paired with request 4 at place 10
  passed over  giver request 2, place 7, reference 71: cancelled at place 9
  passed over  taker request 4, place 10, reference 80: paired with request 1 at place 10
""")
        self.assertTrue(self.pairs("--request=6").startswith("place 12:"))
        self.assertTrue(self.pairs("--reference=72").startswith("place 12:"))
        self.assertIn("request 5 has no partner", self.pairs("-r", "5"))
        self.assertIn("waits", self.pairs("-r", "5"))
        self.assertIn("cancelled at place 9", self.pairs("--reference", "71"))
        self.fails(BAD_INPUT, ["pairs", "--request=99", self.book], "no request")
        self.assertEqual(self.pairs("--csv", "--request=6"), """\
pairing place,part,request,side,arrival place,reference,reason
12,paired,3,giver,8,72,"the earliest equal request that waited"
12,paired,6,taker,12,82,"entered, and was paired at once"
12,passed over,1,giver,6,70,"paired with request 4 at place 10"
12,passed over,2,giver,7,71,"cancelled at place 9"
12,passed over,4,taker,10,80,"paired with request 1 at place 10"
""")

    def test_automatic(self):
        """A taker's request that waits is passed over once the taker accepts automatically."""
        self.load(opened(2, 2) + [fop(1, 80), record(2, 2, 0, 0, 1), record(12), fop(0, 70)])
        text = self.pairs()
        self.assertIn("passed over  taker request 1, place 6, reference 80: waits; the taker now "
                      "accepts the giver automatically", text)
        self.assertIn("taker request 3, place 9, reference 70: made for request 2", text)

    def test_dropped(self):
        self.load(opened(2, 2) + [fop(0, 70, settlement=1), record(12)])
        self.assertEqual(self.pairs(), "")
        self.assertIn("dropped by the change of day at place 7", self.pairs("--reference=70"))

    def test_opening_anew(self):
        """An opening begins the numbers anew, and nothing before it is equal."""
        day = opened(2, 2) + [fop(0, 70), fop(1, 80)]
        self.load(day + day)
        text = self.pairs()
        self.assertEqual(text.count("no earlier request was equal"), 2)
        self.assertIn("place 14: requests 1 and 2 are a pair", text)

    def test_against_a_second_program(self):
        """On whole days: all earlier equal requests are told, and what became of them."""
        for seed in (1, 2, 3):
            for path in (self.book, self.journal):
                if os.path.exists(path):
                    os.remove(path)
            self.load(days(2500, seed))
            want = self.second(journal.entries(self.read(self.journal)))
            found = list(csv.reader(io.StringIO(self.pairs("--csv"))))[1:]
            self.assertGreater(len(want), 100)
            self.assertEqual([row[:6] for row in found], [row[:6] for row in want])
            for got, row in zip(found, want):
                if got[6].startswith("dropped") and row[6] == "return waits":
                    continue
                self.assertTrue(got[6].startswith(row[6].replace("return ", "")), (got, row))

    def second(self, entries):
        """The pairs by plain lists, from the journal's records and answers."""
        requests, rows, today = [], [], 1
        for entry in entries:
            if entry.code:
                continue
            kind, values = fields_of(entry.record)
            if kind in (6, 7):
                key = (kind,) + values[1:7 if kind == 6 else 6]
                new = [dict(number=entry.a, side=values[0], key=key, reference=values[-1],
                            place=entry.place, fate="waits", settlement=values[5], kind=kind)]
                if entry.b == entry.a + 1:
                    new.append(dict(new[0], number=entry.b, side=1))
                requests += new
                if entry.b:
                    rows += self.told(requests, entry, len(new) > 1)
            elif kind == 8:
                one = requests[values[1] - 1]
                if one["fate"] == "waits":
                    one["fate"] = "cancelled at place %d" % entry.place
            elif kind == 12:
                for one in requests:
                    if one["fate"] == "waits" and one["settlement"] <= today:
                        one["fate"] = "dropped by the change of day at place %d" % entry.place
                today = entry.a
        return rows

    def told(self, requests, entry, is_made):
        """The rows on one pair."""
        pair = sorted((requests[entry.a - 1], requests[entry.b - 1]), key=lambda r: r["side"])
        rows = []
        for one in pair:
            why = ("made for" if is_made and one["number"] == entry.b else
                   "entered" if one["number"] == entry.a else "the earliest")
            rows.append([str(entry.place), "paired", *self.cells(one), why])
        for one in pair:
            for other in requests:
                if other["number"] < one["number"] and other["key"] == one["key"] \
                        and other["side"] == one["side"]:
                    prefix = "return " if other["kind"] == 7 and other["fate"] == "waits" else ""
                    rows.append([str(entry.place), "passed over", *self.cells(other),
                                 prefix + other["fate"]])
        for one, other in (pair, pair[::-1]):
            one["fate"] = "paired with request %d at place %d" % (other["number"], entry.place)
        return rows

    def cells(self, one):
        return [str(one["number"]), SIDES[one["side"]], str(one["place"]), str(one["reference"])]


if __name__ == "__main__":
    unittest.main()
