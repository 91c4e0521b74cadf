"""A second reader and writer of the journal and the book's file, from docs/TOOL.md."""
import hashlib
import struct

from common import BOOK, ENTRY

MASK = 2**64 - 1
HEADER = b"yordzepa journal 1: entries of 128 bytes, see docs/TOOL.md\n".ljust(ENTRY, b"\0")
CALL, BROKEN = 1, 2


def sha(data):
    return hashlib.sha256(data).digest()


def stirred(total, word):
    total = ((total ^ word) * 0x9E3779B97F4A7C15) & MASK
    return (total << 29 | total >> 35) & MASK


def book_sum(book):
    lanes = [1, 2, 3, 4]
    words = struct.unpack(">6144Q", book)
    for place, word in enumerate(words):
        lanes[place % 4] = stirred(lanes[place % 4], word)
    total = 0
    for lane in lanes:
        total = stirred(total, lane)
    return stirred(total ^ total >> 32, 0)


class Entry:
    def __init__(self, data):
        (self.place, self.before, self.after, self.type, length, room, self.code, self.a, self.b,
         self.m, self.sum, self.check, self.chain) = struct.unpack(">QIIBB30sQQQQQ8s32s", data)
        self.record, self.padding = room[:length], room[length:]

    def line(self):
        return "%d %d %d %d %d %d\n" % (self.place, self.record[0], self.code, self.a, self.b,
                                        self.m)

    def bytes(self, previous):
        """The entry's bytes with check and chain made anew."""
        body = struct.pack(">QIIBB30sQQQQQ", self.place, self.before, self.after, self.type,
                           len(self.record), self.record + self.padding, self.code, self.a, self.b, self.m,
                           self.sum)
        body += sha(body)[:8]
        self.chain = sha(previous + body)
        return body + self.chain


def walk(data):
    """The entries of a journal's bytes up to the first that is not as docs/TOOL.md says."""
    assert data[:ENTRY] == HEADER
    chain, before, left = sha(HEADER), 0, 0
    for start in range(ENTRY, len(data) - ENTRY + 1, ENTRY):
        part = data[start:start + ENTRY]
        entry = Entry(part)
        if (entry.place != start // ENTRY or part[88:96] != sha(part[:88])[:8] or
                entry.chain != sha(chain + part[:96]) or entry.before != before or
                (before and entry.after != left - 1) or any(entry.padding)):
            return
        before, left, chain = (entry.before + 1 if entry.after else 0), entry.after, entry.chain
        yield entry


def entries(data):
    """All entries of a journal's bytes, which are whole batches."""
    found = list(walk(data))
    assert len(data) == (len(found) + 1) * ENTRY
    assert not found or found[-1].after == 0
    return found


def whole_entries(data):
    """The entries of the whole batches, of a journal that a crash may have cut."""
    if len(data) < ENTRY or data[:ENTRY] != HEADER:
        return []
    found = list(walk(data))
    while found and found[-1].after:
        found.pop()
    return found


def written(found):
    """A journal's bytes from entries, chained anew."""
    data, chain = HEADER, sha(HEADER)
    for entry in found:
        part = entry.bytes(chain)
        chain = entry.chain
        data += part
    return data


def check_book(data, journal):
    """The book's file beside the journal's bytes; the book."""
    assert len(data) == BOOK + ENTRY
    book, copy = data[:BOOK], data[BOOK:]
    if copy == HEADER:
        assert book == bytes(BOOK)
        return book
    place = struct.unpack(">Q", copy[:8])[0]
    assert copy == journal[place * ENTRY:(place + 1) * ENTRY]
    assert Entry(copy).sum == book_sum(book)
    return book


def flushed_place(last, journal):
    """The place up to which BOOK.last says that the journal was flushed, or 0 if it tells nothing."""
    if len(last) != ENTRY or last[88:96] != sha(last[:88])[:8]:
        return 0
    entry = Entry(last)
    assert entry.after == 0
    assert last == journal[entry.place * ENTRY:(entry.place + 1) * ENTRY]
    return entry.place
