#!/usr/bin/env python3
"""Vectors for the comparison of two books (paper 02, request 9), with the answers of an independent implementation.

Run from the repository's root: python3 tests/book_compare_vectors.py
It writes crates/book_compare_vectors/stdin (records) and crates/book_compare_vectors/stdout (their lines).
With --check it writes nothing and says whether the stored files are what it would write.

The program has two areas, all 0 at first. A record: the operation, three zero bytes, n (4 bytes), v (8 bytes); all numbers have their first byte
highest.
  1, 2  load     v bytes follow, which go to place n of the first area, of the second
  3, 4  repeat   as many bytes as the 8 that follow say go from place v to place n of the first area, of the second
  5     compare  the first n bytes of the first area with the first v of the second, into as many numbers of the table as the 8 bytes that
                 follow say; before that number i of the table is 2^64 - 1 - i
Lines: `lines N sum S` and N lines of three numbers, or `refused R sum S`; S is the sum of all 1,536 numbers of the table.

What differs is said over dictionaries from instants to bodies; no book is walked beside the other. The faults of a book are
book_vectors.py's."""
import os
import random
import struct

from book_vectors import BODY, ENTRY, HEADER, MINOR, NUMBER, SYNC, code, column_place, cut, cycle, fault, fits, instant, offset, size
from stored import checksum, keep

CRATE = os.path.join("crates", "book_compare_vectors")
MAJOR, SPACE, TABLE = BODY // 4, 1536, 1530
MODEL = size(16)
ROOM = MODEL + MAJOR


# ---- What differs

def held(book):
    """The bodies of an accepted book by their instants."""
    cycles, year = fits(book)
    bodies = cut(book[offset(cycles, 0):], BODY)
    return {cycle(body, year): body for body in bodies}


def line(at, first, second):
    """The line of an instant, None where the books do not differ there."""
    if at not in second:
        return at, 1, 0
    if at not in first:
        return at, 2, 0
    places = [place for place in range(BODY) if first[at][place] != second[at][place]] if first[at] != second[at] else []
    return (at, 3, places[0]) if places else None


def compared(first, second, table):
    """The number of the refusal, and the lines where there is none."""
    if table != TABLE:
        return 2, None
    for number in (fault(first), fault(second)):
        if number:
            return number, None
    if fits(first)[1] != fits(second)[1]:
        return 21, None
    first, second = held(first), held(second)
    lines = [line(at, first, second) for at in sorted(set(first) | set(second))]
    return 0, [each for each in lines if each]


# ---- The program's areas and lines

def model():
    """A major frame with its sync bytes and numbers, which stands behind the books; bodies are made of it."""
    rng = random.Random(9)
    major = bytearray(rng.randrange(256) for _ in range(MAJOR))
    for at in range(0, MAJOR, MINOR):
        major[at:at + 3] = SYNC
        major[at + NUMBER] = at // MINOR
    return major


class Bench:
    """The two areas, the input so far, and the lines that are to be written."""

    def __init__(self):
        self.areas = bytearray(ROOM), bytearray(ROOM)
        self.input, self.lines, self.met = bytearray(), [], {}
        for book in (0, 1):
            self.load(book, MODEL, model())

    def record(self, operation, n, v, follows=b""):
        self.input += struct.pack(">B3xIQ", operation, n, v) + follows

    def load(self, book, place, data):
        """Gives back what was there."""
        self.record(1 + book, place, len(data), bytes(data))
        area = self.areas[book]
        old, area[place:place + len(data)] = bytes(area[place:place + len(data)]), data
        return old

    def repeat(self, book, place, source, n):
        self.record(3 + book, place, source, struct.pack(">Q", n))
        self.areas[book][place:place + n] = self.areas[book][source:source + n]

    def make(self, book, year, cycles):
        """A book of (time code, byte at place 3 of the body) for each cycle."""
        n = len(cycles)
        entries = [struct.pack(">QI", instant(each, year) or 0, offset(n, i)) for i, (each, _) in enumerate(cycles)]
        self.load(book, 0, struct.pack(">HH", n, year) + b"".join(entries))
        for i, (each, tag) in enumerate(cycles):
            start = offset(n, i)
            if i == 0:
                self.first_body(book, start)
            else:
                self.repeat(book, start, offset(n, 0), BODY)
            for place, byte in enumerate(each, 96):
                self.load(book, start + column_place(0, place), bytes((byte,)))
            self.load(book, start + 3, bytes((tag,)))
        return size(n)

    def first_body(self, book, start):
        for k in range(4):
            self.repeat(book, start + k * MAJOR, MODEL, MAJOR)
            for place in range(96, 104):
                self.load(book, start + column_place(k, place), bytes((k,)))

    def compare(self, n, m, table=TABLE):
        self.record(5, n, m, struct.pack(">Q", table))
        number, lines = compared(bytes(self.areas[0][:n]), bytes(self.areas[1][:m]), table)
        self.met[number] = self.met.get(number, 0) + 1
        numbers = [(1 << 64) - 1 - i for i in range(SPACE)]
        told = [each for line in lines or () for each in line]
        numbers[:len(told)] = told
        head = "lines %d" % len(lines) if number == 0 else "refused %d" % number
        self.lines.append("%s sum %d" % (head, checksum(numbers)))
        self.lines += ["%d %d %d" % line for line in lines or ()]
        return number, lines


# ---- The vectors

def days(*numbers, tag=7):
    return [(code(day), tag) for day in numbers]


def alone(bench):
    """Books of no cycles, books that are equal, and books that have no instant in common."""
    for first, second in (((), ()), ((), (5, 6, 7)), ((5, 6, 7), ()), ((5,), (5,)), ((5,), (6,)), ((6,), (5,)),
                          (range(1, 17), range(1, 17)), (range(1, 32, 2), range(2, 32, 2)), (range(2, 32, 2), range(1, 32, 2)),
                          (range(1, 17), range(101, 117)), (range(101, 117), range(1, 17)), (range(1, 17), (1,)), (range(1, 17), (16,)), ((8,), range(1, 17))):
        n, m = bench.make(0, 2004, days(*first)), bench.make(1, 2004, days(*second))
        number, lines = bench.compare(n, m)
        assert number == 0 and len(lines) == len(set(first) ^ set(second))


FREE = (3, 4, 62, 63, 64, 66, 126, 127, 131, 191, 192, 194, 255, 4095, 16383, 16387, 32767, 40003, 49151, 65406, 65471, 65472, 65474, 65534, 65535)


def one_byte(bench):
    """Books of the same instants, of which one byte of a body differs, or two."""
    n, m = bench.make(0, 2001, days(1, 2, 3)), bench.make(1, 2001, days(1, 2, 3))
    for i in range(3):
        start = offset(3, i)
        for place in FREE:
            byte = bytes((bench.areas[1][start + place] ^ 1 << place % 8,))
            old = bench.load(1, start + place, byte)
            assert bench.compare(n, m) == (0, [(instant(code(i + 1), 2001), 3, place)])
            later = bench.load(1, start + 65535, b"\x55")
            bench.compare(n, m)
            bench.load(1, start + 65535, later)
            bench.load(1, start + place, old)
    # A byte of the spacecraft's number, which is no part of the instant.
    place = column_place(0, 96)
    old = bench.load(0, offset(3, 1) + place, b"\x10")
    assert bench.compare(n, m) == (0, [(instant(code(2), 2001), 3, place)])
    bench.load(0, offset(3, 1) + place, old)
    assert bench.compare(n, m) == (0, [])


def mixed(bench):
    """Instants in one book, in the other, or in both with bodies that are the same or not."""
    rng = random.Random(19)
    for turn in range(60):
        books = [], []
        for day in sorted(rng.sample(range(1, 365), rng.randrange(17))):
            place, tag = rng.randrange(4), rng.randrange(256)
            each = code(day, "%02d:00:00.%03d" % (rng.randrange(24), rng.randrange(1000)), rng.randrange(16), rng.randrange(16))
            if place != 1:
                books[0].append((each, tag))
            if place != 0:
                books[1].append((each, tag if place == 2 else tag ^ 0x80))
        year = 1999 + turn
        bench.compare(bench.make(0, year, books[0]), bench.make(1, year, books[1]))


# A place in a book of two cycles, and the bytes there that are the fault.
FAULTS = (
    (13, 2, b"\x07\xCE"), (16, 0, b"\x00\x03"), (17, offset(2, 1) + 1, b"\x00"), (18, HEADER, b"\x80"), (18, HEADER + ENTRY, bytes(8)), (19, HEADER + 11, b"\xFF"))


def refusals(bench):
    """Each refusal, and which comes first of two."""
    n, m = bench.make(0, 2004, days(10, 20)), bench.make(1, 2004, days(10, 30))
    tables = (0, 1, 3, 510, 1527, 1529, TABLE, 1531, 1533, SPACE)
    for table in tables:
        bench.compare(n, m, table)
    for short in range(5):
        bench.compare(short, m)
        bench.compare(n, short)
        bench.compare(short, short)
    for length in (n - 1, n + 1):
        bench.compare(length, m)
        bench.compare(n, length)
    for year in (2004, 2005, 2000, 1999):
        bench.load(1, 2, struct.pack(">H", year))
        assert bench.compare(n, m)[0] == (0 if year == 2004 else 21)
        for number, place, data in FAULTS:
            for book in (0, 1):
                old = bench.load(book, place, data)
                assert bench.compare(n, m)[0] == number
                assert bench.compare(n, m, 1529)[0] == 2
                for second, other, more in FAULTS[book::2]:
                    kept = bench.load(1 - book, other, more)
                    assert bench.compare(n, m)[0] == (number, second)[book]
                    bench.load(1 - book, other, kept)
                bench.load(book, place, old)
    bench.load(1, 2, struct.pack(">H", 2004))
    assert bench.compare(n, m)[0] == 0


def main():
    bench = Bench()
    alone(bench)
    one_byte(bench)
    mixed(bench)
    refusals(bench)
    assert set(bench.met) == {0, 2, 13, 16, 17, 18, 19, 21}
    keep(CRATE, {"stdin": bytes(bench.input), "stdout": "".join(line + "\n" for line in bench.lines).encode()})
    print(len(bench.lines), "lines")


if __name__ == "__main__":
    main()
