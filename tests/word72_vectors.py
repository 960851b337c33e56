#!/usr/bin/env python3
"""Vectors for word 72: a made cycle of four major frames and single columns, with the answers of an independent implementation.

Run from the repository's root: python3 tests/word72_vectors.py
It writes crates/subcom_vectors/stdin and crates/subcom_vectors/stdout.
With --check it writes nothing and says whether the stored files are what it would write.

A record is 40 bytes: the operation, seven zero bytes, then a, b, c and the year of eight bytes each, first byte highest. The year is that of
4, 5 and 6, and 0 elsewhere.
  1  load an area      the 16,384 bytes that follow go to the front of the area buffer
  2  load a column     the 128 bytes that follow go to the front of the column buffer
  3  gather            of the first a bytes of the area buffer into the first b bytes of the column buffer
  4  kind              of the first a bytes of the column buffer
  5  list              the items of kind a with the 128 bytes of the column buffer
  6  ask               for item b of kind a in the first c bytes of the column buffer
Answers: gather writes its number and the whole column buffer, so that a refused call is seen to write nothing; list writes for each
item its kind, number, form, first place, length, bytes and reading; ask writes the refusal of the part, its bytes and the reading.

The items are derived from the book's tables (tests/word72_items.py). The readings are worked out by other means than the library's: a
time code as a string of digits, a year's last day by the calendar, a number as an exact fraction, flags as a string of binary digits."""
import os
import random
import struct
from fractions import Fraction

from word72_items import items
import stored
from years import INSIDE, OUTSIDE, in_span, read_time

CRATE = os.path.join("crates", "subcom_vectors")
AREA, COLUMN, ROOM = 16384, 128, 160
ITEMS = items()
LEAP = 2000
LARGE = (4, 5, 255, 256, 257, 1 << 32, (1 << 64) - 1)


def read_number(word):
    if word == bytes(6):
        return 0.0
    if word[0] >> 6 not in (1, 2):
        return None
    m = int.from_bytes(word[:3] + word[4:], "big", signed=True)
    e = int.from_bytes(word[3:4], "big", signed=True)
    exact = Fraction(m) * Fraction(2) ** (e - 39)
    assert Fraction(float(exact)) == exact
    return float(exact)


def read_bytes(year, form, data):
    """What bytes read as, in any year: one outside the span is refused whatever the form."""
    if not in_span(year):
        return "refused 13"
    if form == "fill":
        return "fill"
    if form == "flags":
        return "flags " + bin(256 + data[0])[3:]
    if form == "twelve":
        text = data.hex()
        return "count %d" % int(text[1:], 16) if text[0] == "0" else "refused 9"
    if form == "number":
        number = read_number(data)
        return "refused 10" if number is None else "number " + struct.pack(">d", number).hex()
    if form == "time":
        time = read_time(year, data)
        return "refused 8" if time is None else "time %d %d" % time
    return "count %d" % int(data.hex(), 16) if len(data) <= 8 else "fill"


def refusal(column, kind, number):
    if len(column) != COLUMN:
        return 2
    if kind > 3:
        return 6
    return 0 if number < sum(i.kind == kind for i in ITEMS) else 7


def the_item(kind, number):
    return next(i for i in ITEMS if (i.kind, i.number) == (kind, number))


def bytes_of(item, column):
    return column[item.first:item.first + item.length]


def say_ask(year, column, kind, number):
    """The part takes no year; in reading, 13 comes after 2 and before 6 and 7."""
    refused = refusal(column, kind, number)
    if refused:
        return "%d [] refused %d" % (refused, refused if refused == 2 or in_span(year) else 13)
    item = the_item(kind, number)
    data = bytes_of(item, column)
    return "0 [%s] %s" % (data.hex(), read_bytes(year, item.form, data))


def say_list(year, column, kind):
    if kind > 3:
        return ["refused 6"]
    lines = []
    for i in ITEMS:
        if i.kind == kind:
            data = bytes_of(i, column)
            lines.append("%d %d %s %d %d [%s] %s" % (i.kind, i.number, i.form, i.first, i.length, data.hex(), read_bytes(year, i.form, data)))
    return lines


def say_kind(year, column):
    if len(column) != COLUMN:
        return "refused 2"
    if not in_span(year):
        return "refused 13"
    marks = set(column[96:104])
    if len(marks) == 1 and marks <= {1, 2, 3}:
        return "kind %d" % marks.pop()
    return "refused 6" if read_time(year, bytes(column[96:103])) is None else "kind 0"


class Bench:
    """The program's two buffers, its input so far, and the lines that it is to write."""

    def __init__(self):
        self.area, self.column = bytearray(16640), bytearray(ROOM)
        self.input, self.lines = bytearray(), []

    def record(self, operation, a=0, b=0, c=0, year=0):
        self.input += bytes((operation,)) + bytes(7) + struct.pack(">QQQQ", a, b, c, year)

    def load_area(self, data):
        self.record(1)
        self.input += data
        self.area[:AREA] = data

    def load_column(self, data):
        self.record(2)
        self.input += data
        self.column[:COLUMN] = data

    def gather(self, a=AREA, b=COLUMN):
        self.record(3, a, b)
        answer = 0 if (a, b) == (AREA, COLUMN) else 2
        if answer == 0:
            self.column[:COLUMN] = self.area[72:AREA:128]
        self.lines.append("%d %s" % (answer, self.column.hex()))

    def kind(self, a=COLUMN, year=LEAP):
        self.record(4, a, year=year)
        self.lines.append(say_kind(year, self.column[:a]))

    def list(self, kind, year=LEAP):
        self.record(5, kind, year=year)
        self.lines += say_list(year, self.column[:COLUMN], kind)

    def ask(self, kind, number, length=COLUMN, year=LEAP):
        self.record(6, kind, number, length, year)
        self.lines.append(say_ask(year, self.column[:length], kind, number))


GOOD_NUMBERS = ("400000010000", "800000000000", "a00000000000", "000000000000", "7fffff7fffff", "bfffff80ffff", "400000800000")
BAD_NUMBERS = ("c00000000000", "000000010000", "3fffff7fffff", "ffffffffffff")


def noise(rng, n):
    return bytes(rng.randrange(256) for _ in range(n))


def good(rng, item):
    """Bytes that the item reads with no refusal, with bounds and 01's own examples among them."""
    if item.form == "twelve":
        return bytes.fromhex(rng.choice(("0a5c", "0000", "0fff", "0%03x" % rng.randrange(4096))))
    if item.form == "number":
        return bytes.fromhex(rng.choice(GOOD_NUMBERS))
    if item.form == "time":
        clock = (rng.randrange(24), rng.randrange(60), rng.randrange(60), rng.randrange(1000), rng.randrange(16))
        fields = (rng.randrange(16), rng.randint(1, 366)) + clock
        return bytes.fromhex(rng.choice(("7123045607890f", "%x%03d%02d%02d%02d%03d%x" % fields)))
    if item.form == "flags":
        return bytes((rng.choice((0x80, 0x01, 0xA5, 0x00, 0xFF, rng.randrange(256))),))
    if (item.first, item.length) == (96, 8):
        return bytes((item.kind,)) * 8
    return noise(rng, item.length)


def bad(rng, item):
    """Bytes that the item's form refuses, where it refuses any."""
    if item.form == "twelve":
        return bytes.fromhex(rng.choice(("1a5c", "8000", "f%03x" % rng.randrange(4096))))
    if item.form == "number":
        return bytes.fromhex(rng.choice(BAD_NUMBERS))
    if item.form == "time":
        return bytes.fromhex(rng.choice(("7000000000000f", "7367000000000f", "71232400000000", "7123006000000f", "7a23045607890f", "712304560789af")))
    return good(rng, item)


def column_of(rng, kind, make):
    return b"".join(make(rng, i) for i in ITEMS if i.kind == kind)


def area_of(rng, column):
    area = bytearray(noise(rng, AREA))
    area[72::128] = column
    return bytes(area)


def cycle(bench, rng):
    """Four major frames whose columns hold good values of every form. Each is gathered and listed as its own kind and as the others."""
    for kind in range(4):
        bench.load_area(area_of(rng, column_of(rng, kind, good)))
        bench.gather()
        bench.kind()
        for asked in (0, 1, 2, 3, 4):
            bench.list(asked)


def refusals(bench, rng):
    """Every refusal, and which comes first where several apply."""
    for a, b in ((0, COLUMN), (AREA - 1, COLUMN), (AREA + 1, COLUMN), (AREA, 0), (AREA, COLUMN - 1), (AREA, COLUMN + 1), (1, 1)):
        bench.gather(a, b)
    for kind in range(4):
        bench.load_column(column_of(rng, kind, bad))
        bench.kind()
        bench.list(kind)
    for length in (0, 1, COLUMN - 1, COLUMN + 1, ROOM):
        bench.kind(length)
        for kind, number in ((0, 0), (4, 0), (0, 40), (9, 999)):
            bench.ask(kind, number, length)
    for kind in range(4):
        count = sum(i.kind == kind for i in ITEMS)
        for number in (0, count - 1, count, count + 1, 61, 62) + LARGE:
            bench.ask(kind, number)
    for kind in LARGE:
        bench.ask(kind, 0)
        bench.ask(kind, 999)
        bench.list(kind)


def kinds(bench, rng):
    """Columns at the edge of a kind: seven of eight identifiers, other numbers, a time code with one byte changed."""
    for kind in (0, 1, 2, 3, 4, 255):
        column = bytearray(noise(rng, COLUMN))
        column[96:104] = bytes((kind,)) * 8
        bench.load_column(bytes(column))
        bench.kind()
        for place in (96, 103, rng.randrange(97, 103)):
            other = bytearray(column)
            other[place] = (kind + 1) % 4
            bench.load_column(bytes(other))
            bench.kind()
    for _ in range(60):
        column = bytearray(noise(rng, COLUMN))
        clock = (rng.randrange(25), rng.randrange(61), rng.randrange(61), rng.randrange(1000), rng.randrange(16))
        column[96:103] = bytes.fromhex("7%03d%02d%02d%02d%03d%x" % ((rng.choice((0, 1, 366, 367, 123)),) + clock))
        bench.load_column(bytes(column))
        bench.kind()


def years(bench, rng):
    """Day 366 and the days beside it in years of every sort: the kind of such a column, and its items whatever they are; and which refusal
    comes first where the year is outside the span."""
    for day in (365, 366, 367):
        column = bytearray(column_of(rng, 0, good))
        column[96:103] = bytes.fromhex("7%03d235959999f" % day)
        bench.load_column(bytes(column))
        for year in INSIDE + OUTSIDE:
            bench.kind(year=year)
    number = next(i.number for i in ITEMS if i.kind == 0 and i.form == "time")
    for kind in range(4):
        column = bytearray(column_of(rng, kind, good))
        if kind == 0:
            column[96:103] = bytes.fromhex("73662359599999")
        bench.load_column(bytes(column))
        for year in INSIDE + OUTSIDE:
            bench.kind(year=year)
            bench.ask(0, number, year=year)
        for year in (2001, 2100):
            bench.list(kind, year=year)
    for year in (1998, 2100, (1 << 32) + 2000):
        for length in (COLUMN - 1, COLUMN):
            bench.kind(length, year=year)
            for kind, item in ((0, 0), (4, 0), (0, 999), (9, 999), (0, number)):
                bench.ask(kind, item, length, year=year)
        bench.list(4, year=year)


def main():
    rng = random.Random(72)
    bench = Bench()
    cycle(bench, rng)
    refusals(bench, rng)
    kinds(bench, rng)
    years(bench, rng)
    files = {"stdin": bytes(bench.input), "stdout": "".join(line + "\n" for line in bench.lines).encode()}
    stored.keep(CRATE, files)
    print(len(bench.lines), "lines")


if __name__ == "__main__":
    main()
