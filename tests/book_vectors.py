#!/usr/bin/env python3
"""Vectors for the book of cycles (paper 02, requests 7 and 8), with the answers of an independent implementation.

Run from the repository's root: python3 tests/book_vectors.py
It writes crates/book_vectors/stdin (records) and crates/book_vectors/stdout (their lines).
With --check it writes nothing and says whether the stored files are what it would write.

The program has two areas, `bodies` and `book`, all 0 at first. A record: the operation, three zero bytes, n (4 bytes), v (8 bytes); all
numbers have their first byte highest.
  1  body          body n of `bodies` is made from seed v and the time code that follows (7 bytes and one of nothing)
  2  patch bodies  byte n of `bodies` becomes v
  3  write         year v, the first n bytes of `bodies`, into as many bytes of `book` as the 8 bytes that follow say
  4  patch book    byte n of `book` becomes v
  5  fill book     the first n bytes of `book` become v
  6  view          of the first n bytes of `book`
  7  parts         entry v and body v of the first n bytes of `book`, by the slice and by a view
  8  check         of the first n bytes of `book`
Lines: `write R sum S`, S the sum of the buffer afterwards; `view R cycles C year Y`; `part R entry P L HEX body Q M SUM` with places and
lengths, and `view R entry L HEX body M SUM`.

What is expected is said over whole books: a book is taken apart into its numbers, its entries and its bodies, and each refusal asks one
question about all of them. Which days a year has is the calendar's to say."""
import os
import random
import struct
from datetime import datetime

from stored import checksum, keep
import years

CRATE = os.path.join("crates", "book_vectors")
MINOR, BODY, ENTRY, HEADER = 128, 65536, 12, 4
SYNC = b"\xFA\xF3\x20"
NUMBER, WORD = 65, 72
MOST = 255
ROOM = 32 * BODY + 128, 4 + 32 * (ENTRY + BODY) + 128


# ---- A cycle

def instant(code, year):
    """The instant of a time code in sixteenths of a millisecond, None where it is no time of the year."""
    text = code.hex()
    try:
        clock = datetime.strptime(" ".join((str(year), text[1:4], text[4:6], text[6:8], text[8:10])), "%Y %j %H %M %S")
        milli = int(text[10:13])
    except ValueError:
        return None
    if clock.year != year:
        return None
    seconds = clock.timetuple().tm_yday * 86400 + clock.hour * 3600 + clock.minute * 60 + clock.second
    return (seconds * 1000 + milli) * 16 + int(text[13], 16)


def kind(column, year):
    """Paper 01's kind of a column, None for none."""
    marks = set(column[96:104])
    if len(marks) == 1 and marks <= {1, 2, 3}:
        return marks.pop()
    return None if instant(column[96:103], year) is None else 0


def cycle(body, year):
    """The instant of a body, None where it is not as described: four major frames of kinds 0, 1, 2, 3, of whole minor frames."""
    minors = [body[at:at + MINOR] for at in range(0, BODY, MINOR)]
    if any(minor[:3] != SYNC or minor[NUMBER] != place % 128 for place, minor in enumerate(minors)):
        return None
    columns = [bytes(minor[WORD] for minor in minors[at:at + 128]) for at in range(0, 512, 128)]
    if [kind(column, year) for column in columns] != [0, 1, 2, 3]:
        return None
    return instant(columns[0][96:103], year)


# ---- A book

def size(cycles):
    return HEADER + (ENTRY + BODY) * cycles


def offset(cycles, i):
    return HEADER + ENTRY * cycles + BODY * i


def cut(data, width):
    return [bytes(data[at:at + width]) for at in range(0, len(data), width)]


def rise(numbers):
    return all(a < b for a, b in zip(numbers, numbers[1:]))


def written(year, bodies, length):
    """The number of the refusal, and the book where there is none."""
    cycles, rest = divmod(len(bodies), BODY)
    if rest or length != size(cycles):
        return 2, None
    if not years.in_span(year):
        return 13, None
    if cycles > MOST:
        return 16, None
    instants = [cycle(body, year) for body in cut(bodies, BODY)]
    if None in instants:
        return 17, None
    if not rise(instants):
        return 18, None
    entries = [struct.pack(">QI", at, offset(cycles, i)) for i, at in enumerate(instants)]
    return 0, struct.pack(">HH", cycles, year) + b"".join(entries) + bytes(bodies)


def fits(book):
    """The number of cycles and the year, None where the length is not theirs (refusal 16)."""
    if len(book) < HEADER:
        return None
    cycles, year = struct.unpack(">HH", book[:HEADER])
    return (cycles, year) if cycles <= MOST and len(book) == size(cycles) else None


def fault(book):
    """The number that refuses a view of the book, 0 for none."""
    if len(book) < HEADER:
        return 16
    if not years.in_span(struct.unpack(">H", book[2:HEADER])[0]):
        return 13
    if fits(book) is None:
        return 16
    cycles, year = fits(book)
    instants = [cycle(body, year) for body in cut(book[offset(cycles, 0):], BODY)]
    if None in instants:
        return 17
    entries = list(struct.iter_unpack(">QI", book[HEADER:offset(cycles, 0)]))
    if [at for at, _ in entries] != instants or not rise(instants):
        return 18
    return 0 if [place for _, place in entries] == [offset(cycles, i) for i in range(cycles)] else 19


def lowest_entry(book):
    """The lowest entry that has the fault of the book: 0 for a fault of the whole book (request 8)."""
    number = fault(book)
    if number not in (17, 18, 19):
        return 0
    cycles, year = fits(book)
    own = [cycle(body, year) for body in cut(book[offset(cycles, 0):], BODY)]
    entries = list(struct.iter_unpack(">QI", book[HEADER:offset(cycles, 0)]))

    def has_it(i):
        if number == 17:
            return own[i] is None
        if number == 19:
            return entries[i][1] != offset(cycles, i)
        # One that does not rise is the later entry's fault.
        return entries[i][0] != own[i] or (i > 0 and entries[i][0] <= entries[i - 1][0])

    return [has_it(i) for i in range(cycles)].index(True)


def part(book, i):
    """The number of the refusal, and the places of entry i and body i."""
    if fits(book) is None:
        return 16, None
    cycles, _ = fits(book)
    if i >= cycles:
        return 20, None
    return 0, (HEADER + ENTRY * i, offset(cycles, i))


# ---- The program's areas and lines

def made(seed, code):
    """A body as described but for what the time code is, its other bytes from a seed."""
    x, data = seed % (1 << 32), bytearray()
    for _ in range(BODY):
        x = (x * 1103515245 + 12345) % (1 << 32)
        data.append(x >> 16 & 255)
    for at in range(0, BODY, MINOR):
        data[at:at + 3] = SYNC
        data[at + NUMBER] = at // MINOR % 128
    for k in range(4):
        for place, byte in enumerate(code if k == 0 else bytes((k,)) * 8, 96):
            data[column_place(k, place)] = byte
    return data


def column_place(k, place):
    """Where in a body a place of major frame k's column is."""
    return MINOR * (128 * k + place) + WORD


class Bench:
    """The two areas, the input so far, and the lines that are to be written."""

    def __init__(self):
        self.bodies, self.book = bytearray(ROOM[0]), bytearray(ROOM[1])
        self.input, self.lines, self.met = bytearray(), [], {}

    def record(self, operation, n, v=0, follows=b""):
        self.input += struct.pack(">B3xIQ", operation, n, v) + follows

    def say(self, number, line):
        word = line.split()[0]
        self.met[word, number] = self.met.get((word, number), 0) + 1
        self.lines.append(line)

    def body(self, i, seed, code):
        self.record(1, i, seed, code + b"\0")
        self.bodies[BODY * i:BODY * (i + 1)] = made(seed, code)

    def patch_bodies(self, place, data):
        """Gives back what was there."""
        for at, byte in enumerate(data, place):
            self.record(2, at, byte)
        old, self.bodies[place:place + len(data)] = bytes(self.bodies[place:place + len(data)]), data
        return old

    def patch_book(self, place, data):
        for at, byte in enumerate(data, place):
            self.record(4, at, byte)
        old, self.book[place:place + len(data)] = bytes(self.book[place:place + len(data)]), data
        return old

    def fill_book(self, n, value):
        self.record(5, n, value)
        self.book[:n] = bytes((value,)) * n

    def write(self, n, year, length):
        self.record(3, n, year, struct.pack(">Q", length))
        number, book = written(year, self.bodies[:n], length)
        if number == 0:
            self.book[:length] = book
        self.say(number, "write %d sum %d" % (number, checksum(self.book[:length])))
        return number

    def write_cycles(self, cycles, year):
        return self.write(BODY * cycles, year, size(cycles))

    def check(self, n):
        self.record(8, n)
        number = fault(self.book[:n])
        self.say(number, "check %d entry %d" % (number, lowest_entry(self.book[:n])) if number else "check accepted")

    def view(self, n):
        self.check(n)
        self.record(6, n)
        number = fault(self.book[:n])
        self.say(number, "view %d cycles %d year %d" % ((number,) + (fits(self.book[:n]) if number == 0 else (0, 0))))
        return number

    def parts(self, n, i):
        self.record(7, n, i)
        book = bytes(self.book[:n])
        number, places = part(book, i)
        entry, body = (book[places[0]:places[0] + ENTRY], book[places[1]:places[1] + BODY]) if number == 0 else (b"", b"")
        places = places or (0, 0)
        self.say(number, "part %d entry %d %d %s body %d %d %d" % (
            number, places[0], len(entry), entry.hex(), places[1], len(body), checksum(body)))
        if fault(book) != 0:
            number, entry, body = 16, b"", b""
        self.say(number, "view %d entry %d %s body %d %d" % (number, len(entry), entry.hex(), len(body), checksum(body)))


# ---- The vectors

LARGE = (1 << 16, 1 << 32, 1 << 63, (1 << 64) - 1)


def code(day, clock="00:00:00.000", spacecraft=7, sixteenth=0):
    return bytes.fromhex("%x%03d%s%x" % (spacecraft, day, clock.replace(":", "").replace(".", ""), sixteenth))


def no_cycles(bench):
    """Lengths below 4, books of no cycles, years at the edges."""
    bench.fill_book(ROOM[1], 0xA5)
    for n in range(7):
        bench.view(n)
        bench.parts(n, 0)
    for year in years.INSIDE + years.OUTSIDE:
        bench.fill_book(8, 0x11)
        bench.write(0, year, 4)
        bench.view(4)
    for length in (0, 1, 3, 5, 16, 65552, ROOM[1]):
        bench.write(0, 2004, length)
        bench.write(0, 1998, length)
    bench.write(0, 2004, 4)
    for n in (0, 1, 2, 3, 4, 5, 16):
        bench.view(n)
        for i in (0, 1) + LARGE:
            bench.parts(n, i)
    # The number of cycles and the year in the file: 1, 256 and 255 cycles in four bytes; each with a year that is none.
    for cycles in (1, 255, 256, 65535):
        for year in (2004, 1998, 2100, 0, 0xD407):
            bench.patch_book(0, struct.pack(">HH", cycles, year))
            bench.view(4)
            bench.view(3)
            bench.parts(4, 0)
    for year in (1998, 2100):
        bench.patch_book(0, struct.pack(">HH", 0, year))
        bench.view(4)
        bench.parts(4, 0)


GOOD_CODES = (code(1), code(365, "23:59:59.999", 15, 15), code(123, "04:56:07.890", 7, 15), code(59, spacecraft=0), bytes((1,)) * 7)
BAD_CODES = (
    code(0), code(367), code(400), code(999), code(100, "24:00:00.000"), code(100, "00:60:00.000"), code(100, "00:00:60.000"), bytes(7), b"\xFF" * 7)


def time_codes(bench):
    """Good time codes and bad ones, day 366 by the year, and a half byte above 9 at each place."""
    for good in GOOD_CODES:
        bench.body(0, 1, good)
        bench.write_cycles(1, 2001)
        bench.view(size(1))
    for bad in BAD_CODES:
        bench.body(0, 1, bad)
        bench.write_cycles(1, 2000)
    bench.body(0, 1, code(366, "12:00:00.000"))
    for year in (1999, 2000, 2001, 2002, 2003, 2004, 2096, 2099):
        bench.fill_book(size(1), 0)
        bench.write_cycles(1, year)
    # The same book under another year.
    bench.write_cycles(1, 2000)
    for year in (2000, 2001, 2004, 2099, 2100):
        bench.patch_book(2, struct.pack(">H", year))
        bench.view(size(1))
        bench.parts(size(1), 0)
    bench.body(0, 1, code(123, "04:56:07.890"))
    bench.write_cycles(1, 2003)
    for half in range(14):
        place = column_place(0, 96 + half // 2)
        old = bench.bodies[place]
        bench.patch_bodies(place, bytes((old | 0xF0 if half % 2 == 0 else old | 0x0F,)))
        bench.write_cycles(1, 2003)
        bench.patch_bodies(place, bytes((old,)))


def one_cycle(bench):
    """Lengths that do not fit, and every way in which a body is not as described."""
    bench.body(0, 7, code(200))
    bench.fill_book(size(1) + 1, 0x5A)
    for n in (0, 1, BODY - 1, BODY, BODY + 1):
        for length in (0, 4, size(1) - 1, size(1), size(1) + 1):
            for year in (2010, 2100):
                bench.write(n, year, length)
    bench.view(size(1))
    for i in (0, 1, 255, 256) + LARGE:
        bench.parts(size(1), i)
    # Sync and number of the first, some and the last minor frame of each major frame.
    for k in range(4):
        for m in (0, 1, 64, 127):
            minor = MINOR * (128 * k + m)
            for place, byte in ((0, 0xFB), (1, 0), (2, 0x21), (NUMBER, (m + 1) % 128), (NUMBER, m + 128)):
                old = bench.patch_bodies(minor + place, bytes((byte,)))
                bench.write_cycles(1, 2010)
                bench.patch_bodies(minor + place, old)
    # An identifier that is another's, one of eight and all of them; and a time code instead of one.
    for k in (1, 2, 3):
        for places in ((96,), (99,), (103,), range(96, 104)):
            for byte in (0, k % 3 + 1, 4):
                patch_column(bench, k, places, bytes((byte,)) * len(places))
        patch_column(bench, k, range(96, 103), code(200))
    # A time code that is an identifier, all eight of it or seven.
    for k in (1, 2, 3, 4):
        patch_column(bench, 0, range(96, 104), bytes((k,)) * 8)
        patch_column(bench, 0, range(96, 104), bytes((k,)) * 7 + b"\0")
        patch_column(bench, 0, range(96, 104), b"\0" + bytes((k,)) * 7)
    # What may be any byte.
    for place in (3, NUMBER - 1, NUMBER + 1, 127, column_place(0, 95), column_place(0, 103), column_place(1, 95), column_place(3, 104), BODY - 1):
        old = bench.patch_bodies(place, bytes((bench.bodies[place] ^ 0xFF,)))
        bench.write_cycles(1, 2010)
        bench.patch_bodies(place, old)


def patch_column(bench, k, places, data):
    """Writes with other bytes in the column of major frame k, and puts the old ones back."""
    old = [bench.patch_bodies(column_place(k, place), bytes((byte,))) for place, byte in zip(places, data)]
    bench.write_cycles(1, 2010)
    for place, byte in zip(places, old):
        bench.patch_bodies(column_place(k, place), byte)


def order_of_instants(bench):
    """Instants that are equal, or fall, at the first, the middle and the last of five."""
    days = (10, 20, 30, 40, 50)
    for i, day in enumerate(days):
        bench.body(i, i, code(day))
    bench.write_cycles(5, 2020)
    bench.view(size(5))
    for i in range(5):
        for other in (code(days[i - 1]), code(days[i - 1], sixteenth=1), code(1), code(366), code(365, "23:59:59.999", 0, 15)):
            bench.body(i, i, other)
            for cycles in (2, 5):
                bench.write_cycles(cycles, 2020)
        bench.body(i, i, code(days[i]))
    bench.write_cycles(5, 2020)


def faults(cycles, i):
    """What can be wrong with a book of so many cycles at entry i: a place in the book, and the bytes that stand there then."""
    entry, body = HEADER + ENTRY * i, offset(cycles, i)
    yield 17, body + 2, b"\x21"
    yield 17, body + BODY - MINOR + NUMBER, b"\x00"
    yield 17, body + column_place(3, 103), b"\x02"
    yield 17, body + column_place(0, 96), b"\x79"
    # A body whose time is good, but no longer its entry's.
    yield 18, body + column_place(0, 102), b"\x0F"
    yield 18, body + column_place(0, 98), b"\x01"
    yield 18, entry + 7, b"\x01"
    yield 18, entry, b"\x80"
    yield 18, entry, b"\xFF" * 8
    yield 18, entry, bytes(8)
    yield 19, entry + 8, b"\x01"
    yield 19, entry + 11, b"\xFF"
    yield 19, entry + 8, struct.pack(">I", offset(cycles, i + 1))
    yield 19, entry + 8, bytes(4)


def files_with_faults(bench, cycles, places):
    """Every fault of a file at these entries, alone and with another at every other one of them."""
    for i in range(cycles):
        bench.body(i, 40 + i, code(11 * (i + 1), "10:20:30.400", 7, 5))
    length = size(cycles)
    bench.write_cycles(cycles, 2012)
    assert bench.view(length) == 0
    for i in (0, cycles - 1, cycles, cycles + 1) + LARGE:
        bench.parts(length, i)
    for i in places:
        for number, place, data in faults(cycles, i):
            old = bench.patch_book(place, data)
            assert bench.view(length) == number
            bench.parts(length, i)
            for j in places:
                for second, other, more in list(faults(cycles, j))[i + j & 1::3]:
                    kept = bench.patch_book(other, more)
                    assert bench.view(length) == min(number, second) or i == j
                    bench.patch_book(other, kept)
            bench.patch_book(place, old)
    assert bench.view(length) == 0


def files_that_fall(bench, cycles):
    """A body's time and its entry's instant changed alike, at each but the first entry: before the one before, equal to it, one sixteenth later."""
    days = [11 * (i + 1) for i in range(cycles)]
    for i in range(1, cycles):
        for other in (code(1), code(days[i - 1]), code(days[i - 1], "10:20:30.400", 7, 5), code(days[i - 1], "10:20:30.400", 3, 6)):
            places = [offset(cycles, i) + column_place(0, place) for place in range(96, 103)]
            old = [bench.patch_book(place, bytes((byte,))) for place, byte in zip(places, other)]
            entry = bench.patch_book(HEADER + ENTRY * i, struct.pack(">Q", instant(other, 2012)))
            bench.view(size(cycles))
            bench.parts(size(cycles), i)
            bench.patch_book(HEADER + ENTRY * i, entry)
            for place, byte in zip(places, old):
                bench.patch_book(place, byte)
    assert bench.view(size(cycles)) == 0


def files_of_wrong_length(bench, cycles):
    """A good book of so many cycles, handed in with other lengths, numbers of cycles and years."""
    length = size(cycles)
    for n in (0, 3, 4, length - BODY - ENTRY, length - BODY, length - ENTRY, length - 1, length + 1, length + ENTRY, length + 128):
        bench.view(n)
        bench.parts(n, 0)
    for n in (0, 1, cycles - 1, cycles + 1, 256 + cycles, 256 * cycles):
        old = bench.patch_book(0, struct.pack(">H", n))
        bench.view(length)
        bench.view(size(cycles - 1))
        bench.parts(length, 0)
        bench.patch_book(0, old)
    for year in (0, 1998, 1999, 2099, 2100, 65535):
        old = bench.patch_book(2, struct.pack(">H", year))
        for n in (length, length - 1, 3):
            bench.view(n)
            bench.parts(n, cycles - 1)
            bench.parts(n, cycles)
        bench.patch_book(2, old)
    bench.view(length)


def swapped_entries(bench):
    """A book of two whose entries, or bodies, or both have changed places."""
    for i, day in enumerate((100, 200)):
        bench.body(i, 90 + i, code(day))
    bench.write_cycles(2, 2099)
    book = bytes(bench.book[:size(2)])
    first, second = book[4:16], book[16:28]
    for entries in (second + first, first + first, second + second, second[:8] + first[8:] + first[:8] + second[8:], first[:8] + second[8:] + second):
        bench.patch_book(4, entries)
        bench.view(size(2))
        bench.parts(size(2), 0)
        bench.parts(size(2), 1)
    bench.patch_book(4, first + second)
    bench.body(0, 91, code(200))
    bench.body(1, 90, code(100))
    bench.write_cycles(2, 2099)
    bench.view(size(2))


def most_cycles(bench):
    """As many cycles as the areas hold."""
    rng = random.Random(7)
    for i in range(32):
        bench.body(i, rng.randrange(1 << 32), code(1 + 11 * i, sixteenth=i % 16))
    bench.write_cycles(32, 2001)
    bench.view(size(32))
    for i in (0, 1, 15, 31, 32):
        bench.parts(size(32), i)
    bench.patch_book(offset(32, 31) + 1, b"\0")
    bench.view(size(32))
    bench.write(BODY * 32 + 1, 2001, size(32))


def main():
    bench = Bench()
    no_cycles(bench)
    time_codes(bench)
    one_cycle(bench)
    order_of_instants(bench)
    files_with_faults(bench, 1, (0,))
    files_of_wrong_length(bench, 1)
    files_with_faults(bench, 2, (0, 1))
    files_with_faults(bench, 5, (0, 2, 4))
    files_that_fall(bench, 5)
    files_of_wrong_length(bench, 5)
    swapped_entries(bench)
    most_cycles(bench)
    wanted = {"write": (0, 2, 13, 17, 18), "check": (0, 13, 16, 17, 18, 19), "view": (0, 13, 16, 17, 18, 19, 20), "part": (0, 16, 20)}
    assert set(bench.met) == {(word, number) for word, numbers in wanted.items() for number in numbers}
    keep(CRATE, {"stdin": bytes(bench.input), "stdout": "".join(line + "\n" for line in bench.lines).encode()})
    print(len(bench.lines), "lines")


if __name__ == "__main__":
    main()
