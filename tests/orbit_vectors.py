#!/usr/bin/env python3
"""Vectors for the records of a cycle, with the answers of an independent implementation in exact fractions, written from the book (DFCB 3.2.7.4.2
to 3.2.7.4.8, tables 11, 12, 14, 17 to 20) and not from the library.

Run from the repository's root: python3 tests/orbit_vectors.py
It writes crates/orbit_vectors/stdin and crates/orbit_vectors/stdout.
With --check it writes nothing and says whether the stored files are what it would write.

A record is 24 bytes: the operation, three zero bytes, n (4 bytes), a value (8 bytes) and a major frame (8 bytes), first byte highest.
  1  load   word 72 of the 512 minor frames follows; the program adds sync bytes and numbers
  2  patch  byte n of the area becomes the value
  3  ask    all records of the first n bytes, in the year of the value, of the major frame
The places of each value are looked up by its description in the book's tables (tests/word72_tables.txt), so that a place mistyped in the library
cannot be mistyped here alike. Doubles are printed as their 64 bits, Euler parameters as how far they lie above -2^31."""
import os
import random
import struct
from fractions import Fraction

import stored
from word72_items import items
from years import INSIDE, OUTSIDE, in_span, last_day, read_time

CRATE = os.path.join("crates", "orbit_vectors")
CYCLE, ROOM = 65536, 65664
SYNC = bytes.fromhex("faf320")
DAY = 24 * 3600 * 1000 * 16
SHIFTS = (Fraction("-8.192"), Fraction("-4.096"), Fraction(0), Fraction("4.096"))


def places():
    """By kind, the first place of each value by its description in the book's tables; the four 12-bit temperatures in their order."""
    found = [{} for _ in range(4)]
    for item in items():
        name = item.description.lower().replace(" ", "")
        if item.form == "twelve":
            name = "temp%d" % (1 + sum(n.startswith("temp") for n in found[item.kind]))
        found[item.kind][name] = item.first
    return found


PLACES = places()
EULER = ["eulerparameter%d(epa%d)" % (i, i) for i in (1, 2, 3, 4)]
EPHEMERIS = ["%s-%s" % (axis, what) for what in ("position", "velocity") for axis in "xyz"]


def word(column, k, name):
    """The 32-bit two's complement count with this description in a column of kind k."""
    first = PLACES[k][name]
    return signed(column[first:first + 4])


def bits(exact):
    """The 64 bits of the double that is exactly this fraction."""
    assert Fraction(float(exact)) == exact
    return struct.pack(">d", float(exact)).hex()


def signed(data):
    return int.from_bytes(data, "big", signed=True)


def instant_of(year, code):
    """The instant of a time code, None where it is not good in the year."""
    time = read_time(year, code)
    return None if time is None else time[1]


def column(body, k):
    return bytes(body[k * 16384 + 72:(k + 1) * 16384:128])


def kind(year, column):
    marks = set(column[96:104])
    if len(marks) == 1 and marks <= {1, 2, 3}:
        return marks.pop()
    return None if instant_of(year, column[96:103]) is None else 0


def is_cycle(year, body):
    """Request 7: four major frames of the kinds 0 to 3, each minor frame with its sync bytes and its number."""
    for frame in range(512):
        minor = body[frame * 128:(frame + 1) * 128]
        if minor[:3] != SYNC or minor[65] != frame % 128:
            return False
    return all(kind(year, column(body, k)) == k for k in range(4))


def refusal(year, body, k):
    if len(body) != CYCLE:
        return 2
    if not in_span(year):
        return 13
    if k > 3:
        return 6
    return 0 if is_cycle(year, body) else 17


def record_instant(year, body, k):
    """The time code moved by the book's seconds; None where that is no instant of the year."""
    instant = instant_of(year, column(body, 0)[96:103]) + SHIFTS[k] * 16000
    assert instant.denominator == 1
    return int(instant) if DAY <= instant < (last_day(year) + 1) * DAY else None


def number_1750(word):
    """The fraction of six bytes, None where they are not normalised."""
    if word == bytes(6):
        return Fraction(0)
    if word[0] >> 6 not in (1, 2):
        return None
    return Fraction(signed(word[:3] + word[4:])) * Fraction(2) ** (signed(word[3:4]) - 39)


def numbers(values):
    return ["number " + bits(v) for v in values]


def say_temperatures(year, body, k):
    refused = refusal(year, body, k)
    values = [Fraction(0)] * 4
    if not refused:
        c = column(body, k)
        words = [c[p:p + 2].hex() for p in (PLACES[k]["temp%d" % i] for i in (1, 2, 3, 4))]
        if all(w[0] == "0" for w in words):
            values = [50 - int(w[1:], 16) * Fraction(50, 4096) for w in words]
        else:
            refused = 9
    return ["temperatures %d" % refused] + numbers(values)


def dated(year, body, k):
    """The refusal number of a record with an instant, and the instant."""
    refused = refusal(year, body, k)
    if refused:
        return refused, 0
    instant = record_instant(year, body, k)
    return (8, 0) if instant is None else (0, instant)


def say_gyro_drift(year, body):
    refused, instant = dated(year, body, 0)
    c = None if refused else column(body, 0)
    values = [0] * 3 if refused else [word(c, 0, "theta" + axis) / Fraction(2) ** 47 for axis in ("bx", "by", "bz")]
    return ["gyro drift %d at %d" % (refused, instant)] + numbers(map(Fraction, values))


def say_attitude(year, body, k):
    refused, instant = dated(year, body, k)
    c = None if refused else column(body, k)
    values = [0] * 4 if refused else [word(c, k, name) for name in EULER]
    return ["attitude %d at %d %s" % (refused, instant, " ".join(str(v + 2 ** 31) for v in values))]


def say_clock(year, body):
    refused = refusal(year, body, 0)
    updated, counts = Fraction(0), (0, 0, 0)
    if not refused:
        c = column(body, 0)
        update, drift = PLACES[0]["lastsvclockupdate"], PLACES[0]["svclockdrift"]
        exact = number_1750(c[update:update + 6])
        if exact is None:
            refused = 10
        else:
            updated, counts = exact, tuple(int.from_bytes(c[p:p + 2], "big") for p in (drift, drift + 2, drift + 4))
    return ["clock %d bias %d rate %d acceleration %d" % ((refused,) + counts)] + numbers([updated])


def say_ephemeris(year, body, k):
    refused, instant = dated(year, body, k)
    values = [Fraction(0)] * 6
    if not refused:
        c = column(body, k)
        weights = (Fraction(1, 2 ** 8),) * 3 + (Fraction(1, 2 ** 28),) * 3
        values = [word(c, k, name) * w for name, w in zip(EPHEMERIS, weights)]
    return ["ephemeris %d at %d" % (refused, instant)] + numbers(values)


class Bench:
    """The program's area, its input so far, and the lines that it is to write."""

    def __init__(self):
        self.area = bytearray(ROOM)
        self.input, self.lines = bytearray(), []

    def record(self, operation, n=0, value=0, k=0):
        self.input += bytes((operation, 0, 0, 0)) + struct.pack(">IQQ", n, value, k)

    def load(self, columns):
        self.record(1)
        words = b"".join(columns)
        assert len(words) == 512
        self.input += words
        for frame in range(512):
            start = frame * 128
            self.area[start:start + 3] = SYNC
            self.area[start + 65] = frame % 128
            self.area[start + 72] = words[frame]

    def patch(self, place, value):
        self.record(2, place, value)
        self.area[place] = value

    def ask(self, year, k, n=CYCLE):
        self.record(3, n, year, k)
        body = self.area[:n]
        self.lines += say_temperatures(year, body, k)
        self.lines += say_gyro_drift(year, body)
        self.lines += say_attitude(year, body, k)
        self.lines += say_clock(year, body)
        self.lines += say_ephemeris(year, body, k)


EDGES = tuple(bytes.fromhex(h) for h in ("00000000", "00000001", "ffffffff", "80000000", "7fffffff", "80000001", "00800000", "ff7fffff", "00010000"))
WORDS_1750 = tuple(bytes.fromhex(h) for h in ("400000010000", "800000000000", "a00000000000", "000000000000", "7fffff7fffff", "5dcb9118a5c3"))
BAD_1750 = tuple(bytes.fromhex(h) for h in ("c00000000000", "000000010000", "3fffff7fffff", "ffffffffffff"))


def time_code(day, hour=12, minute=34, second=56, milli=789, sixteenths=15, spacecraft=7):
    return bytes.fromhex("%x%03d%02d%02d%02d%03d%x" % (spacecraft, day, hour, minute, second, milli, sixteenths))


def made_columns(rng, code, words=None):
    """Four columns with random values, or the given 32-bit words in turn wherever a record has one."""
    columns = []
    for k in range(4):
        c = bytearray(rng.randrange(256) for _ in range(128))
        if words:
            for i, p in enumerate(range(0, 96, 4)):
                c[p:p + 4] = words[(i + k) % len(words)]
            for i, name in enumerate(EPHEMERIS):
                p = PLACES[k][name]
                c[p:p + 4] = words[(i * 2 + k) % len(words)]
        for p in (108, 110, 112, 114):
            c[p:p + 2] = rng.choice((0, 1, 2047, 2048, 4094, 4095, rng.randrange(4096))).to_bytes(2, "big")
        if k == 0:
            c[28:34] = rng.choice(WORDS_1750)
            c[96:103] = code
        else:
            c[96:104] = bytes((k,)) * 8
        columns.append(bytes(c))
    return columns


def shown(bench, rng):
    """The record that the README shows: major frame 3 of a cycle with 01's time code."""
    columns = [bytearray(c) for c in made_columns(rng, bytes.fromhex("7123045607890f"))]
    columns[3][16:40] = bytes.fromhex("13c84a9f b3848680 49bfba40 e6000000 4c200000 57080000")
    bench.load(columns)
    bench.ask(2000, 3)
    exact = map(Fraction, ("1296458.62109375", "-5012345.5", "4833210.25", "-1.625", "4.7578125", "5.439453125"))
    assert bench.lines[-7:] == ["ephemeris 0 at 170319551791"] + numbers(exact)


def values(bench, rng):
    """Counts at their edges in every place, and random ones; each major frame."""
    for turn in range(len(EDGES)):
        bench.load(made_columns(rng, time_code(100 + turn), EDGES[turn:] + EDGES[:turn]))
        for k in range(4):
            bench.ask(2000, k)
    for turn in range(12):
        bench.load(made_columns(rng, time_code(rng.randint(2, 364), rng.randrange(24), rng.randrange(60), rng.randrange(60), rng.randrange(1000),
                                               rng.randrange(16), rng.randrange(16))))
        for k in range(4):
            bench.ask(rng.choice(INSIDE), k)


def instants(bench, rng):
    """Instants next to the first and the last of a year, in common and leap years."""
    first = [(0, 0, 0, 0, 0), (0, 0, 0, 0, 1), (0, 0, 4, 95, 15), (0, 0, 4, 96, 0), (0, 0, 8, 191, 15), (0, 0, 8, 192, 0)]
    last = [(23, 59, 59, 999, 15), (23, 59, 55, 903, 15), (23, 59, 55, 904, 0), (23, 59, 55, 903, 0)]
    for year in (1999, 2000, 2001, 2004, 2099):
        for day, clocks in ((1, first), (last_day(year), last), (365, last)):
            for clock in clocks:
                bench.load(made_columns(rng, time_code(day, *clock)))
                for k in range(4):
                    bench.ask(year, k)


def refusals(bench, rng):
    """Every refusal, and which comes first where several apply."""
    good = made_columns(rng, time_code(200))
    for n in (0, 1, 16384, CYCLE - 1, CYCLE + 1, ROOM):
        bench.load(good)
        bench.ask(1998, 4, n)
    for year in OUTSIDE:
        bench.ask(year, 4)
        bench.ask(year, 0)
    for k in (4, 5, 255, 256, 1 << 32, (1 << 64) - 1):
        bench.ask(2000, k)
        bench.ask(2001, k)
    for place, value in ((0, 0xfb), (65, 1), (128 * 511 + 2, 0x21), (128 * 300 + 65, 0), (72 + 128 * 96, 0xf4), (72 + 128 * 97, 0xaa),
                         (16384 + 72 + 128 * 103, 2), (3 * 16384 + 72 + 128 * 96, 1)):
        bench.load(good)
        bench.patch(place, value)
        bench.ask(2000, 2)
        bench.ask(2000, 4)
    for k in range(4):
        for place in (108, 110, 112, 114):
            for upper in (0x10, 0x80, 0xf0):
                bench.load(good)
                bench.patch(k * 16384 + place * 128 + 72, upper | 5)
                bench.ask(2000, k)
                bench.ask(2000, (k + 1) % 4)
    for word in BAD_1750:
        bench.load(good)
        for i, b in enumerate(word):
            bench.patch((28 + i) * 128 + 72, b)
        bench.ask(2000, 0)
    # Day 366 of a common year is no cycle at all.
    bench.load(made_columns(rng, time_code(366)))
    for year in (1999, 2000, 2001, 2096):
        bench.ask(year, 2)


def main():
    rng = random.Random(26)
    bench = Bench()
    shown(bench, rng)
    values(bench, rng)
    instants(bench, rng)
    refusals(bench, rng)
    stored.keep(CRATE, {"stdin": bytes(bench.input), "stdout": ("\n".join(bench.lines) + "\n").encode()})


if __name__ == "__main__":
    main()
