#!/usr/bin/env python3
"""Vectors for the pay system's five entries, with the answers of an independent implementation.

Run from the repository's root: python3 tests/pay_vectors.py
It writes crates/pay_vectors/stdin (records) and crates/pay_vectors/stdout (a line for each call).
With --check it writes nothing and says whether the stored files are what it would write.

A record: the operation, the length of the lent answer, three copies, three zero bytes, how many bytes (8 bytes, first byte highest), a number (8
bytes).
  1, 2  vote by bytes, by bits      on the three copies
  3     the instant of a time       of so many of the first bytes, in the year
  4     a six-byte number           of so many of the first bytes
  5     find the number             among so many of the first bytes
  6     the first bytes             follow
  7     the same as instants        of a series: a first one, a step modulo 2^64, a modulus (8 bytes each follow)
An answer holds EE hex in twenty bytes, of which as many are lent; the line has what is returned and all twenty afterwards.

The answers are worked out from paper 02, request 14, by other means than the library's: a vote by counting how often a byte or a bit occurs, the
codecs by tests/codec_vectors.py, the lookup by tests/lookup_vectors.py, which cuts the list itself in two."""
import os
import random
import struct
import stored
from codec_vectors import any_year, good_code, read_number, read_time
from lookup_vectors import around, halve, rising
from years import INSIDE, OUTSIDE

CRATE = os.path.join("crates", "pay_vectors")
MOST = 100_000
LAST = (1 << 64) - 1
BYTES, BITS, INSTANT, NUMBER, FIND, LOAD, SERIES = range(1, 8)


def vote_bytes(copies):
    return next((b for b in copies if copies.count(b) > 1), 256)


def vote_bits(copies):
    columns = zip(*("{:08b}".format(b) for b in copies))
    return int("".join(max("01", key=column.count) for column in columns), 2)


def codec(text):
    """Refusal number and result of what a codec's line says; a time without its spacecraft."""
    what, value = text.split()[0], text.split()[-1]
    return {"refused": lambda: (int(value), 0), "time": lambda: (0, int(value)), "number": lambda: (0, int(value, 16))}[what]()


def find(data, wanted):
    if len(data) % 8:
        return 2, 0
    instants = struct.unpack(">%dQ" % (len(data) // 8), data)
    if len(instants) > MOST:
        return 12, 0
    count, looks = halve(instants, wanted)
    return 0, count << 32 | looks


def answer(operation, lent, copies, data, value):
    held = b"\xee" * 20
    if lent != 16:
        return "2 " + held.hex()
    number, result = {
        BYTES: lambda: (0, vote_bytes(copies)),
        BITS: lambda: (0, vote_bits(copies)),
        INSTANT: lambda: codec(read_time(value, data)),
        NUMBER: lambda: codec(read_number(data)),
        FIND: lambda: find(data, value),
    }[operation]()
    return "%d %s" % (number, (struct.pack(">QQ", number, result) + held[16:]).hex())


def record(operation, lent, copies, n, value):
    return struct.pack(">BB3B3xQQ", operation, lent, *copies, n, value)


def call(operation, lent=16, copies=(0, 0, 0), data=b"", value=0):
    return record(operation, lent, copies, len(data), value), answer(operation, lent, copies, data, value)


def load(data):
    return record(LOAD, 0, (0, 0, 0), len(data), 0) + data, None


def calls(operation, data, values, lent=16):
    yield load(data)
    for value in values:
        yield call(operation, lent, data=data, value=value)


def votes(rng):
    telling = (0, 1, 0x0F, 0x16, 0x55, 0x80, 0xFE, 0xFF)
    for operation in (BYTES, BITS):
        for copies in ((a, b, c) for a in telling for b in telling for c in telling if (a + b + c) % 3 == 0 or len({a, b, c}) < 3):
            yield call(operation, copies=copies)
        for _ in range(100):
            yield call(operation, copies=tuple(rng.randrange(256) for _ in range(3)))


def times(rng):
    for year in INSIDE + OUTSIDE:
        for text in ("7123045607890f", "73650000000000", "73662359599999", "73670000000000", "7a66000000000f", "00010000000000"):
            yield from calls(INSTANT, bytes.fromhex(text), [year])
    for n in (0, 1, 6, 8, 14):
        # 2 goes before 13 and 8.
        yield from calls(INSTANT, bytes(rng.randrange(256) for _ in range(n)), [2000, 1998, LAST])
    for _ in range(120):
        code = bytearray(good_code(rng))
        if rng.randrange(2):
            code[rng.randrange(7)] = rng.randrange(256)
        yield from calls(INSTANT, bytes(code), [any_year(rng)])


def numbers(rng):
    for text in ("000000000000", "400000000000", "400000010000", "800000000000", "7fffff7fffff", "bfffff80ffff", "640000040000", "000000000001",
                 "c00000000000", "3fffff00ffff", "40000080ffff"):
        yield from calls(NUMBER, bytes.fromhex(text), [0])
    for n in (0, 1, 5, 7, 12):
        yield from calls(NUMBER, bytes(rng.randrange(256) for _ in range(n)), [0])
    for _ in range(160):
        yield from calls(NUMBER, bytes(rng.randrange(256) for _ in range(6)), [0])


def packed(instants):
    return struct.pack(">%dQ" % len(instants), *instants)


def searches(rng):
    yield from calls(FIND, b"", [0, 7, LAST])
    for n in (1, 2, 3, 7, 8, 9, 16, 31):
        instants = rising(rng, n)
        yield from calls(FIND, packed(instants), around(instants))
    # One byte of each place alone: which is highest is seen. Out of order; equal neighbours.
    yield from calls(FIND, packed([1 << 8 * k for k in range(8)]), [(1 << 8 * k) + d for k in range(8) for d in (-1, 0, 1)])
    for _ in range(4):
        yield from calls(FIND, packed([rng.randrange(60) for _ in range(25)]), range(0, 61, 5))
        yield from calls(FIND, bytes(rng.randrange(256) for _ in range(8 * 20)), [rng.randrange(1 << 64) for _ in range(10)])
    for n in (1, 4, 7, 9, 15, 17, 23, 161):
        yield from calls(FIND, bytes(rng.randrange(256) for _ in range(n)), [0, LAST])
    # As many as the lookup takes, one and two more; lengths at which the binary digits change; no multiple of eight, which goes before 12.
    for n in (65_535, 65_536, 99_999, MOST, MOST + 1, MOST + 2):
        data = packed([3 + 7 * i for i in range(n)])
        yield record(SERIES, 0, (0, 0, 0), len(data), 0) + struct.pack(">QQQ", 3, 7, LAST), None
        for wanted in (0, 2, 3, 4, 3 + 7 * (n // 2), 3 + 7 * (n - 1) - 1, 3 + 7 * (n - 1), LAST, rng.randrange(7 * n), rng.randrange(7 * n)):
            yield call(FIND, data=data, value=wanted)
        yield call(FIND, data=data[:-3], value=LAST)
        yield call(FIND, data=data[:-8], value=LAST)


def other_lengths(rng):
    """Answers of other lengths, with what is accepted and what is refused beside."""
    for lent in [n for n in range(21) if n != 16]:
        for operation in (BYTES, BITS):
            yield call(operation, lent, copies=(1, 2, 3))
        for operation, data, value in ((INSTANT, bytes.fromhex("7123045607890f"), 2000), (INSTANT, bytes(6), 1998), (NUMBER, bytes(6), 0),
                                       (NUMBER, bytes(5), 0), (FIND, packed([1, 2, 3]), 2), (FIND, bytes(7), 2)):
            yield from calls(operation, data, [value], lent)


def records():
    rng = random.Random(14)
    for part in (votes, times, numbers, searches, other_lengths):
        yield from part(rng)


def main():
    stored.keep_records(CRATE, list(records()))


if __name__ == "__main__":
    main()
