#!/usr/bin/env python3
"""Vectors for the time code and the six-byte number, with the answers of an independent implementation.

Run from the repository's root: python3 tests/codec_vectors.py
It writes crates/codec_vectors/stdin (records of 32 bytes) and crates/codec_vectors/stdout (a line for each).
With --check it writes nothing and says whether the stored files are what it would write.

A record: the operation, the length of the lent slice, the year (8 bytes, first byte highest; 0 where none is asked for), then 22 bytes of
operands, zero-padded.
  1  read a time code         the bytes
  2  write a time code        spacecraft (8 bytes, first byte highest), instant (8 bytes)
  3  read a six-byte number   the bytes
  4  write a six-byte number  the double's bits (8 bytes)
A slice that is written to holds A5 hex before the call, and the line shows all of it afterwards.

The answers are worked out from the papers by other means than the library's: a time code as a string of digits, a year's last day by the
calendar, a number as an exact fraction, and the word of a double by trying every exponent."""
import os
import random
import struct
from fractions import Fraction
import stored
from years import INSIDE, OUTSIDE, in_span, last_day

CRATE = os.path.join("crates", "codec_vectors")
DAY = 24 * 3600 * 1000 * 16


def read_time(year, code):
    if len(code) != 7:
        return "refused 2"
    if not in_span(year):
        return "refused 13"
    text = code.hex()
    if not text[1:13].isdigit():
        return "refused 8"
    day, hour, minute, second, milli = (int(text[a:b]) for a, b in ((1, 4), (4, 6), (6, 8), (8, 10), (10, 13)))
    if not (1 <= day <= last_day(year) and hour < 24 and minute < 60 and second < 60):
        return "refused 8"
    seconds = day * 86400 + hour * 3600 + minute * 60 + second
    return "time %d %d" % (int(text[0], 16), (seconds * 1000 + milli) * 16 + int(text[13], 16))


def write_time(year, spacecraft, instant, length):
    untouched = "[%s] refused " % ("a5" * length)
    if length != 7:
        return untouched + "2"
    if not in_span(year):
        return untouched + "13"
    if spacecraft > 15 or not DAY <= instant < (last_day(year) + 1) * DAY:
        return untouched + "8"
    millis, sixteenth = divmod(instant, 16)
    seconds, milli = divmod(millis, 1000)
    minutes, second = divmod(seconds, 60)
    hours, minute = divmod(minutes, 60)
    day, hour = divmod(hours, 24)
    return "[%x%03d%02d%02d%02d%03d%x] written" % (spacecraft, day, hour, minute, second, milli, sixteenth)


def value(word):
    """The number that six bytes stand for, or None where they are not normalised."""
    if word == bytes(6):
        return Fraction(0)
    m = int.from_bytes(word[:3] + word[4:], "big", signed=True)
    e = int.from_bytes(word[3:4], "big", signed=True)
    if word[0] >> 6 not in (1, 2):
        return None
    return Fraction(m) * Fraction(2) ** (e - 39)


def read_number(word):
    if len(word) != 6:
        return "refused 2"
    v = value(word)
    if v is None:
        return "refused 10"
    double = float(v)
    assert Fraction(double) == v
    return "number %016x" % struct.unpack(">Q", struct.pack(">d", double))[0]


def write_number(bits, length):
    untouched = "[%s] refused " % ("a5" * length)
    if length != 6:
        return untouched + "2"
    double = struct.unpack(">d", struct.pack(">Q", bits))[0]
    if bits == 0:
        return "[%s] written" % bytes(6).hex()
    if bits % (1 << 63) >= 0x7FF << 52 or double == 0:
        return untouched + "11"
    for e in range(-128, 128):
        m = Fraction(double) * Fraction(2) ** (39 - e)
        if m.denominator == 1 and (1 << 38 <= m < 1 << 39 or -(1 << 39) <= m < -(1 << 38)):
            raw = int(m).to_bytes(5, "big", signed=True)
            return "[%s] written" % (raw[:3] + e.to_bytes(1, "big", signed=True) + raw[3:]).hex()
    return untouched + "11"


def good_code(rng):
    day = rng.choice((1, 9, 10, 99, 100, 365, 366, rng.randint(1, 366)))
    parts = (rng.randrange(16), day, rng.randrange(24), rng.randrange(60), rng.randrange(60), rng.randrange(1000), rng.randrange(16))
    return bytes.fromhex("%x%03d%02d%02d%02d%03d%x" % parts)


def any_year(rng):
    return rng.choice(OUTSIDE if rng.randrange(8) == 0 else INSIDE + (rng.randint(1999, 2099),))


def time_codes(rng):
    """Years and codes: the last days of every year among them, and which refusal comes first."""
    for year in INSIDE + OUTSIDE:
        yield year, bytes.fromhex("7123045607890f")
        for first in ("7000", "7001", "7365", "7366", "7367", "7399", "f366", "0001"):
            yield year, bytes.fromhex(first + "0000000000")
        yield year, bytes.fromhex("73662359599999")
        yield year, bytes.fromhex("7a66000000000f")
        for n in (0, 1, 6, 8, 22):
            yield year, bytes(rng.randrange(256) for _ in range(n))
    for year in range(1997, 2103):
        yield year, bytes.fromhex("73662359599999")
    for code in ("71232400000000", "71230060000000", "71230000600000", "71232359599999", "712323595999ff"):
        yield 2000, bytes.fromhex(code)
    for _ in range(300):
        yield any_year(rng), good_code(rng)
    for _ in range(300):
        broken = bytearray(good_code(rng))
        broken[rng.randrange(7)] = rng.randrange(256)
        yield any_year(rng), bytes(broken)
    for _ in range(40):
        yield any_year(rng), bytes(rng.randrange(256) for _ in range(7))


def instants(rng):
    for year in (2000, 2001):
        for instant in (0, DAY - 1, DAY, DAY + 1, 366 * DAY - 1, 366 * DAY, 367 * DAY - 1, 367 * DAY, (1 << 64) - 1, 170319486255):
            for spacecraft in (0, 7, 15, 16, 256, (1 << 64) - 1):
                yield year, spacecraft, instant, 7
    for year in INSIDE + OUTSIDE:
        for instant in (366 * DAY - 1, 366 * DAY, 367 * DAY - 1, 367 * DAY):
            yield year, 7, instant, 7
        for length in (0, 6, 8, 22):
            yield year, 7, 170319486255, length
            yield year, 16, 0, length
    for _ in range(300):
        yield any_year(rng), rng.randrange(18), rng.randrange(370 * DAY), 7


def words(rng):
    for text in ("400000010000", "800000000000", "a00000000000", "c00000000000", "000000000000", "000000010000", "000001000000",
                 "400000800000", "4000007f0000", "7fffff7fffff", "7fffff80ffff", "8000007f0000", "800000800000", "bfffff7fffff",
                 "bfffff80ffff", "3fffff7fffff", "c00000800000", "ffffffffffff"):
        yield bytes.fromhex(text)
    for n in (0, 5, 7, 22):
        yield bytes(rng.randrange(256) for _ in range(n))
    for e in range(256):
        yield bytes((rng.randrange(0x40, 0xC0), rng.randrange(256), rng.randrange(256), e, rng.randrange(256), rng.randrange(256)))
    for _ in range(300):
        yield bytes(rng.randrange(256) for _ in range(6))


def doubles(rng):
    def bits(x):
        return struct.unpack(">Q", struct.pack(">d", float(x)))[0]

    members = [Fraction(2) ** -129, -Fraction(2) ** -129, Fraction(2) ** -130, -Fraction(2) ** -128, Fraction(2) ** 126, -Fraction(2) ** 126,
               Fraction(2) ** 127, -Fraction(2) ** 127, -Fraction(2) ** 128]
    largest = Fraction((1 << 39) - 1) * Fraction(2) ** (127 - 39)
    smallest_below = -Fraction((1 << 38) + 1) * Fraction(2) ** (-128 - 39)
    members += [largest, -largest, smallest_below, -smallest_below]
    for v in members:
        for step in (0, 1, -1, 1 << 13, 1 << 14, -(1 << 14)):
            yield bits(v) + step, 6
    for b in (0, 1 << 63, 0x7FF << 52, 0xFFF << 52, (0x7FF << 52) + 1, (0xFFF8 << 48), (1 << 64) - 1, 1, (1 << 63) + 1, (1 << 52) - 1, 1 << 52,
              0x7FEFFFFFFFFFFFFF):
        yield b, 6
    for length in (0, 5, 7, 22):
        yield 0x3FF << 52, length
        yield 1 << 63, length
    for e in range(-132, 132):
        m = rng.randrange(1 << 38, 1 << 39)
        sign = rng.choice((1, -1))
        yield bits(sign * Fraction(m) * Fraction(2) ** (e - 39)), 6
        yield bits(sign * Fraction(2) ** e), 6
    for _ in range(150):
        yield rng.getrandbits(64), 6


def records():
    rng = random.Random(1750)
    for year, code in time_codes(rng):
        yield 1, len(code), year, code, read_time(year, code)
    for year, spacecraft, instant, length in instants(rng):
        yield 2, length, year, struct.pack(">QQ", spacecraft, instant), write_time(year, spacecraft, instant, length)
    for word in words(rng):
        yield 3, len(word), 0, word, read_number(word)
    for bits, length in doubles(rng):
        yield 4, length, 0, struct.pack(">Q", bits), write_number(bits, length)


def main():
    rows = list(records())
    files = {
        "stdin": b"".join(bytes((op, length)) + struct.pack(">Q", year) + operands.ljust(22, b"\0") for op, length, year, operands, _ in rows),
        "stdout": "".join(line + "\n" for _, _, _, _, line in rows).encode(),
    }
    stored.keep(CRATE, files)
    print(len(rows), "vectors")


if __name__ == "__main__":
    main()
