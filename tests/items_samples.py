#!/usr/bin/env python3
"""Samples for pcd-items, and vectors for the text of doubles, with what the programs must write.

Run from the repository's root: python3 tests/items_samples.py
It writes args, stdin and stdout below crates/pcd_items, and stdin and stdout below crates/double_vectors.
With --check it writes nothing and says whether the stored files are what it would write.

The lines are worked out by other means than the library's: the items and their descriptions come from the book's tables (tests/word72_items.py), the
readings from tests/word72_vectors.py, the fields are quoted by Python's csv module, and a double is written out by Python's decimal module, which
gives all of its digits. Every text of a double is read again by Python's float, which must give the same double."""
import csv
import io
import os
import random
import struct
from decimal import Decimal

from stored import keep
from word72_items import items
from word72_vectors import area_of, bad, column_of, good, read_number, say_kind
from years import read_time

YEAR = 2000
FIELDS = ("frame", "kind", "item", "first", "length", "form", "description", "value", "spacecraft", "time", "refusal", "refusal_means")
FORMS = {"count": "count", "twelve": "12-bit count", "flags": "flags", "number": "number", "time": "time", "fill": "fill"}
MEANS = {
    6: "the kind is above 3, or the column has none",
    8: "a digit or a field of a time is out of range",
    9: "the upper four bits of a 12-bit item are not 0",
    10: "a six-byte number is not normalised",
}


def double_text(x):
    """All decimal digits of a double, and no exponent."""
    if x != x or x in (float("inf"), float("-inf")):
        return "%f" % x
    text = format(Decimal(x), "f")
    assert struct.pack(">d", float(text)) == struct.pack(">d", x)
    return text


def clock_text(data):
    """A time code's own digits: the day, then hours, minutes, seconds, milliseconds and sixteenths."""
    text = data.hex()
    seconds = int(text[8:13] + "0000") + int(text[13], 16) * 625
    return "%d-%sT%s:%s:%010.7f" % (YEAR, text[1:4], text[4:6], text[6:8], Decimal(seconds) / 10**7)


def value(item, data):
    """The last five fields: value, spacecraft, time, refusal, meaning."""
    refused = lambda number: ("", "", "", number, MEANS[number])
    if item.form == "fill" or (item.form == "count" and len(data) > 8):
        return ("x" + data.hex(), "", "", "", "")
    if item.form == "flags":
        return ("b" + bin(256 + data[0])[3:], "", "", "", "")
    if item.form == "twelve":
        return refused(9) if data[0] > 15 else (int.from_bytes(data, "big"), "", "", "", "")
    if item.form == "number":
        number = read_number(data)
        return refused(10) if number is None else (double_text(number), "", "", "", "")
    if item.form == "time":
        time = read_time(YEAR, data)
        return refused(8) if time is None else (time[1], time[0], clock_text(data), "", "")
    return (int.from_bytes(data, "big"), "", "", "", "")


def written(row):
    """A line as Python's csv module writes it; what a refusal means always stands in quotes."""
    out = io.StringIO()
    csv.writer(out, lineterminator="\n").writerow(row[:-1])
    last = '"%s"' % row[-1] if row[-1] else ""
    return out.getvalue().rstrip("\n") + "," + last + "\n"


def frame_lines(frame, area):
    column = area[72::128]
    kind = say_kind(YEAR, column)
    if not kind.startswith("kind"):
        return [written((frame,) + ("",) * 9 + (6, MEANS[6]))]
    return [
        written((frame, i.kind, i.number, i.first, i.length, FORMS[i.form], i.description) + value(i, column[i.first:i.first + i.length]))
        for i in items() if "kind %d" % i.kind == kind
    ]


# ---- Frames: a whole cycle of good values, a cycle of refused ones, a frame of no kind; and three bytes behind the last frame

def timed(area):
    """A frame of kind 0 whose other items are refused keeps a good time, or it would have no kind."""
    area = bytearray(area)
    for place, byte in enumerate(bytes.fromhex("73662359599999")):
        area[72 + 128 * (96 + place)] = byte
    return bytes(area)


def frames():
    rng = random.Random(27)
    cycle = [area_of(rng, column_of(rng, kind, good)) for kind in range(4)]
    refused = [area_of(rng, column_of(rng, kind, bad)) for kind in range(4)]
    refused[0] = timed(refused[0])
    return cycle + refused + [bytes(16384)]


# ---- Doubles: bounds of the format, powers of two, and bits of every sort

def doubles():
    rng = random.Random(64)
    bits = [0, 1 << 63, 1, (1 << 52) - 1, 1 << 52, (1 << 52) + 1, 0x7FEF_FFFF_FFFF_FFFF, 0xFFEF_FFFF_FFFF_FFFF, 0x7FF0_0000_0000_0000,
            0xFFF0_0000_0000_0000, 0x7FF8_0000_0000_0000, 0xFFF8_0000_0000_0001]
    bits += [struct.unpack(">Q", struct.pack(">d", x))[0] for x in (1.0, -1.0, 0.5, 0.1, -0.1, 10.0, 1e22, 1e23, 2.0**53, 2.0**64, 123456.789, 1 / 3)]
    bits += [(1023 + e) << 52 for e in (-1022, -129, -64, -1, 1, 51, 52, 53, 63, 64, 127, 1023)]
    bits += [rng.randrange(1 << 64) for _ in range(40)]
    bits += [(rng.randrange(2) << 63) + (rng.randrange(894, 1151) << 52) + (rng.randrange(1 << 38) << 14) for _ in range(60)]
    return bits


def main():
    data = frames()
    header = ",".join(FIELDS) + "\n"
    lines = [line for frame, area in enumerate(data) for line in frame_lines(frame, area)]
    # The last bytes are no whole frame, so the status, which goes to standard output here, is 1.
    keep(os.path.join("crates", "pcd_items"), {
        "args": ("1\n%d\n" % YEAR).encode(),
        "stdin": b"".join(data) + b"\0\0\0",
        "stdout": (header + "".join(lines) + "1\n").encode(),
    })
    text = "".join(double_text(struct.unpack(">d", struct.pack(">Q", b))[0]) + "\n" for b in doubles())
    keep(os.path.join("crates", "double_vectors"), {"stdin": b"".join(struct.pack(">Q", b) for b in doubles()), "stdout": text.encode()})
    print(len(lines), "items,", len(doubles()), "doubles")


if __name__ == "__main__":
    main()
