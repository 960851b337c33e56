#!/usr/bin/env python3
"""Samples for the programs over books, with what each program must write.

Run from the repository's root: python3 tests/program_samples.py
It writes data/, args and stdout below crates/pcd_book_check, crates/pcd_find and crates/pcd_book_compare.
With --check it writes nothing and says whether the stored files are what it would write.

The books are put together here from their parts; that what is said of them is right follows from how each was made."""
import os
import struct
import sys

from stored import keep

MINOR, BODY = 128, 65536


# ---- Cycles and books

def code(day, hour, minute, second, milli, sixteenth=0, craft=7):
    """A time code: the digits one after the other (table 12)."""
    return bytes.fromhex("%x%03d%02d%02d%02d%03d%x" % (craft, day, hour, minute, second, milli, sixteenth))


def instant(day, hour, minute, second, milli, sixteenth=0):
    return ((((day * 24 + hour) * 60 + minute) * 60 + second) * 1000 + milli) * 16 + sixteenth


def body(time, mark=0):
    """Four major frames of kinds 0 to 3; the words that nothing fixes hold the mark."""
    out = bytearray()
    for kind in range(4):
        column = bytearray([mark]) * 128
        column[96:104] = code(*time) + b"\0" if kind == 0 else bytes([kind]) * 8
        for number in range(128):
            minor = bytearray([mark]) * MINOR
            minor[0:3] = b"\xFA\xF3\x20"
            minor[65] = number
            minor[72] = column[number]
            out += minor
    return bytes(out)


def book(year, times, marks=None):
    n = len(times)
    out = struct.pack(">HH", n, year)
    for i, time in enumerate(times):
        out += struct.pack(">QI", instant(*time), 4 + 12 * n + BODY * i)
    return out + b"".join(body(t, m) for t, m in zip(times, marks or [0] * n))


def changed(data, at, value):
    return data[:at] + bytes([value]) + data[at + 1:]


# ---- What the programs are run on

FIRST, SECOND, THIRD = (123, 4, 56, 7, 890, 15), (123, 4, 56, 24, 274), (366, 23, 59, 59, 999)
GOOD = book(2003, [FIRST])
PAIR = book(2000, [FIRST, THIRD])
FALLING = book(2003, [SECOND, FIRST])

WORDS = {
    13: "the year is outside 1999 to 2099",
    16: "the length is not that of so many cycles, or there are more than 255",
    17: "a body is not four major frames of kinds 0 to 3, each minor frame with its sync bytes and its number",
    18: "an entry's instant is not its body's, or does not rise",
    19: "an entry's offset is not where its body starts",
}


def store(crate, args, data, stdout):
    folder = os.path.join("crates", crate)
    os.makedirs(os.path.join(folder, "data"), exist_ok=True)
    files = {"args": "".join(word + "\n" for word in args).encode(), "stdout": stdout.encode()}
    files.update({os.path.join("data", name): content for name, content in data.items()})
    keep(folder, files)


def no(number, entry=None):
    return "no: refusal %d%s: %s" % (number, "" if entry is None else " at entry %d" % entry, WORDS[number])


def check():
    books = {
        "good": (GOOD, "yes"),
        "no-cycles": (book(1999, []), "yes"),
        "no-bytes": (b"", no(16)),
        "three-bytes": (b"\0\0\7", no(16)),
        "other-year": (book(2100, []), no(13)),
        "byte-behind": (book(2003, []) + b"\0", no(16)),
        "many-cycles": (struct.pack(">HH", 256, 2003), no(16)),
        "bad-body": (changed(GOOD, 16 + 128 * 5 + 65, 6), no(17, 0)),
        "falling": (FALLING, no(18, 1)),
    }
    # The status goes to standard output too, as the last line: 1, for not every book is accepted.
    store("pcd_book_check", ["1"] + list(books), {name: b for name, (b, _) in books.items()},
          "".join("%s: %s\n" % (name, said) for name, (_, said) in books.items()) + "1\n")


def find():
    """Around each instant of a book of two cycles, in a book of none, and in one that is refused."""
    books = {"pair": PAIR, "none": book(1999, []), "falling-year": struct.pack(">HH", 0, 1998)}
    first, last = instant(*FIRST), instant(*THIRD)
    # Halving a list of two looks at place 1, then, where that is above, at place 0.
    asked = [
        ("pair", first - 1, "none looks 2"),
        ("pair", first, "place 0 instant %d looks 2" % first),
        ("pair", last - 1, "place 0 instant %d looks 2" % first),
        ("pair", last, "place 1 instant %d looks 1" % last),
        ("pair", 9999999999999999999, "place 1 instant %d looks 1" % last),
        ("none", 0, "none looks 0"),
        ("falling-year", 0, None),
        ("absent", 0, None),
        ("none", "12x", None),
        ("none", "", None),
    ]
    store("pcd_find", ["1"] + [str(word) for name, wanted, _ in asked for word in (name, wanted)], books,
          "".join(said + "\n" for _, _, said in asked if said) + "1\n")


def compare():
    """Equal books, none of whose cycles are in both, some in both, and a byte at the end of a body."""
    books = {"pair": PAIR, "last": book(2000, [THIRD]), "none": book(2000, []), "other-year": book(2001, [])}
    books["last-byte"] = changed(books["last"], len(books["last"]) - 1, 9)
    first, last = instant(*FIRST), instant(*THIRD)
    asked = [
        ("pair", "pair", ""),
        ("none", "none", ""),
        ("pair", "last", "instant %d: only in the first\n" % first),
        ("last", "pair", "instant %d: only in the second\n" % first),
        ("pair", "none", "instant %d: only in the first\ninstant %d: only in the first\n" % (first, last)),
        ("last", "last-byte", "instant %d: in both, the first different byte is 65535\n" % last),
        ("last-byte", "pair", "instant %d: only in the second\ninstant %d: in both, the first different byte is 65535\n" % (first, last)),
        ("none", "other-year", ""),
        ("none", "absent", ""),
    ]
    # The highest status of all: 2, for the years of two books differ.
    store("pcd_book_compare", ["1"] + [name for first, second, _ in asked for name in (first, second)], books,
          "".join(said for _, _, said in asked) + "2\n")


if __name__ == "__main__":
    check()
    find()
    compare()
