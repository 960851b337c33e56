#!/usr/bin/env python3
"""The items of word 72, derived from the book's tables as printed (tests/word72_tables.txt) by the rules of paper 01.

Run from the repository's root:
  python3 tests/word72_items.py                 writes the items, a line each: kind,item,first,length,form,description
  python3 tests/word72_items.py --compare FILE  says whether FILE has the same items (its description column is not compared)
tests/word72_vectors.py takes the items from here; the program that it makes vectors for prints the library's own.

The rules:
- neighbouring places with one description are one item (letter case, blanks and leading zeros of a binary number do not count);
- "First 8 bits of X" to "Sixth 8 bits of X" are one six-byte number;
- "Bits 0-3 = 0000 ; Bits 4-7 = X" and the place after it are one 12-bit item;
- the other rows "Bits 0-3 = A; Bits 4-7 = B" are the time code of table 12;
- a description with "Zero Fill" or "Zeroes" is fill, one titled "Serial Word" is flags, and all others are counts."""
import os
import re
import sys
from typing import NamedTuple

TABLES = os.path.join(os.path.dirname(os.path.abspath(__file__)), "word72_tables.txt")
PLACES = 128


class Item(NamedTuple):
    kind: int
    number: int
    first: int
    length: int
    form: str
    description: str


def rows():
    """The printed rows: kind, first place, last place, description."""
    kind = None
    with open(TABLES, encoding="utf-8") as f:
        for line in f:
            title = re.match(r"TABLE \d+\. .*MAJOR FRAME \((\d)\)", line)
            row = re.match(r"(\d+)(?:-(\d+))?\t(.*)", line)
            if title:
                kind = int(title.group(1))
            elif row:
                first = int(row.group(1))
                yield kind, first, int(row.group(2) or first), row.group(3).strip()


def labelled(printed):
    """Each row with a label that neighbours of one item share, the item's form, and its description."""
    twelve = None
    for kind, first, last, text in printed:
        ordinal = re.match(r"(?:First|Second|Third|Fourth|Fifth|Sixth) 8 bits of (.*)", text)
        halves = re.match(r"Bits 0-3 ?= ?(.*?) ?; Bits 4-7 ?= ?(.*)", text)
        if twelve:
            label, form, name = twelve
            twelve = None
        elif halves and halves.group(1) == "0000":
            label, form, name = twelve = (("twelve", first), "twelve", halves.group(2))
        elif halves:
            label, form, name = ("time",), "time", "Spacecraft ID and time code"
        elif ordinal:
            label, form, name = ("number", ordinal.group(1)), "number", ordinal.group(1)
        elif re.fullmatch(r"[01]+", text):
            label, form, name = ("identifier", int(text, 2)), "count", "Major frame identifier %d" % int(text, 2)
        else:
            label, name = ("row", re.sub(r"\s", "", text).lower()), text
            form = "fill" if re.search(r"Zero Fill|Zeroes", text) else "flags" if text.startswith("Serial Word") else "count"
        yield kind, first, last, label, form, name


def items():
    """All items, in the order of kinds and places."""
    found = []
    before = None
    for kind, first, last, label, form, name in labelled(rows()):
        if before == (kind, first - 1, label):
            found[-1] = found[-1]._replace(length=last + 1 - found[-1].first)
        else:
            number = found[-1].number + 1 if found and found[-1].kind == kind else 0
            found.append(Item(kind, number, first, last + 1 - first, form, name))
        before = (kind, last, label)
    for kind in range(4):
        covered = [p for i in found if i.kind == kind for p in range(i.first, i.first + i.length)]
        assert covered == list(range(PLACES)), "the places of kind %d are not 0 to 127 in order" % kind
    return found


def compare(path):
    with open(path, encoding="utf-8") as f:
        stored = [tuple(line.rstrip("\n").split(",")[:5]) for line in f][1:]
    derived = [(str(i.kind), str(i.number), str(i.first), str(i.length), i.form) for i in items()]
    if stored != derived:
        sys.exit(path + " has other items")
    print("the same %d items" % len(derived))


def main():
    if sys.argv[1:2] == ["--compare"]:
        compare(sys.argv[2])
        return
    print("kind,item,first,length,form,description")
    for i in items():
        print("%d,%d,%d,%d,%s,%s" % i)


if __name__ == "__main__":
    main()
