#!/usr/bin/env python3
"""What pcd-items and pcd-orbit wrote of a scratched reel's frames, read as CSV by Python's own reader and held to the truth.

Run from the repository's root: python3 tests/read_csv.py FRAMES BOOK ITEMS ORBIT
Ends with status 1 where something differs. Of each file: the header, fields in every row, a value or a refusal in each. Of the items: every frame, its
items in order and without a gap over the 128 places of word 72, and the instants of the frames of kind 0. Of the records: each cycle of the book,
and the earliest instant of its records, that of its first major frame, two major frames of 4.096 s before its time code (docs/orbit.md)."""
import csv
import struct
import sys

MAJOR, PLACES, HEADER, ENTRY = 16384, 128, 4, 12
# Sixteenths of a millisecond.
MAJOR_TIME = 4096 * 16


def rows(path):
    with open(path, newline="") as f:
        table = list(csv.reader(f, strict=True))
    assert {len(row) for row in table} == {len(table[0])}, "rows of other lengths"
    return [dict(zip(table[0], row)) for row in table[1:]]


def value_or_refusal(row):
    assert (row["value"] == "") == (row["refusal"] != ""), row


def items(path, frames):
    table = rows(path)
    found = {}
    for row in table:
        value_or_refusal(row)
        found.setdefault(int(row["frame"]), []).append(row)
    assert sorted(found) == list(range(frames)), "other frames"
    for frame in found.values():
        at = 0
        for k, row in enumerate(frame):
            assert (int(row["item"]), int(row["first"])) == (k, at), row
            at += int(row["length"])
        assert at == PLACES
    return [int(row["value"]) for row in table if row["form"] == "time"]


def main():
    frames, book, items_csv, orbit_csv = sys.argv[1:]
    with open(frames, "rb") as f:
        count = len(f.read()) // MAJOR
    with open(book, "rb") as f:
        data = f.read()
    cycles = struct.unpack(">H", data[:2])[0]
    instants = [struct.unpack(">Q", data[HEADER + ENTRY * i:HEADER + ENTRY * i + 8])[0] for i in range(cycles)]
    assert set(instants) <= set(items(items_csv, count))
    table = rows(orbit_csv)
    for row in table:
        value_or_refusal(row)
    assert {int(row["cycle"]) for row in table} == set(range(cycles)), "other cycles"
    for k, instant in enumerate(instants):
        earliest = min(int(row["instant"]) for row in table if int(row["cycle"]) == k and row["instant"])
        assert earliest == instant - 2 * MAJOR_TIME, (k, earliest)


if __name__ == "__main__":
    main()
