#!/usr/bin/env python3
"""Writes samples/reel.pcd: a short unpacked stream with one whole major frame and some damage after it.

Run from the repository's root: python3 tests/sample_reel.py
A lead-in, minor frames 0 to 127, then frame 0 with one bad copy, frame 1 with a word whose three copies differ, frame 2, some noise
outside groups, and half of a frame. Counted by hand: 1 major frame, 130 good minor frames (the first 128 of the major frame, one run of
one that the damaged frame cuts short, one loose), 1 damaged."""
import random

SYNC, FILL = 0x16, 0x32
rng = random.Random(7)


def group(word, spacing):
    return [SYNC, word, word, word] + [FILL] * spacing


def minor(number):
    words = [0xFA, 0xF3, 0x20] + [rng.randrange(256) for _ in range(125)]
    words[65] = number
    return words


def stream(words, spacing):
    return [b for word in words for b in group(word, spacing)]


def main():
    out = stream([0xFA, 0xF3, 0x20], 5)
    for number in range(128):
        out += stream(minor(number), 0)
    bad_copy = stream(minor(0), 0)
    bad_copy[4 * 100 + 2] ^= 0x40
    erased = stream(minor(1), 0)
    erased[4 * 90 + 1:4 * 90 + 4] = [1, 2, 3]
    out += bad_copy + erased + stream(minor(2), 5) + [0x55, 0xAA] + stream(minor(3)[:64], 5)
    with open("samples/reel.pcd", "wb") as f:
        f.write(bytes(out))


if __name__ == "__main__":
    main()
