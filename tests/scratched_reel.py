#!/usr/bin/env python3
"""A simulated scratched reel, and the truth that it was made from.

Run from the repository's root: python3 tests/scratched_reel.py FOLDER
It writes below the folder
    reel       six cycles as they come off a head: begun in the middle of a minor frame, no lead-in, the spacing of the book's cycle, and damage
    truth      the book of all six cycles
    kept       the book of the cycles that the damage leaves whole
    frames     the major frames that it leaves whole, one after the other
    asked      a line for each cycle of the truth: its instant, and the place and the instant of the last cycle kept at or before it

The damage: a head that drops the second copy in one group of three, other bad copies, noise between two cycles, a word of the third cycle that all
three copies give differently, and a word of the fifth that is lost. So one major frame of each of these two cycles is lost, and no other."""
import os
import random
import struct
import sys

sys.dont_write_bytecode = True
import book_vectors
from labelling import SYNC, SYNC_WORDS
from program_samples import code, instant
from reader_vectors import HOLE, group

YEAR = 2003
TIMES = [(123, 4, 56, 7, 890, 15)] + [(123, 4, 56, 24 + 16 * k, 274, k) for k in range(2)] + [(200, 0, 0, 16 * k, 384 * k % 1000, 0) for k in range(3)]
MINOR, MAJOR, FRAMES = 128, 16384, 4
# The cycles that lose a major frame, and which: a word that no two copies agree on, and a lost word.
ERASED, SLIPPED = (2, 1), (4, 3)


def conforming(body):
    """Word 3 of a minor frame is the high byte of an ADS value, below 16; FA F3 20 stands at its head alone (DFCB table 10-1)."""
    for at in range(0, len(body), MINOR):
        body[at + 3] %= 16
        for k in range(at + 4, at + MINOR - 2):
            if list(body[k:k + 3]) == SYNC_WORDS:
                body[k] = 0
    return bytes(body)


def groups(words, rng):
    """The words as they come: five FILL after a group and now and then six (DFCB 3.2.7.1), and bad copies."""
    for word in words:
        data = bytearray(group(word, rng, 0.02))
        if word is not HOLE and rng.random() < 1 / 3:
            data = bytearray([SYNC, word, rng.randrange(256), word])
        yield bytes(data) + b"\x32" * (6 if rng.random() < 0.004 else 5)


def lost(major):
    return major in (ERASED, SLIPPED)


def reel(bodies, rng):
    yield from groups([7] * 40 + list(bodies[0][3 * MAJOR + 126 * MINOR + 50:]), rng)
    for i, body in enumerate(bodies):
        for k in range(FRAMES):
            words = list(body[k * MAJOR:(k + 1) * MAJOR])
            if (i, k) == ERASED:
                words[60 * MINOR + 99] = HOLE
            if (i, k) == SLIPPED:
                del words[77 * MINOR + 40]
            yield from groups(words, rng)
        if i == 0:
            yield bytes(b for b in rng.randbytes(5000) if b != SYNC)


def main():
    folder = sys.argv[1]
    rng = random.Random(2003)
    bodies = [conforming(book_vectors.made(seed, code(*time) + b"\0")) for seed, time in enumerate(TIMES)]
    whole = [i for i in range(len(bodies)) if not any(lost((i, k)) for k in range(FRAMES))]
    majors = [bodies[i][k * MAJOR:(k + 1) * MAJOR] for i in range(len(bodies)) for k in range(FRAMES) if not lost((i, k))]

    def book(chosen):
        number, data = book_vectors.written(YEAR, b"".join(bodies[i] for i in chosen), book_vectors.size(len(chosen)))
        assert number == 0
        return data

    def asked(i):
        place = max(p for p, j in enumerate(whole) if j <= i)
        return "%d place %d instant %d\n" % (instant(*TIMES[i]), place, instant(*TIMES[whole[place]]))

    files = {
        "reel": b"".join(reel(bodies, rng)),
        "truth": book(range(len(bodies))),
        "kept": book(whole),
        "frames": b"".join(majors),
        "asked": "".join(asked(i) for i in range(len(bodies))).encode(),
    }
    for name, data in files.items():
        with open(os.path.join(folder, name), "wb") as f:
            f.write(data)


if __name__ == "__main__":
    main()
