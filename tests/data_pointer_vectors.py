#!/usr/bin/env python3
"""Vectors for the data pointer's sequence, with the answers of an independent implementation.

Run from the repository's root: python3 tests/data_pointer_vectors.py
It writes crates/data_pointer_vectors/stdin (records) and crates/data_pointer_vectors/stdout (a line for each answer).
With --check it writes nothing and says whether the stored files are what it would write.

A record: the operation, a pointer and a number (8 bytes each, first byte highest).
  1  the next pointer                 the number is not looked at
  2  the pointer before               likewise
  3  the pointer so many frames on
  4  the frames from the pointer on to another one, the number

The answers are worked out from paper 02, request 13, and the book's section 3.2.6.2.5 by walking: the round is written down once, by equation 1
from 0 on, and everything else is looked up or counted in it. Nothing is computed modulo 85 but a place in the round."""
import os
import random
import struct
import stored

CRATE = os.path.join("crates", "data_pointer_vectors")
LAST = 84
MOST = (1 << 24) - 1
WIDEST = (1 << 64) - 1


def equation_1(p):
    return p + 38 if p < 47 else p - 47


def equation_2(p):
    return p - 38 if p >= 38 else p + 47


def written_down():
    """The pointers from 0 on, until 0 comes again."""
    walk = [0]
    while equation_1(walk[-1]) != 0:
        walk.append(equation_1(walk[-1]))
    return walk


ROUND = written_down()
assert sorted(ROUND) == list(range(LAST + 1))
assert all(equation_2(equation_1(p)) == p and equation_1(equation_2(p)) == p for p in ROUND)


def after(p, n):
    if p > LAST:
        return "refused 28"
    if n > MOST:
        return "refused 29"
    return str(ROUND[(ROUND.index(p) + n) % len(ROUND)])


def distance(p, q):
    if p > LAST or q > LAST:
        return "refused 28"
    frames = 0
    while p != q:
        p = equation_1(p)
        frames += 1
    return str(frames)


ANSWERS = {
    1: lambda p, n: str(equation_1(p)) if p <= LAST else "refused 28",
    2: lambda p, n: str(equation_2(p)) if p <= LAST else "refused 28",
    3: after,
    4: distance,
}


def walked(p, n):
    for _ in range(n):
        p = equation_1(p)
    return p


def records():
    rng = random.Random(13)
    beyond = [85, 86, 128, 256, 256 + 38, 1 << 32, (1 << 32) + 5, WIDEST - 84, WIDEST]
    pointers = list(range(LAST + 1))
    for p in pointers + beyond:
        yield 1, p, 0
        yield 2, p, 0
    # Every pair of pointers, and pairs with one or two that are none.
    for p in pointers + beyond:
        for q in pointers if p <= LAST else (0, 84, 85):
            yield 4, p, q
        for q in beyond[:3] + [WIDEST]:
            yield 4, p, q
    # Two rounds of single steps from a few pointers, whole rounds, the edges of n, and any n.
    for p in (0, 1, 37, 38, 46, 47, 84):
        for n in list(range(171)) + [255, 256, 65_535, 65_536, MOST - 85, MOST - 1, MOST, MOST + 1, 1 << 32, 1 << 63, WIDEST]:
            yield 3, p, n
    for p in pointers:
        for n in (85, MOST, rng.randrange(MOST + 1)):
            yield 3, p, n
    for p in beyond:
        for n in (0, 1, MOST, MOST + 1, WIDEST):
            yield 3, p, n


def main():
    # Looking up in the round is as many single steps, as far as a call may go.
    assert str(walked(19, MOST)) == after(19, MOST)
    rows = list(records())
    files = {
        "stdin": b"".join(struct.pack(">BQQ", operation, p, n) for operation, p, n in rows),
        "stdout": "".join(ANSWERS[operation](p, n) + "\n" for operation, p, n in rows).encode(),
    }
    stored.keep(CRATE, files)
    print(len(rows), "vectors")


if __name__ == "__main__":
    main()
