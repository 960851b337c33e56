#!/usr/bin/env python3
"""Vectors for the lookup of an instant, with the answers of an independent implementation.

Run from the repository's root: python3 tests/lookup_vectors.py
It writes crates/lookup_vectors/stdin (records) and crates/lookup_vectors/stdout (a line for each search).
With --check it writes nothing and says whether the stored files are what it would write.

A record: the operation, three zero bytes, how many instants (4 bytes, first byte highest), a number (8 bytes).
  1  the first instants of the list   follow, 8 bytes each
  2  the same as a series             from the number on, by a step (8 bytes follow) modulo 2^64; of each the remainder by a modulus (8 bytes)
  3  find the number                  among so many of the first instants

The answers are worked out from paper 02, request 1, by other means than the library's: halving cuts the list itself in two and keeps no
places. Of lists that never fall the place is held to that of reading the whole list."""
import os
import random
import struct
import stored

CRATE = os.path.join("crates", "lookup_vectors")
MOST = 100_000
LAST = (1 << 64) - 1


def halve(instants, wanted):
    """How many instants stand at or before where the rule ends, and the looks. A list of n entries from low to high is looked at n // 2 on."""
    if not instants:
        return 0, 0
    half = len(instants) // 2
    passed, rest = (half + 1, instants[half + 1:]) if instants[half] <= wanted else (0, instants[:half])
    count, looks = halve(rest, wanted)
    return passed + count, looks + 1


def answer(instants, wanted):
    if len(instants) > MOST:
        return "refused 12"
    count, looks = halve(instants, wanted)
    assert looks <= len("{:b}".format(len(instants)).lstrip("0"))
    if all(a <= b for a, b in zip(instants, instants[1:])):
        assert count == len([x for x in instants if x <= wanted])
    return "%s looks %d" % ("at %d" % (count - 1) if count else "none", looks)


def around(instants):
    near = {x + d for x in instants for d in (-1, 0, 1)}
    return sorted({0, LAST} | {w for w in near if 0 <= w <= LAST})


def record(operation, n, value):
    return struct.pack(">B3xIQ", operation, n, value)


def given(instants):
    return record(1, len(instants), 0) + b"".join(struct.pack(">Q", x) for x in instants)


def searches(instants, wanted):
    for w in wanted:
        yield record(3, len(instants), w), answer(instants, w)


def small(instants, wanted=None):
    yield given(instants), None
    yield from searches(instants, around(instants) if wanted is None else wanted)


def series(n, first, step, modulus, wanted):
    yield record(2, n, first) + struct.pack(">QQ", step, modulus), None
    yield from searches([(first + i * step) % (1 << 64) % modulus for i in range(n)], wanted)


def rising(rng, n):
    """Gaps of two or more, so that what is beside an instant is no other's."""
    at, instants = rng.randrange(3), []
    for _ in range(n):
        instants.append(at)
        at += rng.choice((2, 3, rng.randrange(2, 1 << 40)))
    return instants


def records():
    rng = random.Random(12)
    yield from small([])
    for one in (0, 1, 7, LAST):
        yield from small([one])
    for n in range(1, 41):
        yield from small(rising(rng, n))
    yield from small([LAST - 2 * i for i in reversed(range(9))])
    # Equal neighbours: some, and nothing else.
    for n in (2, 3, 8, 20):
        yield from small(sorted(rng.randrange(10, 10 + n) for _ in range(n)))
        yield from small([5] * n)
    # Out of order: falling, and any.
    for n in (2, 3, 9, 16):
        yield from small([3 * i for i in reversed(range(n))])
    for n in (5, 17, 31, 32, 40):
        yield from small([rng.randrange(60) for _ in range(n)])
    # As many as the lookup takes, and one more; lengths at which the binary digits change.
    for n in (65_535, 65_536, 99_999, MOST, MOST + 1):
        edges = [0, 2, 3, 4, 3 + 7 * (n // 2), 3 + 7 * (n - 1) - 1, 3 + 7 * (n - 1), LAST]
        yield from series(n, 3, 7, LAST, edges + [rng.randrange(7 * n) for _ in range(20)])
    # As many, out of order and with equal ones.
    for step, modulus in ((0x9E3779B97F4A7C15, LAST), (1, 1000), (LAST, LAST)):
        yield from series(MOST, 0, step, modulus, [0, 1, 500, 999, 1000, LAST] + [rng.randrange(modulus) for _ in range(10)])


def main():
    stored.keep_records(CRATE, list(records()))


if __name__ == "__main__":
    main()
