#!/usr/bin/env python3
"""Vectors for the frame store, with the answers of an independent implementation.

Run from the repository's root: python3 tests/frame_store_vectors.py
It writes crates/frame_store_vectors/stdin (records) and crates/frame_store_vectors/stdout (a line for each call).
With --check it writes nothing and says whether the stored files are what it would write.

A record: the operation; 1 where the call is handed bits of its own, which are not handed on; two zero bytes; how many bytes of the area it is lent (4
bytes); those bits; three numbers (8 bytes each, first byte highest). Bits and area are handed on from record to record.
  1  begin: no bits                       the area's bytes are a series, from the first number on by the second, modulo 2^64 and then modulo 251
  2  store a frame                        a series likewise, of as many bytes as the third number
  3  release the slot                     that is the first number
  4  read the slot                        likewise: the part's length and checksum, and the refusal
  5  the area's checksum

The answers are worked out from paper 02, request 12, by other means than the library's: slots are a dictionary from a slot to the frame last stored
there and not released, and no bit is ever looked at but to print the number."""
import functools
import os
import random
import struct
import stored

CRATE = os.path.join("crates", "frame_store_vectors")
FRAME = 16_384
MOST = 64
WIDEST = (1 << 64) - 1
MODULUS = 4_294_967_291


@functools.lru_cache(maxsize=None)
def series(first, step, n):
    return bytes((first + i * step) % (1 << 64) % 251 for i in range(n))


@functools.lru_cache(maxsize=None)
def checksum(data):
    h = 0
    for b in data:
        h = (h * 31 + b) % MODULUS
    return h


ONE_FRAME_ON = pow(31, FRAME, MODULUS)


def record(operation, size, bits=None, a=0, b=0, n=0):
    return struct.pack(">BB2xIQQQQ", operation, bits is not None, size, bits or 0, a, b, n)


class Store:
    """The slots of an area: what stands in each, and the frames held."""

    def __init__(self, size, first, step):
        self.size, self.held = size, {}
        whole = series(first, step, size)
        self.bytes = [whole[at:at + FRAME] for at in range(0, size, FRAME)]

    def bits(self):
        return sum(2 ** slot for slot in self.held)

    def area_refusal(self, size, bits):
        if size not in range(FRAME, MOST * FRAME + 1, FRAME):
            return 24
        return 25 if bits is not None and bits >= 2 ** (size // FRAME) else 0

    def checksum(self):
        h = 0
        for data in self.bytes:
            h = (h * pow(31, len(data), MODULUS) if len(data) != FRAME else h * ONE_FRAME_ON) + checksum(data)
        return h % MODULUS

    def store(self, frame):
        """The slot that takes it; or the refusal."""
        free = [slot for slot in range(len(self.bytes)) if slot not in self.held]
        if not free:
            return None, 26
        self.held[free[0]] = self.bytes[free[0]] = frame
        return free[0], 0

    def call_store(self, size, bits, a, b, n):
        """A call that is handed bits of its own is refused."""
        data = record(2, size, bits, a, b, n)
        number = 2 if n != FRAME else self.area_refusal(size, bits)
        slot = None
        if not number:
            # Bits of the call's own that no line above refuses: every slot of what is lent is in use.
            slot, number = (None, 26) if bits is not None else self.store(series(a, b, n))
            assert bits is None or bits == 2 ** (size // FRAME) - 1
        return data, "slot %d bits %d refused %d" % (slot or 0, self.bits() if bits is None else bits, number)

    def slot_refusal(self, size, bits, slot):
        return self.area_refusal(size, bits) or (0 if slot in self.held else 27)

    def call_release(self, size, bits, slot):
        number = self.slot_refusal(size, bits, slot)
        assert number or bits is None
        if not number:
            del self.held[slot]
        return record(3, size, bits, slot), "bits %d refused %d" % (self.bits() if bits is None else bits, number)

    def call_read(self, size, bits, slot):
        number = self.slot_refusal(size, bits, slot)
        assert number or bits is None
        part = b"" if number else self.held[slot]
        return record(4, size, bits, slot), "part %d %d refused %d" % (len(part), checksum(part), number)


def refused_call(rng, s):
    """A call that is handed anything, and refused."""
    size, slots = s.size, len(s.bytes)
    other = rng.choice([n for n in (0, 1, FRAME - 1, FRAME + 1, size - 1, size + 1, MOST * FRAME + 1, (MOST + 1) * FRAME) if n % FRAME or n // FRAME not in range(1, 65)])
    short = rng.choice((0, 1, FRAME - 1, FRAME + 1))
    beyond = rng.choice((2 ** slots, 2 ** slots + 1, WIDEST)) if slots < MOST else None
    none = rng.choice([n for n in (slots, slots + 1, 63, 64, 65, 255, 256, 1 << 32, WIDEST) if n not in s.held])
    a, b = rng.randrange(250), rng.randrange(250)
    return rng.choice((
        # 2, before 24 and 25; 24, before 25; 25; 26; 27, the last of all.
        lambda: s.call_store(rng.choice((size, other)), rng.choice((None, beyond)), a, b, short),
        lambda: s.call_store(other, rng.choice((None, beyond)), a, b, FRAME),
        lambda: s.call_store(size, beyond, a, b, FRAME) if beyond else s.call_store(other, None, a, b, FRAME),
        lambda: s.call_store(size, 2 ** slots - 1, a, b, FRAME),
        lambda: s.call_release(rng.choice((size, other)), beyond, none),
        lambda: s.call_read(rng.choice((size, other)), beyond, none),
        lambda: s.call_release(size, None, none),
        lambda: s.call_read(size, None, none),
    ))()


def any_call(rng, s):
    slots = len(s.bytes)
    kind = rng.randrange(10)
    if kind < 4:
        return s.call_store(s.size, None, rng.randrange(250), rng.randrange(250), FRAME)
    slot = rng.randrange(slots + 1)
    return s.call_release(s.size, None, slot) if kind < 7 else s.call_read(s.size, None, slot)


def sequence(rng, slots, calls):
    size, first, step = slots * FRAME, rng.randrange(250), rng.randrange(250)
    s = Store(size, first, step)
    yield record(1, size, None, first, step), None
    for _ in range(calls):
        yield any_call(rng, s)
        if rng.randrange(4) == 0:
            yield refused_call(rng, s)
        if rng.randrange(6) == 0:
            yield record(5, size), "area %d" % s.checksum()
    for slot in range(slots + 1):
        yield s.call_read(size, None, slot)
    yield record(5, size), "area %d" % s.checksum()


def full(rng):
    """All 64 slots, bit 63 among them: filled, one too many, each fourth released from the top, and filled again."""
    size = MOST * FRAME
    s = Store(size, 1, 7)
    yield record(1, size, None, 1, 7), None
    for i in range(MOST + 1):
        yield s.call_store(size, None, i, 3, FRAME)
    yield record(5, size), "area %d" % s.checksum()
    for slot in range(MOST - 1, -1, -4):
        yield s.call_read(size, None, slot)
        yield s.call_release(size, None, slot)
        yield s.call_read(size, None, slot)
    for i in range(MOST // 4 + 1):
        yield s.call_store(size, None, i, 5, FRAME)
    for slot in range(MOST + 2):
        yield s.call_read(size, None, slot)
    yield record(5, size), "area %d" % s.checksum()


def records():
    rng = random.Random(24)
    for slots in range(1, 6):
        for calls in (1, 3, 10, 25):
            for _ in range(6):
                yield from sequence(rng, slots, calls)
    for slots in (16, 63, 64):
        yield from sequence(rng, slots, 90)
    yield from full(rng)


def main():
    stored.keep_records(CRATE, list(records()))


if __name__ == "__main__":
    main()
