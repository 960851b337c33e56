#!/usr/bin/env python3
"""Simulated reels for the feeder that locks on a frame's own sync, with the answers of an independent implementation (tests/own_sync.py).

Run from the repository's root: python3 tests/relock_vectors.py
It writes crates/relock_vectors/stdin (a record for each reel) and crates/relock_vectors/stdout.
With --check it writes nothing and says whether the stored files are what it would write. With --list it writes the names of the reels.

A record: the reel's length (4 bytes, first byte highest), eight piece lengths (4 bytes each, 0 for none), the rule to vote by (8 bytes), then the
reel. It is read once for each piece length, from a fresh tally of that rule and a zeroed area. The bytes that a step leaves are handed in again, with
the next piece behind them where it asks for more; the last piece is said to end the reel.

For each piece length there are four lines or more:
  reel of N bytes in pieces of P by rule R
  paid at B area S         for each major frame: the reel's bytes taken by then, and the area's checksum
  bytes .. building ..     the eighteen counts: those of the bytes handed in
  hunting .. frame S       what the tally holds beside the counts
  lead-ins K awaits W area S
`lead-ins` counts the lead-ins that were handed, and `awaits` is 1 where the reel ends with a lock whose next word is still to come."""
import os
import random
import struct
import sys

sys.dont_write_bytecode = True
import own_sync
from labelling import BY_BITS, BY_BYTES, FILL, SYNC, SYNC_WORDS, Stream
from reader_vectors import HOLE, group, packed, scattered
from stored import checksum, keep

CRATE = os.path.join("crates", "relock_vectors")
# A word that may stand at place 3 of a frame: the high byte of an ADS value has four leading zeros (table 10-1).
HIGH = range(16)


# ---- What a record's lines say

def lines(data, rule, piece_lengths):
    reel = Stream(data, rule)
    own_sync.check(reel)
    k = own_sync.kept(reel)
    text = ["paid at %d area %d" % (end, checksum(words)) for end, words in own_sync.majors(reel)]
    text.append(" ".join("%s %d" % item for item in own_sync.counts(reel).items()))
    text.append("hunting %d match %d hole %d copies %d %d frame %d" % (
        k["hunting"], k["match"], k["hole"], k["first"], k["second"], checksum(k["frame"])))
    text.append("lead-ins %d awaits %d area %d" % (len(own_sync.lead_ins(reel)), own_sync.awaits(reel), checksum(own_sync.area_after(reel))))
    for piece in piece_lengths:
        yield "reel of %d bytes in pieces of %d by rule %d" % (len(data), piece, rule)
        yield from text


# ---- Making reels

def minor(number, rng, third=None):
    """The 128 words of a minor frame as table 10-1 has them: FA F3 20 at its head and nowhere else, and a word below 16 after them."""
    words = [rng.randrange(256) for _ in range(128)]
    words[0:3] = SYNC_WORDS
    words[3] = rng.choice(HIGH) if third is None else third
    words[65] = number
    for k in range(4, 126):
        if words[k:k + 3] == SYNC_WORDS:
            words[k] = 0
    return words


def frames(numbers, rng):
    return [word for number in numbers for word in minor(number, rng)]


def slipped(data, at, n):
    """n bytes lost."""
    return data[:at] + data[at + n:]


def noise(n, rng):
    """Bytes with no group in them."""
    return bytes(rng.choice([b for b in range(256) if b != SYNC]) for _ in range(n))


def short_reels():
    rng = random.Random(25)
    yield "a lead-in and frames", packed(SYNC_WORDS + frames(range(3), rng), rng)
    yield "a lead-in and frames, spaced", packed(SYNC_WORDS + frames(range(2), rng), rng, 5)
    yield "no lead-in", packed(frames(range(3), rng), rng)
    yield "no lead-in, spaced as the book's cycle", packed(frames(range(3), rng), rng, lambda: rng.choice((5, 5, 5, 6)))
    for first in (1, 2, 3, 4, 40, 125, 127):
        yield "begun at word %d" % first, packed(frames(range(3), rng)[first:], rng)
    yield "begun in a group", packed(frames(range(3), rng)[90:], rng)[2:]
    yield "two lead-ins", packed(SYNC_WORDS * 2 + frames(range(2), rng), rng)
    yield "three lead-ins, spaced", packed(SYNC_WORDS * 3 + frames(range(2), rng), rng, 1)
    yield "lead-ins between frames", packed(SYNC_WORDS + frames([0], rng) + SYNC_WORDS + frames([1], rng) + SYNC_WORDS + frames([0, 1], rng), rng)
    yield "FA after a frame's own sync", packed(frames([0], rng)[100:] + minor(1, rng, 0xFA) + frames([2, 3], rng), rng)
    yield "a false sync in the part of a first frame", packed([7, 9] + SYNC_WORDS + [3] + frames(range(5), rng)[60:], rng)
    yield "a false sync before FA", packed([7, 9] + SYNC_WORDS + [0xFA, 0xF3, 1] + frames(range(5), rng)[60:], rng)
    yield "false syncs in a row", packed([5] + SYNC_WORDS + [1] + SYNC_WORDS + [2] + SYNC_WORDS + [0xFA] + frames(range(4), rng)[50:], rng)
    false = frames(range(3), rng)
    false[128 + 77:128 + 80] = SYNC_WORDS
    yield "FA F3 20 a second time in a frame in its place", packed(false, rng)
    for n in (1, 2, 3, 4, 5, 7, 8, 50, 300, 511, 512):
        data = packed(SYNC_WORDS + frames(range(5), rng), rng)
        yield "a slip of %d bytes after a lead-in" % n, slipped(data, 12 + 512 + rng.randrange(400), n)
    for n in (1, 4, 9, 10, 333):
        data = packed(frames(range(5), rng)[77:], rng, 5)
        yield "a slip of %d bytes, no lead-in, spaced" % n, slipped(data, 1500 + rng.randrange(900), n)
    data = packed(frames(range(4), rng), rng)
    yield "a slip in the sync of a frame", slipped(data, 2 * 512 + 5, 4)
    yield "a slip just before a sync", slipped(data, 2 * 512 - 6, 5)
    yield "two slips", slipped(slipped(packed(frames(range(7), rng), rng), 2100, 3), 700, 1)
    parts = [packed(minor(n, rng), rng) for n in range(5)]
    yield "noise between frames", b"".join(noise(rng.randrange(1, 60), rng) + part for part in parts)
    yield "noise with groups between frames", b"".join(rng.randbytes(40) + part for part in parts)
    yield "a bad frame", packed(frames([0, 1], rng) + [0] * 128 + frames([2, 3], rng), rng)
    yield "one bad copy in many groups", packed(frames(range(4), rng)[30:], rng, 1, bad=0.6)
    holed = minor(1, rng)
    holed[3] = HOLE
    yield "a hole after the sync", packed(frames([0], rng)[60:] + holed + frames([2], rng), rng)
    holed = minor(1, rng)
    holed[1] = HOLE
    yield "a hole in the sync", packed(frames([0], rng)[60:] + holed + frames([2, 3], rng), rng)
    yield "by bits alone", scattered(frames(range(3), rng)[20:], rng)
    yield "FA by bits alone after the sync", packed([4] + SYNC_WORDS, rng) + scattered([0xFA], rng) + packed(minor(0, rng)[1:] + frames([1], rng), rng)
    yield "nothing but locks", packed(SYNC_WORDS * 40, rng)
    yield "SYNC for a word after the sync", packed([1] + SYNC_WORDS + [SYNC, FILL, SYNC] + frames([0], rng), rng)
    yield "no sync", packed([rng.randrange(0xF0) for _ in range(300)], rng)
    yield "empty", b""


def neighbourhoods():
    """Reels with a lock near their begin, to be cut at every byte of its neighbourhood, and to end there."""
    rng = random.Random(26)
    begun = packed([3, 0xFA, 0xF3] + SYNC_WORDS, rng)
    rest = packed(minor(0, rng)[3:] + frames([1], rng), rng)
    lead = packed(minor(0, rng) + frames([1], rng), rng)
    yield "a frame's own sync", begun, rest
    yield "a lead-in", begun, lead
    yield "FILL and stray bytes after a frame's own sync", begun + bytes([FILL, 9, FILL]), rest
    yield "FILL after a lead-in", begun + bytes([FILL] * 6), lead
    yield "a hole", begun, bytes([SYNC, 1, 2, 3]) + rest
    yield "SYNC as the word", begun, bytes([SYNC] * 4) + rest
    yield "FA by two copies", begun, bytes([SYNC, 0xFA, 0x16, 0xFA]) + lead[4:]
    yield "FA by bits", begun, bytes([SYNC, 0xFB, 0xFE, 0xEA]) + lead[4:]


def long_reels():
    rng = random.Random(27)
    major = frames(range(128), rng)
    yield "a major frame, no lead-in, begun in the one before", packed(frames([126, 127], rng)[100:] + major, rng)
    yield "a lead-in, a word lost in the first of two major frames", packed(SYNC_WORDS + major[:3000] + major[3001:] + major, rng)
    data = packed(frames([127], rng)[9:] + major + frames(range(3), rng), rng)
    yield "a slip of 301 bytes after a major frame, and another run", slipped(data, len(data) - 1400, 301)
    yield "bad copies, no lead-in", packed(frames([127], rng)[64:] + major, rng, 0, bad=0.05)


# ---- The records

def files():
    records, text = [], []

    def record(data, chosen, rules):
        for rule in rules:
            records.append(struct.pack(">9IQ", len(data), *(chosen + (0,) * (8 - len(chosen))), rule) + data)
            text.extend(lines(data, rule, chosen))

    for _, data in short_reels():
        record(data, (1, 2, 3, 5, 13, 512, 65536), (BY_BYTES, BY_BITS))
    for _, begun, rest in neighbourhoods():
        near = list(range(len(begun) - 13, len(begun) + 19))
        for k in range(0, len(near), 8):
            record(begun + rest, tuple(near[k:k + 8]), (BY_BYTES, BY_BITS))
        for more in range(9):
            record(begun + rest[:more], (1, 3, 65536), (BY_BYTES, BY_BITS))
    for _, data in long_reels():
        record(data, (11, 4096, 65536, 140000), (BY_BYTES,))
    return {"stdin": b"".join(records), "stdout": "".join(line + "\n" for line in text).encode()}


def main():
    if sys.argv[1:] == ["--list"]:
        for name, data in list(short_reels()) + [(name, begun + rest) for name, begun, rest in neighbourhoods()] + list(long_reels()):
            print("%7d  %s" % (len(data), name))
        return
    made = files()
    os.makedirs(CRATE, exist_ok=True)
    keep(CRATE, made)
    print(made["stdout"].count(b"reel of "), "readings,", len(made["stdin"]), "bytes")


if __name__ == "__main__":
    main()
