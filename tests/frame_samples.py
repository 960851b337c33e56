#!/usr/bin/env python3
"""Samples for the programs over reels, with what each program must write.

Run from the repository's root: python3 tests/frame_samples.py
It writes data/, args and stdout below crates/pcd_frames.
With --check it writes nothing and says whether the stored files are what it would write.

What a reel gives is read off it by tests/own_sync.py and tests/labelling.py, which know nothing of the programs."""
import os
import random
import sys

import labelling
import own_sync
from labelling import BY_BYTES, FILL, SYNC, Stream
from stored import keep


def unpacked(words, spacing):
    return b"".join(bytes([SYNC, word, word, word]) + bytes([FILL]) * spacing for word in words)


def minor(rng, number):
    """A minor frame of the book's: word 3 is the high byte of an ADS value, below 16."""
    words = [0xFA, 0xF3, 0x20] + [rng.randrange(256) for _ in range(125)]
    words[3] = rng.randrange(16)
    words[65] = number
    return words


def major(rng, spacing):
    return b"".join(unpacked(minor(rng, number), spacing) for number in range(128))


def scratched_reel(rng):
    """No lead-in and a begun frame; a major frame; noise, and a frame that lost words; a major frame with bad copies; half a run."""
    begun = unpacked(minor(rng, 9)[60:], 0)
    copies = bytearray(major(rng, 0))
    for at in range(0, len(copies), 4 * 97):
        copies[at + 1 + rng.randrange(3)] ^= 1 << rng.randrange(8)
    lost = unpacked(minor(rng, 0)[:90], 0) + bytes([0x55, 0xAA, 7]) + unpacked(minor(rng, 1), 0)
    run = b"".join(unpacked(minor(rng, number), 0) for number in range(12))
    return begun + major(rng, 0) + lost + unpacked(minor(rng, 2)[40:], 0) + bytes(copies) + run


def listing(counts):
    return "PCD TALLY 2\n" + "".join("%s %d\n" % (name, counts[name]) for name in labelling.COUNTS)


def duty(shifts, byte):
    """Who is on duty as this byte of the reel is taken."""
    return ([0] + [operator for begin, operator in shifts if begin <= byte])[-1]


def paid(ends, shifts):
    by = [duty(shifts, end - 1) for end in ends]
    return [by.count(operator) for operator in range(8)]


def told(reel, strict, shifts=()):
    """What is said at the end: the tally of what was handed in, the lead-ins, and with shifts the eight paid counts."""
    if strict:
        counts, leads, ends = labelling.counts(reel), 0, labelling.major_ends(reel)
    else:
        own_sync.check(reel)
        counts, leads, ends = own_sync.counts(reel), len(own_sync.lead_ins(reel)), [end for end, _ in own_sync.majors(reel)]
    operators = "".join("operator %d paid %d\n" % pair for pair in enumerate(paid(ends, shifts))) if shifts else ""
    return listing(counts) + "lead-ins %d\n" % leads + operators


def frames(reel, strict):
    return labelling.major_frames(reel) if strict else [words for _, words in own_sync.majors(reel)]


def lines(shifts):
    return "".join("%d %d\n" % shift for shift in shifts).encode()


def store(crate, args, data, stdout):
    folder = os.path.join("crates", crate)
    os.makedirs(os.path.join(folder, "data"), exist_ok=True)
    files = {"args": "".join(word + "\n" for word in args).encode(), "stdout": stdout}
    files.update({os.path.join("data", name): content for name, content in data.items()})
    keep(folder, files)


REEL = Stream(scratched_reel(random.Random(27)), BY_BYTES)


def shifts_of(reel):
    """A shift that begins with the last byte of a major frame, one with the byte after it, and one within a word that decides a lock."""
    first, last = [end for end, _ in own_sync.majors(reel)]
    lock = own_sync.lead_ins(reel)[1]
    return [(0, 3), (first - 1, 5), (first, 2), (lock + 2, 7), (last - 1, 1), (last, 6)]


def frame_sample():
    """Two files, cut within the word that decides the first lock; status 0 as the last line."""
    cut = own_sync.lead_ins(REEL)[0] + 2
    data = {"reel-1": REEL.data[:cut], "reel-2": REEL.data[cut:], "operators": lines(shifts_of(REEL))}
    store("pcd_frames", ["1", "own", "operators", "reel-1", "reel-2"], data, b"".join(frames(REEL, False)) + b"0\n")


if __name__ == "__main__":
    if sys.argv[1:] in ([], ["--check"]):
        frame_sample()
    else:
        sys.exit(__doc__)
