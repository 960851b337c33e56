#!/usr/bin/env python3
"""Calls of the writer and whole reels, with answers worked out here from paper 01 ("The writer" and "Refusal numbers").

Run from the repository's root: python3 tests/writer_vectors.py
It writes crates/writer_vectors/stdin (a record for each call and each reel) and crates/writer_vectors/stdout.
With --check it writes nothing and says whether the stored files are what it would write.

A record begins with 12 bytes: its kind (0 lead-in, 1 minor frame, 2 reel), a count (1 byte), the length of the output (2 bytes) and the
spacing (8 bytes), first byte highest. For a minor frame the count is its length, and its bytes follow. For a reel the spacing is that of
the lead-in and the count is the number of major frames; a spacing for each minor frame follows (1 byte each), then their 128 bytes each.

A call has the output filled with A5 hex before it. Its line says the answer, how many bytes are not A5 afterwards (past the output's end
too), the output itself in hex for a short lead-in, and the output's checksum.

A reel is written a minor frame at a time, then read from a fresh tally in pieces of each length of PIECES, and whole. A line says how many
major frames were paid, how many bytes of the area were compared then with what was written, how many differ, and the counts of the tally.
Nothing here reads a stream: the counts are sums over what was written."""
import os
import random
import struct
import sys
from stored import checksum, keep

sys.dont_write_bytecode = True

CRATE = os.path.join("crates", "writer_vectors")

SYNC = 0x16
FILL = 0x32
LEAD_IN = bytes([0xFA, 0xF3, 0x20])
# The book has the sync bytes at places 0 to 2 (docs/DECISIONS.md).
SYNC_PLACES = slice(0, 3)
NUMBER_PLACE = 65
PLACES = 128
MINORS = 128
AREA = PLACES * MINORS
MOST_SPACING = 60

BEFORE = 0xA5
SHORT = 28
MOST_ROOM = 128 * 66
MOST_REEL = 2000000
PIECES = (1, 3, 7, 61, 127, 509, 4093, 65521)


# ---- The writer

def written(spacing, data):
    """Each byte as SYNC, three copies and as many FILL as the spacing says."""
    return b"".join(bytes([SYNC, byte, byte, byte]) + bytes([FILL]) * spacing for byte in data)


def refusal(*tests):
    """The number of the first test that holds, 0 where none does; a test is asked only after those before it."""
    return next((number for number, holds in tests if holds()), 0)


def lead_in_refusal(spacing, room):
    return refusal((4, lambda: spacing > MOST_SPACING), (2, lambda: room != len(LEAD_IN) * (4 + spacing)))


def minor_frame_refusal(spacing, frame, room):
    return refusal(
        (4, lambda: spacing > MOST_SPACING),
        (2, lambda: len(frame) != PLACES or room != PLACES * (4 + spacing)),
        (5, lambda: frame[SYNC_PLACES] != LEAD_IN or frame[NUMBER_PLACE] > 127))


# ---- What a record's lines say

def answered(answer, spacing, data, room, short):
    """The end of a call's line: a refusal writes nothing. A short output is shown too."""
    out = bytes([BEFORE]) * room if answer else written(spacing, data)
    assert len(out) == room
    text = ": answer %d changed %d" % (answer, sum(byte != BEFORE for byte in out))
    return text + (" bytes " + out.hex() if room <= short else "") + " checksum %d" % checksum(out)


def lead_in_line(spacing, room):
    return "lead-in spacing %d output %d" % (spacing, room) + answered(lead_in_refusal(spacing, room), spacing, LEAD_IN, room, SHORT)


def shown(frame, place):
    return "%02x" % frame[place] if place < len(frame) else "--"


def minor_frame_line(spacing, frame, room):
    line = "minor frame spacing %d length %d sync %s number %s output %d" % (
        spacing, len(frame), "".join(shown(frame, place) for place in (0, 1, 2)), shown(frame, NUMBER_PLACE), room)
    return line + answered(minor_frame_refusal(spacing, frame, room), spacing, frame, room, -1)


def reel_lines(lead_spacing, spacings, frames):
    """The lines of a reel: all that was written is paid, and the counts are sums over it."""
    minors = len(frames)
    majors = minors // MINORS
    data = written(lead_spacing, LEAD_IN) + b"".join(written(f, frame) for f, frame in zip(spacings, frames))
    voted = len(LEAD_IN) + PLACES * minors
    fill = len(LEAD_IN) * lead_spacing + PLACES * sum(spacings)
    assert len(data) == 4 * voted + fill <= MOST_REEL
    yield "reel of major frames %d bytes %d checksum %d" % (majors, len(data), checksum(data))
    for piece in PIECES + (len(data),):
        yield (
            "pieces of %d: paid %d compared %d differ 0 stray 0 split 0 weak1 0 weak2 0 weak3 0 damaged 0 unsynced 0 broken 0"
            " loose 0 hunted %d building 0 placed 0 open 0 good %d majors %d bytes %d fill %d voted %d" % (
                piece, majors, AREA * majors, len(LEAD_IN), minors, majors, len(data), fill, voted))


# ---- The calls

def minor(number, rng, sync=LEAD_IN, length=PLACES):
    """A minor frame with many bytes that look like framing: SYNC, FILL and FA F3 20. None of them is what the output holds before."""
    frame = bytearray()
    while len(frame) < max(length, PLACES):
        frame += rng.choice((
            LEAD_IN, LEAD_IN[:2], bytes([SYNC]), bytes([FILL]), bytes([SYNC, FILL]), bytes([SYNC]) * 4,
            bytes(rng.choice([b for b in range(256) if b != BEFORE]) for _ in range(3))))
    frame[SYNC_PLACES] = sync
    frame[NUMBER_PLACE] = number
    return bytes(frame[:length])


# Where a spacing is refused: the first one, some that are in order once cut to 8, 16 or 32 bits, and the largest.
REFUSED_SPACINGS = (61, 62, 64, 255, 256, 256 + 5, 2**16 + 5, 2**32, 2**32 + 5, 2**32 + 60, 2**63, 2**63 + 5, 2**64 - 4, 2**64 - 1)


def tempting_rooms(spacing, count):
    """The lengths that a writer of so many bytes would find exact if it did not refuse the spacing: as it is, cut to fewer bits, or with
    sums that wrap. And those about spacing 60."""
    cuts = [spacing % 2**bits for bits in (8, 16, 32, 64)]
    exact = {count * (4 + cut) for cut in cuts} | {count * (4 + cut) % 2**bits for cut in cuts for bits in (8, 16, 32, 64)}
    longest = count * (4 + MOST_SPACING)
    return sorted(room for room in exact | {longest - 1, longest, longest + 1} if room <= MOST_ROOM)


def lead_ins():
    """Pairs of a spacing and the length of the output."""
    for spacing in range(MOST_SPACING + 1):
        exact = 3 * (4 + spacing)
        yield from ((spacing, room) for room in (exact - 1, exact, exact + 1))
    for room in (0, 3, 4, 24, 128, 8192):
        yield 5, room
    for spacing in REFUSED_SPACINGS:
        yield from ((spacing, room) for room in tempting_rooms(spacing, len(LEAD_IN)))


def order_of_refusals(rng):
    """Spacing, lengths and the frame's own bytes, each in order or not: 4 before 2 before 5."""
    for spacing in (5, 60, 61, 2**32 + 5, 2**64 - 1):
        for length in (128, 127, 129, 0):
            for room in (128 * 9, 128 * 64, 128 * 65, 0):
                for number, sync in ((7, LEAD_IN), (128, LEAD_IN), (7, b"\xFA\xF3\x21")):
                    yield spacing, minor(number, rng, sync, length), room


def minor_frames(rng):
    """Triples of a spacing, a frame and the length of the output."""
    for spacing in range(MOST_SPACING + 1):
        exact = PLACES * (4 + spacing)
        frame = minor(spacing, rng)
        yield from ((spacing, frame, room) for room in (exact - 1, exact, exact + 1))
    for spacing in REFUSED_SPACINGS:
        frame = minor(127, rng)
        yield from ((spacing, frame, room) for room in tempting_rooms(spacing, PLACES))
    for length in (0, 1, 3, 65, 66, 126, 127, 128, 129, 255):
        yield 5, minor(9, rng, length=length), 128 * 9
        yield 5, minor(9, rng, length=length), length * 9
    for number in (0, 1, 126, 127, 128, 129, 254, 255):
        yield 0, minor(number, rng), 512
    for place in (0, 1, 2):
        for byte in (0x00, LEAD_IN[place] ^ 1, LEAD_IN[place] ^ 0x80, LEAD_IN[(place + 1) % 3]):
            sync = bytearray(LEAD_IN)
            sync[place] = byte
            yield 1, minor(3, rng, bytes(sync)), 640
            yield 1, minor(128, rng, bytes(sync)), 640
    yield from order_of_refusals(rng)


# ---- The reels

def reel(spacings, rng):
    return spacings, [minor(i % MINORS, rng) for i in range(len(spacings))]


def reels(rng):
    """Triples: the lead-in's spacing, the spacing of each minor frame, the minor frames."""
    yield (5,) + reel([], rng)
    yield (60,) + reel([0] * MINORS, rng)
    yield (0,) + reel([60] * MINORS, rng)
    each = [n % 61 for n in range(MINORS)]
    mixed = [rng.choice((0, 0, 1, 4, 5, 5, 5, 6, 59, 60)) for _ in range(MINORS)]
    yield (1,) + reel(each + [5] * MINORS + [0] * MINORS + mixed, rng)


# ---- The files

def record(kind, count, room, spacing):
    return struct.pack(">BBHQ", kind, count, room, spacing)


def files():
    rng = random.Random(11)
    records, lines = [], []
    for spacing, room in lead_ins():
        records.append(record(0, 0, room, spacing))
        lines.append(lead_in_line(spacing, room))
    for spacing, frame, room in minor_frames(rng):
        records.append(record(1, len(frame), room, spacing) + frame)
        lines.append(minor_frame_line(spacing, frame, room))
    for lead_spacing, spacings, frames in reels(rng):
        records.append(record(2, len(frames) // MINORS, 0, lead_spacing) + bytes(spacings) + b"".join(frames))
        lines += reel_lines(lead_spacing, spacings, frames)
    return {"stdin": b"".join(records), "stdout": "".join(line + "\n" for line in lines).encode()}


def main():
    made = files()
    keep(CRATE, made)
    print(made["stdout"].count(b"answer"), "calls,", made["stdout"].count(b"pieces of"), "readings,", len(made["stdin"]), "bytes")


if __name__ == "__main__":
    main()
