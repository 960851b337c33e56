#!/usr/bin/env python3
"""Streams for the reader, with the answers of an independent implementation (tests/labelling.py).

Run from the repository's root: python3 tests/reader_vectors.py
It writes crates/reader_vectors/stdin (a record for each stream) and crates/reader_vectors/stdout.
With --check it writes nothing and says whether the stored files are what it would write. With --list it writes the names of the streams.

A record: the stream's length (4 bytes, first byte highest), eight piece lengths (4 bytes each, 0 for none), eight operators' numbers (8 bytes
each), the rule to vote by (8 bytes), then the stream. The stream is read once for each piece length, from a fresh tally of that rule and a zeroed
area; a fresh tally of a rule that there is not is refused 15, and is that of rule 1. A call that stops at a completed major frame is followed by
one with the rest of its piece. Before the first piece and after each piece there are three more calls: one with a
piece of no bytes, which is taken, one with an area of 16,383 bytes, which is refused 2, and one that names an operator: the eight numbers in
turn, of which those above 7 are refused 14. Each goes on from the tally that the last one gave back.

For each piece length there are five lines or more:
  stream of N bytes in pieces of P by rule R refused F
  paid at B area S         for each major frame: the bytes taken by then, and the area's checksum
  bytes .. building ..     the eighteen counts
  paid to .. duty D rule R the eight operators' counts, who is on duty at the end, and the tally's rule
  hunting .. frame S       what the tally holds beside the counts
  area S calls .. answers S changed .. refused 2: .. refused 14: .. otherwise: ..
`calls` counts the calls with a piece that are not refused, and `answers` is the checksum of what each says: bytes taken, complete, refusal.
`changed` counts the changes of duty that are not refused."""
import os
import random
import re
import struct
import sys

sys.dont_write_bytecode = True
import labelling
from labelling import BY_BITS, BY_BYTES, FILL, SYNC, SYNC_WORDS, Change, Changed, Piece, Stream, Took
from stored import checksum, keep

CRATE = os.path.join("crates", "reader_vectors")
HOLE = labelling.HOLE


# ---- What a record's lines say

def pieces(length, piece):
    return [min(piece, length - at) for at in range(0, length, piece)]


def asked(lengths, operators):
    """The calls of a reading, but for those refused 2."""
    for turn, length in enumerate([None] + lengths):
        if length is not None:
            yield Piece(length)
        yield Piece(0)
        yield Change(operators[turn % len(operators)])


def lines(data, rule, piece_lengths, operators):
    refused = 0 if rule in (BY_BYTES, BY_BITS) else 15
    stream = Stream(data, BY_BYTES if refused else rule)
    whole = " ".join("%s %d" % item for item in labelling.counts(stream).items())
    k = labelling.kept(stream)
    rest = "hunting %d match %d hole %d copies %d %d frame %d" % (
        k["hunting"], k["match"], k["hole"], k["first"], k["second"], checksum(k["frame"]))
    paid = []
    for end, frame in zip(labelling.major_ends(stream), labelling.major_frames(stream)):
        assert labelling.area_after(Stream(data[:end], stream.rule)) == frame
        paid.append("paid at %d area %d" % (end, checksum(frame)))
    area = checksum(labelling.area_after(stream))
    for piece in piece_lengths:
        lengths = pieces(len(data), piece)
        answers = labelling.calls(stream, asked(lengths, operators))
        stamps, duty = labelling.shifts(answers)
        taken = [answer for answer in answers if isinstance(answer, Took)]
        refusals = [answer.refusal for answer in answers if isinstance(answer, Changed)]
        yield "stream of %d bytes in pieces of %d by rule %d refused %d" % (len(data), piece, rule, refused)
        yield from paid
        yield whole
        yield "paid to %s duty %d rule %d" % (" ".join(str(n) for n in labelling.paid(stream, stamps)), duty, stream.rule)
        yield rest
        yield "area %d calls %d answers %d changed %d refused 2: %d refused 14: %d otherwise: 0" % (
            area, len(taken), checksum(n for took in taken for n in (took.bytes, int(took.complete), 0)),
            refusals.count(0), len(lengths) + 1, refusals.count(14))


# ---- Making streams

def group(word, rng, bad=0.0):
    """A group of four bytes: a hole's copies all differ, and with chance `bad` one copy of a word is another byte."""
    if word is HOLE:
        return bytes([SYNC] + rng.sample(range(256), 3))
    copies = [word] * 3
    if rng.random() < bad:
        copies[rng.randrange(3)] = rng.choice([b for b in range(256) if b != word])
    return bytes([SYNC] + copies)


def packed(words, rng, spacing=0, bad=0.0):
    """Words and holes as groups, each followed by FILL: always as many, or as many as spacing() says."""
    gap = spacing if callable(spacing) else lambda: spacing
    return b"".join(group(word, rng, bad) + bytes([FILL]) * gap() for word in words)


def scattered(words, rng):
    """Words as groups in which each copy is wrong in a bit of its own: no two are equal, and only their bits give the word."""
    return b"".join(bytes([SYNC] + [word ^ 1 << bit for bit in rng.sample(range(8), 3)]) for word in words)


def minor(number, rng, holes=(), sync=SYNC_WORDS, data=None):
    """The 128 words of a minor frame, the bytes that are no sync and no number at random or from `data`."""
    words = [rng.choice(data) if data else rng.randrange(256) for _ in range(128)]
    words[0:3] = sync
    words[65] = number
    for place in holes:
        words[place] = HOLE
    return words


def reel(numbers, rng, lead_in=True):
    """A lead-in, then good minor frames with these numbers, as words."""
    words = list(SYNC_WORDS) if lead_in else []
    for number in numbers:
        words += minor(number, rng)
    return words


def streams():
    """Pairs of a name and the bytes."""
    rng = random.Random(7)

    yield "empty", b""
    yield "the nine bytes of paper 01", bytes.fromhex("3216FAFAFA16000102")
    yield "FILL only", bytes([FILL]) * 300
    yield "noise", rng.randbytes(3000)
    yield "noise of few values", bytes(rng.choice((SYNC, FILL, 0xFA, 0xF3, 0x20)) for _ in range(3000))
    yield "a lone SYNC at the end", bytes.fromhex("16AABBAA32FF16")
    yield "one copy at the end", bytes.fromhex("16AABBAA32FF1616")
    yield "two copies at the end", bytes.fromhex("16AABBCC32FF163216")
    yield "votes: 5 5 9, 9 5 5, 5 9 5, 1 2 3", bytes.fromhex("16050509" "16090505" "16050905" "16010203")
    yield "holes only", packed([HOLE] * 60, rng, 1)
    yield "SYNC and FILL as words, while hunting", packed([SYNC, FILL] * 20, rng, 2)
    yield "SYNC and FILL among the copies", bytes.fromhex("16161632" "16321632" "16323216" "16161616" "16323232" "16163216" "32")

    yield "hunt: FA F3 FA F3 20, then 130 words", packed([0xFA, 0xF3, 0xFA, 0xF3, 0x20] + minor(0, rng) + [7, 8], rng)
    yield "hunt: FA FA F3 20, then 130 words", packed([0xFA, 0xFA, 0xF3, 0x20] + minor(0, rng) + [7, 8], rng)
    yield "hunt: FA F3 F3 20, then 130 words", packed([0xFA, 0xF3, 0xF3, 0x20] + minor(0, rng)[3:] + [7, 8], rng)
    yield "hunt: a hole within FA F3 20", packed([0xFA, 0xF3, HOLE, 0x20, 0xFA, HOLE, 0xF3, 0x20, 0xFA, 0xF3], rng)
    yield "hunt: FA FA at the end", packed([1, 0xFA, 0xFA], rng)
    yield "hunt: stray bytes between the groups", b"".join(b"\x00\x99" + group(w, rng) for w in SYNC_WORDS + minor(0, rng))

    yield "lead-in and good frames", packed(reel([0, 1, 2], rng), rng)
    yield "lead-in alone", packed(SYNC_WORDS, rng, 5)
    yield "no lead-in: never locked", packed(reel([0, 1, 2, 3], rng, lead_in=False), rng)
    yield "SYNC and FILL as data words of good frames", packed(
        SYNC_WORDS + minor(0, rng, data=(SYNC, FILL)) + minor(1, rng, data=(SYNC, FILL)), rng, 1)
    yield "a damaged frame between two good ones", packed(reel([0], rng) + minor(1, rng, holes=(100,)) + minor(1, rng) + minor(2, rng), rng)
    yield "a damaged frame between 1 and 2", packed(reel([0, 1], rng) + minor(2, rng, holes=(3, 127)) + minor(2, rng), rng)
    yield "a hole at the number's place", packed(reel([0], rng) + minor(1, rng, holes=(65,)) + minor(0, rng), rng)
    yield "a hole in the frame being filled", packed(reel([0], rng) + minor(1, rng, holes=(9,))[:40], rng)
    yield "a hole at a sync place: unsynced", packed(reel([0], rng) + minor(1, rng, holes=(1, 90)) + reel([1], rng), rng)
    yield "an unsynced frame, and what follows", packed(
        reel([0, 1], rng) + minor(2, rng, sync=[0xFA, 0xF3, 0x21]) + reel([3, 4], rng, lead_in=False) + reel([5, 0], rng), rng)
    lost = minor(1, rng, sync=[0, 0, 0])
    lost[126:] = [0xFA, 0xF3]
    yield "nothing remembered: an unsynced frame ends FA F3, and 20 follows", packed(reel([0], rng) + lost + [0x20] + minor(1, rng), rng)
    good = minor(0, rng)
    good[125:] = SYNC_WORDS
    yield "FA F3 20 at places 125 to 127 of a good frame is data", packed(SYNC_WORDS + good + minor(1, rng), rng)

    yield "frame 127 alone", packed(reel([127], rng), rng)
    yield "frame 127 after 0, 1, 2", packed(reel([0, 1, 2, 127], rng), rng)
    yield "two frames 0 in a row", packed(reel([0, 0, 1], rng), rng)
    yield "numbers above 127", packed(reel([128, 255, 0, 129, 0, 1], rng), rng)
    yield "a run broken and restarted", packed(reel([0, 1, 2, 4, 5, 0, 1, 3, 0, 1, 2], rng), rng)
    yield "a frame twice", packed(reel([0, 1, 1, 2, 0], rng), rng)
    yield "spacing 5", packed(reel([0, 1], rng), rng, 5)
    yield "spacing 60", packed(reel([0], rng)[:50], rng, 60)
    yield "mixed spacings", packed(reel([0, 1, 2], rng), rng, lambda: rng.choice((0, 1, 5, 6, 17)))
    yield "one bad copy in many groups", packed(reel([0, 1, 2], rng), rng, 1, bad=0.7)
    yield "two frames, noise, a lead-in and two frames", packed(reel([0, 1], rng), rng) + rng.randbytes(500) + packed(reel([0, 1], rng), rng, 3)
    yield "cut in the middle of a group, a frame and a run", packed(reel([0, 1, 2, 3, 4], rng), rng)[:-1205]
    part = packed(reel([4, 5, 6], rng), rng)
    yield "begun in the middle of a group, a frame and a run", part[601:] + packed(reel([7, 0], rng), rng)

    yield "a major frame", packed(reel(range(128), rng), rng)
    yield "two major frames", packed(reel(list(range(128)) * 2, rng), rng)
    yield "a major frame and part of another", packed(reel(list(range(128)) + list(range(20)), rng), rng, 0, bad=0.3)[:-77]
    words = list(SYNC_WORDS)
    for number in range(128):
        words += minor(number, rng, holes=(80,) if number == 61 else ())
    yield "a damaged frame within what would be a major frame", packed(words, rng)
    yield "0 to 9, then a major frame at mixed spacings, one number more, and 0, 1", packed(
        reel(list(range(10)) + list(range(128)) + [128, 0, 1], rng), rng, lambda: rng.choice((0, 0, 0, 0, 1)), bad=0.2)

    yield "votes by bits: 1 2 3, 0F F0 AA, 00 FF 55, 16 32 FA, 80 40 20", bytes.fromhex("16010203" "160FF0AA" "1600FF55" "161632FA" "16804020")
    yield "a lead-in and good frames by bits alone", scattered(reel([0, 1, 2], rng), rng)
    yield "a lead-in by bits alone, then two copies wrong in many groups", scattered(SYNC_WORDS, rng) + b"".join(
        scattered([word], rng) if rng.randrange(3) == 0 else group(word, rng, 0.3) for word in reel([0, 1, 127, 0], rng, lead_in=False))


def cuts(length):
    """The piece lengths that a stream is read in: cuts everywhere in a short one."""
    if length < 1600:
        return (1, 2, 3, 7, 65536)
    if length < 6000:
        return (1, 7, 513, 4096)
    return (11, 1021, 4096, 65536, 65548, 131083)


def operators(rng):
    """Eight numbers to name in turn: two in three an operator's, the others of nobody."""
    nobody = (8, 9, 255, 256, 263, 1 << 32, 1 << 63, (1 << 64) - 1)
    return [rng.choice(nobody) if rng.randrange(3) == 0 else rng.randrange(labelling.OPERATORS) for _ in range(8)]


def rules(data):
    """Both rules, but only the vote by bytes for a long stream whose copies all agree; and rules that there are not, for paper 01's example."""
    if len(data) == 9:
        return (BY_BYTES, BY_BITS, 0, 3, 256, 257, 258, (1 << 32) + 2, (1 << 64) - 1)
    c = labelling.counts(Stream(data, BY_BYTES))
    agree = c["split"] + c["weak1"] + c["weak2"] + c["weak3"] == 0
    return (BY_BYTES,) if agree and len(data) > 60000 else (BY_BYTES, BY_BITS)


def under_all_rules(data, chosen, named):
    """The lines under each rule. A stream with no split group is read alike under both."""
    text = {rule: list(lines(data, rule, chosen, named)) for rule in rules(data)}
    if BY_BITS in text and labelling.counts(Stream(data, BY_BYTES))["split"] == 0:
        assert text[BY_BYTES] == [re.sub(r"\brule %d\b" % BY_BITS, "rule %d" % BY_BYTES, line) for line in text[BY_BITS]]
    return text


def files():
    records, text = [], []
    rng = random.Random(286)
    for _, data in streams():
        chosen, named = cuts(len(data)), operators(rng)
        for rule, of_rule in under_all_rules(data, chosen, named).items():
            records.append(struct.pack(">9I9Q", len(data), *(chosen + (0,) * (8 - len(chosen))), *named, rule) + data)
            text += of_rule
    payments = [[int(n) for n in line.split()[2:10]] for line in text if line.startswith("paid to")]
    assert all(sum(of_one) > 1 for of_one in zip(*payments)), "the seed leaves an operator without major frames"
    return {"stdin": b"".join(records), "stdout": "".join(line + "\n" for line in text).encode()}


def main():
    if sys.argv[1:] == ["--list"]:
        for name, data in streams():
            print("%7d  %s" % (len(data), name))
        return
    made = files()
    keep(CRATE, made)
    print(made["stdout"].count(b"stream of "), "readings,", len(made["stdin"]), "bytes")


if __name__ == "__main__":
    main()
