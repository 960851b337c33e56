#!/usr/bin/env python3
"""Samples for pcd-map: a reel, and the map that the program must write of it.

Run from the repository's root: python3 tests/map_samples.py
It writes data/, args and stdout below crates/pcd_map.
With --check it writes nothing and says whether the stored files are what it would write.
With --map FILE or --strict-map FILE it writes the map of a file to standard output.

Each byte of the reel has a class by what tests/labelling.py and tests/own_sync.py read off it, and a cell the highest class of its bytes. Nothing here
knows the program."""
import os
import random
import sys

sys.dont_write_bytecode = True
import labelling
import own_sync
from labelling import BY_BYTES, FILL, HOLE, MINORS, SYNC, Stream
from stored import keep

CELLS, ROW, LENGTH = 32768, 128, 1152
NOTHING, GOOD, PAID, DAMAGED, UNSYNCED, STRAY = range(6)
COLOURS = ["#dddddd", "#56b4e9", "#009e73", "#e69f00", "#f0e442", "#d55e00"]


# ---- what each byte gave

def origins(reel, strict):
    """The bytes that the reader takes, and for each of them which byte of the reel it is; None in a lead-in that is handed."""
    if strict:
        return reel, list(range(len(reel.data)))
    out, at = [], 0
    for end in own_sync.lead_ins(reel):
        out += list(range(at, end)) + [None] * len(own_sync.LEAD_IN)
        at = end
    return own_sync.handed(reel), out + list(range(at, len(reel.data)))


def classes(reel, strict):
    stream, origin = origins(reel, strict)
    labels, words, cut, runs = labelling.whole(stream)
    found = [(at, STRAY) for at, label in enumerate(labels) if label == "stray"]
    found += [(word.end - 1, STRAY) for word in words if word.value is HOLE]
    found += [(word.end - 1, UNSYNCED) for word in cut.hunted]
    found += [(frame.end - 1, {"unsynced": UNSYNCED, "damaged": DAMAGED, "good": GOOD}[frame.kind]) for frame in cut.frames]
    out = [NOTHING] * len(reel.data)
    for at, kind in found:
        out[origin[at]] = max(out[origin[at]], kind)
    for run in runs:
        if run.kind == "major":
            first, last = (origin[cut.frames[k].end - 1] for k in (run.start, run.start + MINORS - 1))
            out[first:last + 1] = [max(kind, PAID) for kind in out[first:last + 1]]
    return out, labelling.counts(stream)


def cell_length(size):
    length = LENGTH
    while size > CELLS * length:
        length *= 2
    return length


def cells(kinds):
    length = cell_length(len(kinds))
    return [max(kinds[at:at + length]) for at in range(0, len(kinds), length)] or [NOTHING]


# ---- the picture

def legend(y, kind, text):
    return '<rect x="10" y="%d" width="12" height="12" class="c%d"/><text x="28" dy="10" y="%d">%s</text>\n' % (y, kind, y, text)


def rects(row, kinds):
    at = 0
    while at < len(kinds):
        end = next((k for k in range(at, len(kinds)) if kinds[k] != kinds[at]), len(kinds))
        yield '<rect x="%d" y="%d" width="%d" height=".9" class="c%d"/>\n' % (at, row, end - at, kinds[at])
        at = end


def picture(reel, strict):
    kinds, c = classes(reel, strict)
    length, drawn = cell_length(len(kinds)), cells(kinds)
    rows = [drawn[at:at + ROW] for at in range(0, len(drawn), ROW)]
    way = "lead-ins alone" if strict else "frames' own sync"
    out = '<svg xmlns="http://www.w3.org/2000/svg" width="890" height="%d" font-family="sans-serif" font-size="12">\n' % (8 * len(rows) + 176)
    out += "<title>Map of a reel</title>\n<style>"
    out += "".join(".c%d{fill:%s}" % pair for pair in enumerate(COLOURS)) + "</style>\n"
    out += '<rect width="100%" height="100%" fill="#ffffff"/>\n<text x="10" y="24" font-size="16">Map of a reel</text>\n'
    out += '<text x="10" y="44">bytes of the reel: %d, read by its %s; bytes of a cell: %d. ' % (len(kinds), way, length)
    out += "A cell shows the first of these that it has:</text>\n"
    out += legend(56, STRAY, "stray bytes %d, split words %d" % (c["stray"], c["split"]))
    out += legend(72, UNSYNCED, "hunted words %d, unsynced minor frames %d" % (c["hunted"], c["unsynced"]))
    out += legend(88, DAMAGED, "damaged minor frames %d" % c["damaged"])
    out += legend(104, PAID, "paid major frames %d" % c["majors"])
    out += legend(120, GOOD, "good minor frames that are not paid %d" % (c["good"] - MINORS * c["majors"]))
    out += legend(136, NOTHING, "none of these: FILL, or a part of a frame that ends later; bytes of FILL %d" % c["fill"])
    out += '<g font-size="9">\n'
    for row in range(0, len(rows), 8):
        out += '<text x="102" y="%d" text-anchor="end">%d</text>\n' % (171 + 8 * row, row * ROW * length)
    out += '</g>\n<g transform="translate(110 164) scale(6 8)">\n'
    out += "".join(rect for row, kinds in enumerate(rows) for rect in rects(row, kinds))
    return out + "</g>\n</svg>\n"


# ---- a reel that has all of it

def unpacked(words, spacing):
    def group(word):
        return [SYNC, 1, 2, 3] if word is HOLE else [SYNC, word, word, word]
    return b"".join(bytes(group(word)) + bytes([FILL]) * spacing for word in words)


def minor(rng, number):
    """A minor frame of the book's: word 3 is the high byte of an ADS value, below 16."""
    words = [0xFA, 0xF3, 0x20] + [rng.randrange(256) for _ in range(125)]
    words[3], words[65] = rng.randrange(16), number
    return words


def minors(rng, numbers, spacing):
    return b"".join(unpacked(minor(rng, number), spacing) for number in numbers)


def made(rng):
    """A begun frame and FILL; a major frame; a run that a hole breaks, and frames that belong to none; noise; a lead-in, and a major frame with
    stray bytes in it; a frame that lost words; half a run."""
    begun = unpacked(minor(rng, 9)[60:], 0) + bytes([FILL]) * 5000
    holed = minor(rng, 30)
    holed[5] = HOLE
    broken = minors(rng, range(30), 5) + unpacked(holed, 5) + minors(rng, [7, 9, 8], 5)
    noise = bytes(b for b in rng.randbytes(4000) if b != SYNC)
    strayed = minors(rng, range(60), 0) + b"\x55\xaa" + minors(rng, range(60, 128), 0)
    lost = unpacked(minor(rng, 0)[:90], 0) + unpacked(minor(rng, 1), 0) + unpacked(minor(rng, 2)[40:], 0)
    return begun + minors(rng, range(128), 0) + broken + noise + own_sync.LEAD_IN + strayed + lost + minors(rng, range(12), 5)


def sample():
    reel = Stream(made(random.Random(1972)), BY_BYTES)
    own_sync.check(reel)
    own = picture(reel, False).encode()
    assert own != picture(reel, True).encode()
    assert set(cells(classes(reel, False)[0])) == set(range(6))
    folder = os.path.join("crates", "pcd_map")
    os.makedirs(os.path.join(folder, "data"), exist_ok=True)
    keep(folder, {"args": b"1\nown\nreel\n", os.path.join("data", "reel"): reel.data, "stdout": own + b"0\n"})


if __name__ == "__main__":
    if sys.argv[1:] in ([], ["--check"]):
        sample()
    elif len(sys.argv) == 3 and sys.argv[1] in ("--map", "--strict-map"):
        with open(sys.argv[2], "rb") as f:
            sys.stdout.write(picture(Stream(f.read(), BY_BYTES), sys.argv[1] == "--strict-map"))
    else:
        sys.exit(__doc__)
