"""A reel read where its frames lie: the hunt that ends on a frame's own FA F3 20 (DFCB tables 10-1 and 10-2), in plain Python.

It stands above tests/labelling.py, is written from the rule and not from the library, and says each step over a whole list:

    own_cut      words and holes   ->  as cut_words, but a hunt ends before FA F3 20, so that these begin a frame; behind them, as paper 01 has
                                       it, where the next word is FA or there is none
    lead_ins     the reel          ->  before which byte of it a lead-in is handed
    handed       the reel          ->  the bytes that the reader takes: the reel's, and the lead-ins
    counts, kept, area_after, majors, awaits: what is left after the reel

The reader itself is paper 01's. So its counts are those of the bytes that are handed in, and the frames that it closes must be those of
own_cut: `check` holds the one against the other."""
from collections import namedtuple

import labelling
from labelling import MINORS, PLACES, SYNC, SYNC_WORDS, Frame, Stream

LEAD_IN = b"".join(bytes([SYNC, word, word, word]) for word in SYNC_WORDS)

# How the words are cut; `found` are the indices of the words before which a lead-in is handed, the fourth of each frame that a hunt found by
# its own sync.
OwnCut = namedtuple("OwnCut", "hunted frames part since found")


def first_sync(values, at):
    """The index from `at` on where FA F3 20 stand in a row, or None."""
    return next((k for k in range(at, len(values) - 2) if values[k:k + 3] == SYNC_WORDS), None)


def own_cut(words):
    values = [word.value for word in words]
    hunted, frames, found, at, hunting = [], [], [], 0, True
    while at < len(words):
        if hunting:
            k = first_sync(values, at)
            if k is None:
                return OwnCut(hunted + words[at:], frames, [], at, found)
            following = values[k + 3:k + 4]
            begin = k + 3 if following in ([], SYNC_WORDS[:1]) else k
            if begin == k:
                found.append(k + 3)
            hunted += words[at:begin]
            at, hunting = begin, False
        elif len(words) - at < PLACES:
            return OwnCut(hunted, frames, words[at:], None, found)
        else:
            frame = values[at:at + PLACES]
            at += PLACES
            frames.append(Frame(frame, labelling.classify(frame), words[at - 1].end))
            hunting = frames[-1].kind == "unsynced"
    return OwnCut(hunted, frames, [], at if hunting else None, found)


def lead_ins(reel):
    """How many bytes of the reel stand before each lead-in: as far as the SYNC of the word that decides."""
    _, words = labelling.label_bytes(reel)
    return [words[k].end - 4 for k in own_cut(words).found]


def handed(reel):
    out, at = b"", 0
    for end in lead_ins(reel):
        out += reel.data[at:end] + LEAD_IN
        at = end
    return Stream(out + reel.data[at:], reel.rule)


def awaits(reel):
    """Whether the reel ends with a lock whose next word is still to come."""
    _, words = labelling.label_bytes(reel)
    cut = own_cut(words)
    if cut.since is not None or cut.part:
        return False
    # Neither hunted nor placed: the last three words are a lock, or those of the last frame.
    placed = cut.frames and cut.frames[-1].end == words[-1].end
    return not placed and [word.value for word in words[-3:]] == SYNC_WORDS


def majors(reel):
    """For each major frame, how many bytes of the reel there are up to its last copy, and its 16,384 words."""
    _, words = labelling.label_bytes(reel)
    frames = own_cut(words).frames
    out = []
    for run in labelling.find_runs(frames):
        if run.kind == "major":
            of_run = frames[run.start:run.start + MINORS]
            out.append((of_run[-1].end, bytes(value for frame in of_run for value in frame.values)))
    return out


def counts(reel):
    return labelling.counts(handed(reel))


def kept(reel):
    return labelling.kept(handed(reel))


def area_after(reel):
    return labelling.area_after(handed(reel))


def check(reel):
    """What the reader makes of the bytes handed in is what the cut of the reel's own words says."""
    _, words = labelling.label_bytes(reel)
    own = own_cut(words)
    stream = handed(reel)
    _, _, cut, _ = labelling.whole(stream)
    assert [(f.values, f.kind) for f in cut.frames] == [(f.values, f.kind) for f in own.frames]
    assert labelling.major_frames(stream) == [words_of for _, words_of in majors(reel)]
    # Every word stands in one piece.
    assert len(own.hunted) + PLACES * len(own.frames) + len(own.part) == len(words)
    assert counts(reel)["bytes"] == len(reel.data) + 12 * len(own.found)
    # What a reel is cut into does not hang on what follows, but for the three words of a lock that nothing follows yet.
    assert awaits(reel) <= (kept(reel)["hunting"] is False)
