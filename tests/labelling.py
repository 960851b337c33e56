"""The labelling of an unpacked PCD stream: paper 01 from "From bytes to words" to "The tally and one call", in plain Python.

It is a reference to read beside the paper, written from the paper's text and not from the library. Each step is said over a whole list, in
the paper's order, and no tally goes from byte to byte. A stream is the bytes and the rule that its words are voted by (paper 02, request 6):

    label_bytes      the stream        ->  a label for each byte, and the list of words and holes
    cut_words        words and holes   ->  the hunted ones, the closed minor frames, and the part at the end
    classify         a closed frame    ->  good, damaged or unsynced
    find_runs        closed frames     ->  the runs 0, 1, .. of good frames: major frames, broken runs, the run being built
    counts           the stream        ->  the eighteen counts
    kept             the stream        ->  what the tally holds beside the counts
    area_after       the stream        ->  the lent area
    calls            stream, requests  ->  what each call answers
    shifts           the answers       ->  who is on duty as each byte is taken (paper 02, request 5)
    paid             stream, shifts    ->  the eight operators' counts

The sync words stand at places 0 to 2 of a minor frame, as the book has it (docs/DECISIONS.md)."""
from collections import namedtuple
from functools import lru_cache

SYNC = 0x16
FILL = 0x32
SYNC_WORDS = [0xFA, 0xF3, 0x20]
SYNC_PLACES = slice(0, 3)
NUMBER_PLACE = 65
PLACES = 128
MINORS = 128
AREA = PLACES * MINORS
HOLE = None
OPERATORS = 8
BY_BYTES, BY_BITS = 1, 2

# The bytes, and the rule that words are voted by.
Stream = namedtuple("Stream", "data rule")
# A word or a hole, and how many bytes of the stream there are up to its last copy.
Word = namedtuple("Word", "value end")
# A closed minor frame: its 128 words and holes, good, damaged or unsynced, and the bytes up to its last copy.
Frame = namedtuple("Frame", "values kind end")
# How the words are cut: `since` is the index of the first word that the hunt at the end remembers, None where the end does not hunt.
Cut = namedtuple("Cut", "hunted frames part since")
# A run of good frames 0, 1, ..: where in the list of closed frames it begins, how long it is, and major, broken or building.
Run = namedtuple("Run", "start length kind")
# What a call is asked: to take a piece of so many bytes, or to put an operator on duty; and what it answers.
Piece = namedtuple("Piece", "length")
Change = namedtuple("Change", "operator")
Took = namedtuple("Took", "bytes complete")
Changed = namedtuple("Changed", "operator refusal")

COUNTS = "bytes fill stray voted split weak1 weak2 weak3 open hunted good damaged unsynced placed majors broken loose building".split()


# ---- From bytes to words

def by_bytes(copies):
    """The byte that at least two of three copies have; a hole where all three differ."""
    for byte in copies:
        if list(copies).count(byte) >= 2:
            return byte
    return HOLE


def by_bits(copies):
    """Paper 02, request 6: each bit is the one that at least two copies have."""
    columns = zip(*("{:08b}".format(byte) for byte in copies))
    return int("".join(max("01", key=column.count) for column in columns), 2)


def vote(copies, rule):
    return by_bits(copies) if rule == BY_BITS else by_bytes(copies)


def weak(copies):
    """Paper 02, request 2: the number of the copy that the two others outvote; 0 where all agree, and where no two are equal."""
    outvoted = [number for number, byte in enumerate(copies, 1) if by_bytes(copies) not in (HOLE, byte)]
    return outvoted[0] if outvoted else 0


def label_bytes(stream):
    """A label for each byte, and the words and holes that the closed groups give."""
    data, rule = stream
    labels, words, at = [], [], 0
    while at < len(data):
        if data[at] == FILL:
            labels.append("fill")
            at += 1
        elif data[at] != SYNC:
            labels.append("stray")
            at += 1
        else:
            group = data[at:at + 4]
            at += len(group)
            if len(group) < 4:
                labels += ["open"] * len(group)
            else:
                word = vote(group[1:], rule)
                labels += ["split" if word is HOLE else "voted"] * 4
                words.append(Word(word, at))
    return labels, words


# ---- From words to minor frames

def classify(values):
    """The class of 128 words and holes. Sync is tested first; a hole is no sync word."""
    if values[SYNC_PLACES] != SYNC_WORDS:
        return "unsynced"
    if HOLE in values:
        return "damaged"
    return "good"


def cut_words(words):
    """The hunted words, the closed frames, and the words of the frame now being filled."""
    values = [word.value for word in words]
    hunted, frames, at, since = [], [], 0, 0
    while at < len(words):
        if since is not None:
            hunted.append(words[at])
            at += 1
            if values[max(since, at - 3):at] == SYNC_WORDS:
                since = None
        elif len(words) - at < PLACES:
            break
        else:
            frame = values[at:at + PLACES]
            at += PLACES
            frames.append(Frame(frame, classify(frame), words[at - 1].end))
            if frames[-1].kind == "unsynced":
                since = at
    return Cut(hunted, frames, words[at:], since)


# ---- From minor to major

def find_runs(frames):
    """The longest run 0, 1, .. from each good frame that is numbered 0. No run is longer than 128, and none overlaps another."""
    def stands(index, number):
        return index < len(frames) and frames[index].kind == "good" and frames[index].values[NUMBER_PLACE] == number

    runs = []
    for start in range(len(frames)):
        length = 0
        while length < MINORS and stands(start + length, length):
            length += 1
        if length == MINORS:
            runs.append(Run(start, length, "major"))
        elif length and start + length == len(frames):
            runs.append(Run(start, length, "building"))
        elif length:
            runs.append(Run(start, length, "broken"))
    return runs


# ---- The tally, the area and the calls

@lru_cache(maxsize=8)
def whole(stream):
    """All of the labelling: byte labels, words, the cut into frames, and the runs."""
    labels, words = label_bytes(stream)
    cut = cut_words(words)
    return labels, words, cut, find_runs(cut.frames)


def counts(stream):
    """The eighteen counts by name, with the papers' sums checked."""
    labels, words, cut, runs = whole(stream)
    weak_copies = [weak(stream.data[word.end - 3:word.end]) for word in words]
    kinds = [frame.kind for frame in cut.frames]
    good = kinds.count("good")

    def in_runs(kind):
        return sum(run.length for run in runs if run.kind == kind)

    c = {
        "bytes": len(stream.data),
        "fill": labels.count("fill"),
        "stray": labels.count("stray"),
        "voted": labels.count("voted") // 4,
        "split": labels.count("split") // 4,
        "weak1": weak_copies.count(1),
        "weak2": weak_copies.count(2),
        "weak3": weak_copies.count(3),
        "open": labels.count("open"),
        "hunted": len(cut.hunted),
        "good": good,
        "damaged": kinds.count("damaged"),
        "unsynced": kinds.count("unsynced"),
        "placed": len(cut.part),
        "majors": sum(run.kind == "major" for run in runs),
        "broken": in_runs("broken"),
        "loose": good - sum(run.length for run in runs),
        "building": in_runs("building"),
    }
    assert list(c) == COUNTS
    assert c["weak1"] + c["weak2"] + c["weak3"] <= c["voted"]
    assert c["bytes"] == c["fill"] + c["stray"] + 4 * c["voted"] + 4 * c["split"] + c["open"]
    assert c["voted"] + c["split"] == c["hunted"] + 128 * (good + c["damaged"] + c["unsynced"]) + c["placed"]
    assert good == 128 * c["majors"] + c["broken"] + c["loose"] + c["building"]
    assert c["split"] == 0 or stream.rule == BY_BYTES
    return c


def kept(stream):
    """What a tally holds beside the counts: hunting, match, hole, the first two copies, and the 128 bytes of the frame being filled."""
    labels, words, cut, _ = whole(stream)
    hunting = cut.since is not None
    match = 0
    if hunting:
        remembered = [word.value for word in words[cut.since:]]
        match = max(n for n in (0, 1, 2) if n <= len(remembered) and remembered[len(remembered) - n:] == SYNC_WORDS[:n])
    # A hole is stored as 0, and a place not reached stays as an earlier frame left it.
    frame = [0] * PLACES
    for values in [f.values for f in cut.frames] + [[word.value for word in cut.part]]:
        frame[:len(values)] = [0 if value is HOLE else value for value in values]
    # A copy stays until the next group overwrites it.
    data, opened = stream.data, labels.count("open")
    groups = [data[word.end - 4:word.end] for word in words] + [data[len(data) - opened:]]
    first = [group[1] for group in groups if len(group) > 1]
    second = [group[2] for group in groups if len(group) > 2]
    return {
        "hunting": hunting,
        "match": match,
        "hole": any(word.value is HOLE for word in cut.part),
        "first": first[-1] if first else 0,
        "second": second[-1] if second else 0,
        "frame": bytes(frame),
    }


def area_after(stream, area=bytes(AREA)):
    """The area after these bytes: each good frame of a run is put at 128 times its number, in order of closing."""
    _, _, cut, runs = whole(stream)
    area = bytearray(area)
    for run in runs:
        for number in range(run.length):
            area[PLACES * number:PLACES * (number + 1)] = bytes(cut.frames[run.start + number].values)
    return bytes(area)


def major_ends(stream):
    """For each major frame, how many bytes there are up to the copy that closes the last of its minor frames."""
    _, _, cut, runs = whole(stream)
    return [cut.frames[run.start + MINORS - 1].end for run in runs if run.kind == "major"]


def major_frames(stream):
    """The 16,384 words of each major frame."""
    _, _, cut, runs = whole(stream)
    return [bytes(value for frame in cut.frames[run.start:run.start + MINORS] for value in frame.values) for run in runs if run.kind == "major"]


def calls(stream, asked):
    """What each call answers, where the bytes come in these pieces and operators are named between them.

    A call takes its whole piece, or stops just after the byte that completes a major frame; the next call is then handed the rest of the
    piece, if there is any. A piece of no bytes is a call too. A call that names an operator takes no bytes, and is refused 14 above 7."""
    ends = major_ends(stream)
    answers, at = [], 0
    for request in asked:
        if isinstance(request, Change):
            answers.append(Changed(request.operator, 0 if request.operator < OPERATORS else 14))
            continue
        stop = at + request.length
        while True:
            end = min([e for e in ends if at < e <= stop], default=None)
            answers.append(Took((stop if end is None else end) - at, end is not None))
            at = stop if end is None else end
            if at == stop:
                break
    assert at == len(stream.data)
    return answers


# ---- Operators (paper 02, request 5)

def shifts(answers):
    """Who is on duty as each byte is taken, and at the end: read off the list of calls. Operator 0 begins."""
    stamps, duty = [], 0
    for answer in answers:
        if isinstance(answer, Took):
            stamps += [duty] * answer.bytes
        elif answer.refusal == 0:
            duty = answer.operator
    return stamps, duty


def paid(stream, stamps):
    """For each operator the number of complete major frames whose last byte was taken on their duty."""
    last = [stamps[end - 1] for end in major_ends(stream)]
    counts_of = [last.count(operator) for operator in range(OPERATORS)]
    assert sum(counts_of) == counts(stream)["majors"]
    return counts_of
