#!/usr/bin/env python3
"""The calls that crates/tally_limit makes: the reader at its limit, the order of the refusals, each clause of 'in order'.

Run from the repository's root: python3 tests/tally_limit.py
It writes crates/tally_limit/stdin. crates/tally_limit/stdout was written by hand from the papers; of each line this script sees that it is about the call
at its place, and that its refusal is what 01's and 02's clauses give, read here by other means than the library's.
With --check it writes nothing and says whether the stored file is what it would write.

A record is described in crates/tally_limit/src/main.rt; the first byte of a number is the highest."""
import os
import struct
import stored

CRATE = os.path.join("crates", "tally_limit")
COUNTS = ("bytes fill stray voted split weak1 weak2 weak3 open first second hunted good damaged unsynced placed hunting matched erasure"
          " majors broken loose building paid0 paid1 paid2 paid3 paid4 paid5 paid6 paid7 duty rule").split()
NONE, TAKE, CHANGE, FRESH = range(4)
LIMIT, LAST, AREA = 1 << 40, (1 << 64) - 1, 16384
FILL = 0x32
# The lines, and the numbers that they have: those of the call, and those of the tally that comes back.
NUMBERS = "refusal taken complete changed same but_for_duty".split() + COUNTS
TAKEN = ": refusal # taken # complete # bytes # tally same # area changed #\n", "refusal taken complete bytes same changed"
GROUPED = (": refusal # taken # voted # split # weak1 # weak2 # weak3 # open #\n", "refusal taken voted split weak1 weak2 weak3 open")
CHANGED = ": refusal # duty # tally same # but for duty #\n", "refusal duty same but_for_duty"
GIVEN = ": refusal # rule #\n", "refusal rule"
LOCKED = ": refusal # voted # split # hunted # hunting # matched #\n", "refusal voted split hunted hunting matched"
BOOKED = "majors # paid to # # # # # # # # duty #\n", "majors paid0 paid1 paid2 paid3 paid4 paid5 paid6 paid7 duty"
HEADING, QUIET = ("\n", ""), ("", "")
rows = []


def fresh(rule=1, frame=bytes(128), paid=(0,) * 8, **counts):
    """A fresh tally but for these counts."""
    t = dict.fromkeys(COUNTS, 0)
    t.update({"hunting": 1, "rule": rule, "frame": frame}, **counts)
    t.update(("paid%d" % i, n) for i, n in enumerate(paid))
    return t


def in_order(t):
    paid = [t["paid%d" % i] for i in range(8)]
    limited = [t[c] for c in COUNTS[:8] + COUNTS[11:15] + COUNTS[19:22]] + paid
    return (max(limited) <= LIMIT
            and t["bytes"] == t["fill"] + t["stray"] + 4 * t["voted"] + 4 * t["split"] + t["open"]
            and t["voted"] + t["split"] == t["hunted"] + 128 * (t["good"] + t["damaged"] + t["unsynced"]) + t["placed"]
            and t["good"] == 128 * t["majors"] + t["broken"] + t["loose"] + t["building"]
            and t["weak1"] + t["weak2"] + t["weak3"] <= t["voted"]
            and t["open"] <= 3 and t["placed"] <= 127 and t["building"] <= 127 and t["matched"] <= 2
            and (t["hunting"] or t["matched"] == 0)
            and (not t["hunting"] or t["placed"] == t["building"] == 0)
            and (t["placed"] or not t["erasure"])
            and sum(paid) == t["majors"] and t["duty"] <= 7
            and t["rule"] in (1, 2) and (t["rule"] == 1 or t["split"] == 0))


def refusal(call, t, value, piece):
    if call == FRESH:
        return 0 if value in (1, 2) else 15
    if not in_order(t):
        return 1
    if call == CHANGE:
        return 14 if value > 7 else 0
    return 2 if value != AREA else 3 if t["bytes"] + len(piece) > LIMIT else 0


def record(call, name, line, t=None, value=0, piece=b"", keep=False):
    """A call on this tally, or where there is none on the one that was kept last, and the line about it."""
    text, picks = (name + line[0]).encode(), bytes(NUMBERS.index(n) for n in line[1].split())
    assert len(text) <= 160 and len(piece) <= 16 and len(picks) <= 16
    own = t or fresh()
    numbers = [call, keep, t is not None, len(text), len(piece), value] + [own[c] for c in COUNTS]
    data = struct.pack(">39Q", *numbers) + own["frame"] + picks.ljust(16, b"\0") + text.ljust(160, b"\0") + piece.ljust(16, b"\0")
    rows.append((data, text.decode(), refusal(call, own, value, piece) if call == FRESH or call and t else None))


def heading(text):
    record(NONE, text, HEADING)


def take(name, t=None, n=0, room=AREA, keep=False):
    """A call with so many bytes, all FILL, and an area of so many."""
    record(TAKE, name, TAKEN, t, room, bytes([FILL] * n), keep)


def group(text, t=None):
    """A call with these bytes on a tally that goes on."""
    record(TAKE, text, GROUPED, t, AREA, bytes.fromhex(text), True)


def change(name, operator, t=None, keep=False):
    record(CHANGE, name, CHANGED, t, operator, b"", keep)


def full(**counts):
    return fresh(bytes=LIMIT, fill=LIMIT, **counts)


def one_short(**counts):
    """One byte short of a major frame."""
    frame = bytearray(128)
    frame[0:3], frame[65] = b"\xFA\xF3\x20", 127
    counts.update(voted=16386, open=3, first=0x77, second=0x77, hunted=3, hunting=0, good=127, placed=127, building=127)
    return fresh(frame=bytes(frame), **counts)


def limits():
    heading("The limit of 2^40 bytes")
    below = fresh(bytes=LIMIT - 3, fill=LIMIT - 3)
    take("3 bytes below the limit, 4 bytes", below, 4)
    take("3 bytes below the limit, 2 bytes", below, 2)
    take("3 bytes below the limit, 3 bytes", below, 3, keep=True)
    take("at the limit, 1 byte", n=1)
    take("at the limit, 4 bytes", n=4)
    take("at the limit, no byte")
    # a byte below the limit: the lead-in, 127 frames, 127 words of the next, an open group, and FILL
    last = one_short(bytes=LIMIT - 1, fill=LIMIT - 65548)
    take("a major frame that the byte after the limit would complete, 2 bytes", last, 2)
    take("a major frame that the byte at the limit completes, 1 byte", last, 1, keep=True)
    take("after it, 1 byte", n=1)
    take("after it, no byte")


def order_of_refusals():
    heading("The order of the refusals")
    wrong = full(matched=3)
    take("not in order, wrong area, too long", wrong, 1, 16383)
    take("not in order, wrong area", wrong, 0, 16383)
    take("not in order, too long", wrong, 1)
    take("not in order", wrong)
    take("a byte too little area, too long", full(), 1, 16383)
    take("a byte too much area, too long", full(), 1, 16385)
    take("no area, too long", full(), 1, 0)
    take("a byte too little area, no byte", full(), 0, 16383)
    take("a byte too much area, no byte", full(), 0, 16385)
    take("too long", full(), 1)
    take("none of these", full())


def counts_limited():
    heading("Each count is at most 2^40")
    take("bytes and fill 2^40", full())
    take("bytes and fill 2^40 + 1", fresh(bytes=LIMIT + 1, fill=LIMIT + 1))
    take("bytes and stray 2^40", fresh(bytes=LIMIT, stray=LIMIT))
    take("bytes and stray 2^40 + 1", fresh(bytes=LIMIT + 1, stray=LIMIT + 1))
    # words and frames whose bytes come to 2^40, and to one group more
    paid = (1 << 24,) + (0,) * 7
    take("2^38 words, all hunted", fresh(bytes=LIMIT, voted=1 << 38, hunted=1 << 38))
    take("2^24 major frames", fresh(bytes=LIMIT, voted=1 << 38, good=1 << 31, majors=1 << 24, paid=paid))
    take("2^24 major frames and a hunted word",
         fresh(bytes=LIMIT + 4, voted=(1 << 38) + 1, hunted=1, good=1 << 31, majors=1 << 24, paid=paid))
    # counts far above the limit, by which a sum modulo 2^64 would hold
    take("bytes 0, fill and stray 2^63", fresh(fill=1 << 63, stray=1 << 63))
    take("bytes 0, voted and hunted 2^62", fresh(voted=1 << 62, hunted=1 << 62))
    take("bytes 0, split and hunted 2^62", fresh(split=1 << 62, hunted=1 << 62))
    take("no word, damaged 2^57", fresh(damaged=1 << 57))
    take("no word, unsynced 2^57", fresh(unsynced=1 << 57))
    take("no word, good and loose 2^57", fresh(good=1 << 57, loose=1 << 57))
    take("no good frame, majors 2^57", fresh(majors=1 << 57))
    take("no good frame, broken and loose 2^63", fresh(broken=1 << 63, loose=1 << 63))


def sums():
    heading("bytes = fill + stray + 4 * voted + 4 * split + open")
    for n in 50, 51, 52:
        take("10 + 20 + 8 + 12 + 1, bytes %d" % n, fresh(fill=10, stray=20, voted=2, split=3, open=1, hunted=5, bytes=n))
    heading("voted + split = hunted + 128 * (good + damaged + unsynced) + placed")
    for n in 5, 6, 7:
        take("300 + 98 words, hunted %d + 128 * 3 + 8" % n,
             fresh(bytes=1592, voted=300, split=98, good=1, damaged=1, unsynced=1, placed=8, loose=1, hunted=n, hunting=0))
    heading("good = 128 * majors + broken + loose + building")
    for n in 2, 3, 4:
        take("good 134, 128 * 1 + 1 + %d + 2" % n,
             fresh(bytes=68620, voted=17155, hunted=3, good=134, majors=1, paid=(1,) + (0,) * 7, broken=1, building=2, loose=n, hunting=0))


def weak():
    heading("weak1 + weak2 + weak3 is at most voted")

    def asked(name, a, b, c, **counts):
        take(name, fresh(weak1=a, weak2=b, weak3=c, **counts))
    for a, b, c in (2, 3, 5), (3, 3, 5), (2, 4, 5), (2, 3, 6):
        asked("voted 10, split 3, weak %d + %d + %d" % (a, b, c), a, b, c, bytes=52, voted=10, split=3, hunted=13)
    full_of_words = dict(bytes=LIMIT, voted=1 << 38, hunted=1 << 38)
    asked("voted 2^38, weak 0 + 0 + 2^38", 0, 0, 1 << 38, **full_of_words)
    asked("voted 2^38, weak 1 + 0 + 2^38", 1, 0, 1 << 38, **full_of_words)
    asked("voted 2^38, weak1 2^40 + 1", LIMIT + 1, 0, 0, **full_of_words)
    asked("voted 2^38, weak2 2^40 + 1", 0, LIMIT + 1, 0, **full_of_words)
    asked("voted 2^38, weak3 2^40 + 1", 0, 0, LIMIT + 1, **full_of_words)
    # far above the limit, two of them or one, whose sum modulo 2^64 is 0
    asked("no group, weak1 and weak2 2^63", 1 << 63, 1 << 63, 0)
    asked("no group, weak2 and weak3 2^63", 0, 1 << 63, 1 << 63)
    asked("no group, weak1 and weak3 2^63", 1 << 63, 0, 1 << 63)
    asked("no group, weak1 2^64 - 1, weak2 1", LAST, 1, 0)
    asked("no group, weak2 2^64 - 1, weak3 1", 0, LAST, 1)
    asked("no group, weak3 2^64 - 1, weak1 1", 1, 0, LAST)


def places():
    heading("open is at most 3")
    take("open 3", fresh(bytes=3, open=3))
    take("open 4", fresh(bytes=4, open=4))
    heading("placed is at most 127")
    take("placed 127", fresh(bytes=520, voted=130, hunted=3, placed=127, hunting=0))
    take("placed 128", fresh(bytes=524, voted=131, hunted=3, placed=128, hunting=0))
    heading("building is at most 127")
    take("building 127", fresh(bytes=65036, voted=16259, hunted=3, good=127, building=127, hunting=0))
    take("building 128", fresh(bytes=65548, voted=16387, hunted=3, good=128, building=128, hunting=0))
    heading("the match is at most 2, and 0 out of hunting")
    three = fresh(bytes=12, voted=3, hunted=3)
    take("match 2", dict(three, matched=2))
    take("match 3", dict(three, matched=3))
    take("match 1 out of hunting", dict(three, matched=1, hunting=0))
    take("match 0 out of hunting", dict(three, hunting=0))
    heading("placed and building are 0 while hunting")
    one = fresh(bytes=4, voted=1, placed=1)
    take("placed 1 while hunting", one)
    take("placed 1 out of hunting", dict(one, hunting=0))
    frame = fresh(bytes=512, voted=128, good=1)
    take("building 1 out of hunting", dict(frame, building=1, hunting=0))
    take("building 1 while hunting", dict(frame, building=1))
    take("building 0 while hunting", dict(frame, broken=1))
    heading("no hole is marked when placed is 0")
    take("a hole, placed 0", fresh(erasure=1, hunting=0))
    take("a hole, placed 1", fresh(erasure=1, bytes=4, split=1, placed=1, hunting=0))
    take("no hole, placed 1", fresh(bytes=4, split=1, placed=1, hunting=0))
    heading("nothing is asked of the copies and the frame")
    take("any copies, any frame", fresh(first=0xFF, second=0xFE, frame=b"\xFD" * 128))


def two_agree(rule):
    """Two copies agree or all three do: the weak one is counted."""
    group("16 07 07 07", fresh(rule))
    for text in "16 08 07 07", "16 07 08 07", "16 07 07 08", "16 07 08 09":
        group(text)


def weak_counted():
    heading("a voted group counts the copy that disagrees, a split counts none")
    two_agree(1)
    # a copy that is SYNC, a group in two pieces, copies that are FILL
    for text in "16 16 07 07", "16 07 08", "08", "16 32 33 32 16 32 32 33":
        group(text)


def operators():
    heading("the eight paid counts add up to majors, each at most 2^40")

    def asked(name, paid, **counts):
        take(name, fresh(paid=paid, **counts))
    one = dict(bytes=65548, voted=16387, hunted=3, good=128, majors=1)
    asked("one major frame, paid to operator 3", (0, 0, 0, 1, 0, 0, 0, 0), **one)
    asked("one major frame, paid to operator 7", (0, 0, 0, 0, 0, 0, 0, 1), **one)
    asked("one major frame, paid to nobody", (0,) * 8, **one)
    asked("one major frame, paid to operators 3 and 7", (0, 0, 0, 1, 0, 0, 0, 1), **one)
    most, each = dict(bytes=LIMIT, voted=1 << 38, good=1 << 31, majors=1 << 24), 1 << 21
    asked("2^24 major frames, 2^21 paid to each", (each,) * 8, **most)
    asked("2^24 major frames, operator 0 paid one less", (each - 1,) + (each,) * 7, **most)
    asked("2^24 major frames, operator 7 paid one more", (each,) * 7 + (each + 1,), **most)
    asked("2^24 major frames, 2^40 + 1 paid to operator 5", (0, 0, 0, 0, 0, LIMIT + 1, 0, 0), **most)
    # far above the limit, and a sum that is 0 modulo 2^64
    asked("no major frame, operators 0 and 7 paid 2^63", (1 << 63, 0, 0, 0, 0, 0, 0, 1 << 63))
    asked("no major frame, each paid 2^61", (1 << 61,) * 8)
    asked("no major frame, operator 0 paid 1, operator 7 paid 2^64 - 1", (1, 0, 0, 0, 0, 0, 0, LAST))
    heading("on duty is 0 to 7")
    take("on duty 7", fresh(duty=7))
    take("on duty 8", fresh(duty=8))
    take("on duty 2^64 - 1", fresh(duty=LAST))


def changes():
    heading("a change of duty")
    for name, operator in ("0", 0), ("7", 7), ("8", 8), ("256", 256), ("2^32", 1 << 32), ("2^64 - 1", LAST):
        change("operator " + name, operator, fresh())
    change("at the limit of bytes, operator 1", 1, full())
    change("not in order, operator 7", 7, fresh(matched=3))
    change("not in order, operator 8", 8, fresh(matched=3))
    heading("a major frame is paid to whoever is on duty when its last byte is taken")
    record(CHANGE, "", QUIET, one_short(bytes=65547), 5, keep=True)
    change("operator 5, then operator 2", 2, keep=True)
    take("the last byte", n=1, keep=True)
    record(NONE, "", BOOKED)
    change("operator 5 again", 5, keep=True)
    record(NONE, "", BOOKED)


def rules():
    named = ("rule 1", 1), ("rule 2", 2), ("rule 0", 0), ("rule 3", 3), ("the largest rule", LAST)
    heading("a fresh tally by its rule")
    for name, rule in named:
        record(FRESH, name, GIVEN, None, rule)
    heading("the rule is 1 or 2, and under rule 2 there is no split")
    for name, rule in named:
        take(name, fresh(rule))
    take("rule 1, a split", fresh(bytes=4, split=1, hunted=1))
    take("rule 2, a split", fresh(2, bytes=4, split=1, hunted=1))
    take("rule 2, no split", fresh(2, bytes=4, voted=1, hunted=1))
    heading("under rule 2 every group is voted, and three different copies name none")
    two_agree(2)
    group("16 00 00 FF")
    heading("a lead-in of which no two copies are equal")
    # FA, F3 and 20, each with one bit of three changed in each copy
    lead_in = bytes.fromhex("16 FB F8 FE 16 F2 F1 F7 16 21 22 24")
    for rule in 1, 2:
        record(TAKE, "rule %d" % rule, LOCKED, fresh(rule), AREA, lead_in)


def held_to(lines):
    """Each line is about the call at its place, and its refusal is what the clauses give."""
    said = [(text, due) for _, text, due in rows if text]
    assert len(said) == len(lines), (len(said), len(lines))
    for (text, due), line in zip(said, lines):
        parts = text.split("#")
        rest = line
        for k, part in enumerate(parts):
            assert rest.startswith(part), (text, line)
            rest = rest[len(part):]
            if k + 1 < len(parts):
                digits = rest[:len(rest) - len(rest.lstrip("0123456789"))]
                assert digits and (k or due is None or int(digits) == due), (text, line, due)
                rest = rest[len(digits):]


for part in limits, order_of_refusals, counts_limited, sums, weak, places, weak_counted, operators, changes, rules:
    part()
with open(os.path.join(CRATE, "stdout")) as f:
    held_to([line for line in f])
stored.keep(CRATE, {"stdin": b"".join(data for data, _, _ in rows)})
print(len(rows), "calls")
