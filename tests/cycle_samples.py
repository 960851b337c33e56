#!/usr/bin/env python3
"""Samples for the programs over cycles, with what each program must write.

Run from the repository's root: python3 tests/cycle_samples.py
It writes args, stdin and stdout below crates/pcd_book and crates/pcd_orbit.
With --check it writes nothing and says whether the stored files are what it would write.

Which frames are a cycle, and what its records are, is told by the independent implementation of tests/orbit_vectors.py: every run of four frames is
asked for, and two of them never overlap. The book is put together here from its parts."""
import os
import random
import struct
from decimal import Decimal
from fractions import Fraction

import orbit_vectors as orbit
import program_samples as samples
from stored import keep

FRAME, BODY = 16384, 65536
HEADER = "cycle,frame,record,item,unit,value,refusal,instant,year,day,hour,minute,second,millisecond,sixteenth"


# ---- Frames and their cycles

def frames_of(data):
    return [data[at:at + FRAME] for at in range(0, len(data), FRAME)]


def cycles_in(year, frames):
    """The first frame of each cycle, and its body."""
    for at in range(len(frames) - 3):
        body = b"".join(frames[at:at + 4])
        if orbit.is_cycle(year, body):
            yield at, body


def instant(year, body):
    return orbit.instant_of(year, orbit.column(body, 0)[96:103])


def book(year, bodies):
    n = len(bodies)
    entries = b"".join(struct.pack(">QI", instant(year, body), 4 + 12 * n + BODY * i) for i, body in enumerate(bodies))
    return struct.pack(">HH", n, year) + entries + b"".join(bodies)


def rising(year, bodies, most=255):
    """The bodies that a book takes, as they come: each later than the last that it has."""
    kept = []
    for body in bodies:
        if len(kept) < most and (not kept or instant(year, kept[-1]) < instant(year, body)):
            kept.append(body)
    return kept


def changed(frame, at, value):
    return frame[:at] + bytes([value]) + frame[at + 1:]


# ---- The book

FIRST, SECOND, THIRD = (123, 4, 56, 7, 890, 15), (123, 4, 56, 24, 274), (300, 0, 0, 0, 0)


def book_frames():
    """Ends of cycles, a cycle that is interrupted, one with a bad frame, one that does not rise, two that do, and a beginning."""
    first, second, third = (frames_of(samples.body(time, mark)) for time, mark in ((FIRST, 1), (SECOND, 2), (THIRD, 3)))
    bad = third[:2] + [changed(third[2], 128 * 7 + 65, 8)] + third[3:]
    return first[2:] + second[:3] + first + [bytes(FRAME)] + first + bad + second + second[:1] + second[:2] + third + third[:2]


def write_book():
    year, frames = 2003, book_frames()
    bodies = [body for _, body in cycles_in(year, frames)]
    kept = rising(year, bodies)
    assert len(bodies) == 4 and len(kept) == 3
    # The status goes to standard output too, as the last line: 1, for a cycle is left out.
    keep_program("pcd_book", ["1", str(year), "32"], b"".join(frames), book(year, kept) + b"1\n")


# ---- The records

def text(exact):
    """A number as decimal digits, all of them."""
    assert Fraction(float(exact)) == exact
    return format(Decimal(float(exact)), "f")


def when(year, at):
    if at == 0:
        return [""] * 8
    rest, sixteenth = divmod(at, 16)
    rest, milli = divmod(rest, 1000)
    rest, second = divmod(rest, 60)
    rest, minute = divmod(rest, 60)
    day, hour = divmod(rest, 24)
    return [str(n) for n in (at, year, day, hour, minute, second, milli, sixteenth)]


def lines(cycle, frame, year, record, names, values, refused, at):
    for (item, unit), value in zip(names, values):
        told = ["", str(refused)] if refused else [value, ""]
        yield ",".join([str(cycle), str(frame), record, item, unit] + told + when(year, at))


def numbers(said):
    """The values of the lines `number BITS`, as text."""
    return [text(Fraction(struct.unpack(">d", bytes.fromhex(line.split()[1]))[0])) for line in said]


def records(year, cycle, body):
    head, *rest = orbit.say_gyro_drift(year, body)
    _, _, refused, _, at = head.split()
    yield from lines(cycle, 0, year, "gyro drift", [(axis, "rad/s") for axis in "xyz"], numbers(rest), int(refused), int(at))
    head, *rest = orbit.say_clock(year, body)
    _, refused, _, bias, _, rate, _, acceleration = head.split()
    names = [("updated", "s"), ("bias", "count"), ("rate", "count"), ("acceleration", "count")]
    yield from lines(cycle, 0, year, "clock", names, numbers(rest) + [bias, rate, acceleration], int(refused), 0)
    for k in range(4):
        head, *rest = orbit.say_ephemeris(year, body, k)
        _, refused, _, at = head.split()
        names = [(axis, "m") for axis in "xyz"] + [("v" + axis, "m/ms") for axis in "xyz"]
        yield from lines(cycle, k, year, "ephemeris", names, numbers(rest), int(refused), int(at))
        _, refused, _, at, *values = orbit.say_attitude(year, body, k)[0].split()
        values = [str(int(v) - 2 ** 31) for v in values]
        yield from lines(cycle, k, year, "attitude", [("epa%d" % i, "count") for i in (1, 2, 3, 4)], values, int(refused), int(at))
        head, *rest = orbit.say_temperatures(year, body, k)
        names = [("temp%d" % i, "degC") for i in (1, 2, 3, 4)]
        yield from lines(cycle, k, year, "temperatures", names, numbers(rest), int(head.split()[1]), 0)


def cycle_of(columns):
    bench = orbit.Bench()
    bench.load(columns)
    return bytes(bench.area[:BODY])


def write_orbit():
    """Cycles with counts at their edges and with random ones; one with refused records, next to the first instant of the year; frames in no cycle."""
    rng, year = random.Random(27), 2004
    edges = orbit.made_columns(rng, orbit.time_code(60), orbit.EDGES)
    plain = orbit.made_columns(rng, orbit.time_code(366, 23, 59, 50, 999, 7))
    odd = [bytearray(c) for c in orbit.made_columns(rng, orbit.time_code(1, 0, 0, 4, 96, 0))]
    odd[0][28:34] = orbit.BAD_1750[0]
    odd[2][110] |= 0x10
    cycles = [frames_of(cycle_of(c)) for c in (edges, plain, odd)]
    frames = cycles[0] + cycles[1][1:] + cycles[1] + [bytes(FRAME)] + cycles[2] + cycles[0][:3]
    found = [body for _, body in cycles_in(year, frames)]
    assert len(found) == 3
    said = [HEADER] + [line for i, body in enumerate(found) for line in records(year, i, body)]
    # The status goes to standard output too, as the last line.
    keep_program("pcd_orbit", ["1", str(year)], b"".join(frames), ("\n".join(said) + "\n0\n").encode())


def keep_program(crate, args, stdin, stdout):
    keep(os.path.join("crates", crate), {"args": "".join(word + "\n" for word in args).encode(), "stdin": stdin, "stdout": stdout})


if __name__ == "__main__":
    write_book()
    write_orbit()
