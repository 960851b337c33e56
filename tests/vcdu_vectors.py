#!/usr/bin/env python3
"""Vectors for the check symbols of VCDU headers, with the answers of an independent implementation.

Run from the repository's root: python3 tests/vcdu_vectors.py
It writes crates/vcdu_vectors/stdin (records) and crates/vcdu_vectors/stdout (a line for each).
With --check it writes nothing and says whether the stored files are what it would write.

A record: the operation, how many bytes are lent, and sixteen bytes, of which the first are lent.
  1  encode   the number of the refusal and the bytes afterwards
  2  check    good, bad or the refusal
  3  repair   how many symbols were wrong, or the refusal, and the bytes afterwards
  4  sweep    a checksum over the repairs of all 25,600 choices of two places and of what is wrong at each

The answers are worked out from paper 02, request 11, and appendix B of the book by other means than the library's: the generator polynomial is
multiplied out, check symbols are the remainder of a long division by it, and a header is repaired by the list of the remainders of all error
patterns of at most two symbols. That no two of these are the same is seen while the list is made."""
import itertools
import os
import random
import stored

CRATE = os.path.join("crates", "vcdu_vectors")
PROTECTED = (0, 1, 5, 6, 7)
MODULUS = 4_294_967_291

# ---- the field: powers of a root of x^4 + x + 1 (B.1 (4)), and their logarithms
POWERS = [1]
while len(POWERS) < 15:
    shifted = POWERS[-1] << 1
    POWERS.append(shifted ^ 0b10011 if shifted & 16 else shifted)
LOGS = {power: n for n, power in enumerate(POWERS)}
assert len(LOGS) == 15


def times(a, b):
    return POWERS[(LOGS[a] + LOGS[b]) % 15] if a and b else 0


# ---- the code: polynomials are lists, highest coefficient first
def product(p, q):
    result = [0] * (len(p) + len(q) - 1)
    for (i, a), (j, b) in itertools.product(enumerate(p), enumerate(q)):
        result[i + j] ^= times(a, b)
    return result


GENERATOR = [1]
for j in range(6, 10):
    GENERATOR = product(GENERATOR, [1, POWERS[j]])
# B.3, of which the copy at hand has lost G2
assert [LOGS[g] for g in GENERATOR] == [0, 3, 1, 3, 0]


def remainder(symbols):
    rest = list(symbols)
    for i in range(len(rest) - 4):
        first = rest[i]
        for k, g in enumerate(GENERATOR):
            rest[i + k] ^= times(first, g)
    assert not any(rest[:-4])
    return tuple(rest[-4:])


def patterns():
    yield {}
    for place in range(10):
        for by in range(1, 16):
            yield {place: by}
    for first, second in itertools.combinations(range(10), 2):
        for by, also in itertools.product(range(1, 16), repeat=2):
            yield {first: by, second: also}


REPAIRS = {}
for pattern in patterns():
    rest = remainder([pattern.get(place, 0) for place in range(10)])
    assert rest not in REPAIRS
    REPAIRS[rest] = pattern
assert len(REPAIRS) == 10_276


# ---- headers
def symbols_of(header):
    return [half for i in PROTECTED for half in (header[i] >> 4, header[i] & 15)]


def with_symbols(header, symbols):
    result = bytearray(header)
    for n, i in enumerate(PROTECTED):
        result[i] = symbols[2 * n] << 4 | symbols[2 * n + 1]
    return bytes(result)


def encode(header):
    if len(header) != 8:
        return 22, header
    six = symbols_of(header)[:6]
    return 0, with_symbols(header, six + list(remainder(six + [0] * 4)))


def check(header):
    if len(header) != 8:
        return "refused 22"
    return "bad" if any(remainder(symbols_of(header))) else "good"


def repair(header):
    """The count and the number of the refusal, and the header afterwards."""
    if len(header) != 8:
        return 0, 22, header
    symbols = symbols_of(header)
    pattern = REPAIRS.get(remainder(symbols))
    if pattern is None:
        return 0, 23, header
    return len(pattern), 0, with_symbols(header, [c ^ pattern.get(place, 0) for place, c in enumerate(symbols)])


# The book's own values (3.1.2.2.1.8).
for first, last in ((b"\x45\x41", (b"\x40\x65\x94", b"\x00\xBF\x82")), (b"\x45\x42", (b"\x40\x03\xA5", b"\x00\xD9\xB3"))):
    for tail in last:
        whole = first + b"\x00\x01\x02" + tail
        assert encode(whole[:6] + b"\xFF\xFF") == (0, whole) and check(whole) == "good"


def mix(total, n):
    return (total % MODULUS * 31 + n % MODULUS) % MODULUS


def spoiled(header, changes):
    symbols = symbols_of(header)
    for place, by in changes:
        symbols[place] ^= by
    return with_symbols(header, symbols)


def sweep(header):
    total = 0
    for place, by, also_place, also in itertools.product(range(10), range(16), range(10), range(16)):
        count, refusal, left = repair(spoiled(header, ((place, by), (also_place, also))))
        checksum = 0
        for b in left:
            checksum = mix(checksum, b)
        total = mix(mix(total, 100 + refusal if refusal else count), checksum)
    return total


# ---- the records
def record(operation, header):
    return bytes((operation, len(header))) + header + bytes(16 - len(header))


def asked(header):
    """Each of the three entries on a header."""
    refusal, encoded = encode(header)
    yield record(1, header), "encoded %d %s" % (refusal, encoded.hex())
    yield record(2, header), check(header)
    count, refusal, left = repair(header)
    yield record(3, header), "%s %s" % ("refused %d" % refusal if refusal else "corrected %d" % count, left.hex())


def any_bytes(rng, n):
    return bytes(rng.randrange(256) for _ in range(n))


def headers(rng):
    """The book's four, all zeros, all ones, and some others, each with its check symbols."""
    plain = [bytes.fromhex(h) for h in ("4541000000400000", "4541FFFFFF000000", "4542000001400000", "4542123456000000", "00" * 8, "FF" * 8)]
    plain += [any_bytes(rng, 8) for _ in range(6)]
    return [encode(h)[1] for h in plain]


def records():
    rng = random.Random(11)
    whole = headers(rng)
    for n in range(17):
        if n != 8:
            yield from asked(any_bytes(rng, n))
    for h in whole:
        yield from asked(h)
        yield record(4, h), "swept %d" % sweep(h)
    # A counter that changes, every single error of one header, three and more errors, and any bytes.
    for h in whole:
        yield from asked(h[:2] + any_bytes(rng, 3) + h[5:])
    for place, by in itertools.product(range(10), range(1, 16)):
        yield from asked(spoiled(whole[0], ((place, by),)))
    for _ in range(600):
        places = rng.sample(range(10), rng.choice((3, 3, 3, 4, 5)))
        yield from asked(spoiled(rng.choice(whole), [(place, rng.randrange(1, 16)) for place in places]))
    for _ in range(400):
        yield from asked(any_bytes(rng, 8))


def main():
    rows = list(records())
    files = {
        "stdin": b"".join(data for data, _ in rows),
        "stdout": "".join(line + "\n" for _, line in rows).encode(),
    }
    stored.keep(CRATE, files)
    print(len(rows), "vectors")


if __name__ == "__main__":
    main()
