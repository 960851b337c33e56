#!/usr/bin/env python3
"""Counts the places of each point of docs/DESIGN-PASS.md, by the text of the sources.

usage: python3 tools/places.py [-l] [POINT..]        at the top of the repository; -l lists the places

A place is a line of src/ (of proofs/ for point 8) that a pattern finds; it tells where to look, and no verdict.
"""
import collections
import glob
import re
import sys

KEYWORDS = set("fn let mut if else while for in loop match return pub struct enum impl as true false self".split())
CONDITION = r"(?:requires|ensures)(?: \w+)? \{ (.*?) \}\n"


def sources():
    for path in sorted(glob.glob("crates/*/src/*.rt")):
        yield path, open(path, encoding="utf-8").read()


def line_of(text, at):
    return text.count("\n", 0, at) + 1


def functions():
    """Each function: its path, line, name, parameters, answer, clauses and body."""
    head = re.compile(r"^( *)(?:pub(?:\(crate\))? )?(?:extern \"C\" )?fn (\w+)(?:<[^(]*>)?\(", re.M)
    for path, text in sources():
        for m in head.finditer(text):
            indent = m.group(1)
            close = re.compile(r"^%s(?:\{\}|.*\{\}|\})$" % indent, re.M).search(text, m.end())
            if not close:
                continue
            whole = text[m.start():close.end()]
            body = whole[whole.find("\n" + indent + "{\n") + 1:] if "\n" + indent + "{\n" in whole else whole
            told = re.match(r"(.*?)\)(?: -> ([^\n{]*))?", text[m.end():close.end()], re.S)
            params = [p.strip() for p in re.sub(r"\s+", " ", told.group(1)).split(",") if p.strip()]
            yield path, line_of(text, m.start()), m.group(2), params, (told.group(2) or "").strip(), whole, body


def found(pattern, keep=lambda path: True):
    for path, text in sources():
        if keep(path):
            for m in re.finditer(pattern, text, re.M):
                yield path, line_of(text, m.start()), m.group(0).strip().split("\n")[0]


def exported(path):
    return re.match(r"crates/(bridge|\w+_api|\w+_c)/", path)


def refusing():
    """Numbers for refusals, and own enums of the shape of Option or Result."""
    yield from found(r"^ +(?:pub )?(?:Refused\(u8\)|refusal: u8|number: u8),")
    yield from found(r"^ +(?:Nothing|NotANumber|Neither|Accepted)\b.*,$")
    for path, line, name, params, answer, whole, body in functions():
        if answer == "u8" and not exported(path):
            if "refusal" in whole or re.search(r"return [A-Z_]{6,};|Promise ", whole):
                yield path, line, "fn %s -> u8" % name


def shape(body):
    words = re.findall(r"\w+|[^\w\s]", re.sub(r"//.*", "", body))
    return " ".join(w if w in KEYWORDS or not re.match(r"\w", w) else ("0" if w[0].isdigit() else "x") for w in words)


def twins():
    """Functions whose bodies differ in names and numbers alone, of four lines or more; structs with the same fields."""
    groups = collections.defaultdict(list)
    for path, line, name, params, answer, whole, body in functions():
        if body.count("\n") >= 5:
            groups[shape(body)].append((path, line, "fn %s" % name))
    for path, text in sources():
        for m in re.finditer(r"^(?:pub(?:\(crate\))? )?struct (\w+)[^{;]*\{(.*?)^\}", text, re.M | re.S):
            fields = tuple(re.findall(r"(\w+: [^,\n]+),", m.group(2)))
            if len(fields) > 1:
                groups[fields].append((path, line_of(text, m.start()), "struct %s" % m.group(1)))
    for places in groups.values():
        if len(places) > 1:
            for n, place in enumerate(places):
                yield place[0], place[1], place[2] + ("" if n == 0 else "  (as %s:%d)" % places[0][:2])


def loops():
    """Loops that are no `for`."""
    yield from found(r"^ *(?:while|loop)\b.*$")


def conversions():
    """Casts, and functions that convert, compare or choose as the library does."""
    yield from found(r"\bas (?:u8|u16|u32|u64|usize|i64)\b")
    yield from found(r"^(?:pub(?:\(crate\))? )?fn (?:wide|widen|least|the_higher|byte_at|element|at|same|bit|mark)\(.*$")


def repeated():
    """Facts in the `requires` of three functions of a crate or more; three parameters that go together in as many."""
    facts = collections.defaultdict(list)
    together = collections.defaultdict(list)
    for path, line, name, params, answer, whole, body in functions():
        crate = path.split("/")[1]
        for clause in re.findall(r"requires(?: \w+)? \{ (.*?) \}", whole):
            for fact in clause.split(" × "):
                facts[crate, fact.strip("() ")].append((path, line, name + ": " + fact))
        for i in range(len(params) - 2):
            together[crate, tuple(params[i:i + 3])].append((path, line, name + ": " + ", ".join(params[i:i + 3])))
    for group in (facts, together):
        for places in group.values():
            if len(places) > 2:
                yield places[0][0], places[0][1], "%s, in %d functions" % (places[0][2], len(places))


def buffers():
    """A lent buffer with where its text ends, halving by hand, and a list with how much of it counts."""
    for path, line, name, params, answer, whole, body in functions():
        joined = ", ".join(params)
        if re.search(r"&mut \[u\d+\], at: usize", joined) or re.search(r"&mut \[u8\]", joined) and answer == "usize":
            yield path, line, "fn " + name
    yield from found(r"^ *while low < high.*$")


def switches():
    """A number that says which step to run."""
    yield from found(r"^ *match (?:operation|record\[0\]|asked\.\w+|word\[0\]).*$")


def answers():
    """Answers in proofs that say no more than the check finds alone."""
    for path in sorted(glob.glob("crates/*/proofs/**/Answers.antt", recursive=True)):
        for n, line in enumerate(open(path, encoding="utf-8"), 1):
            if re.match(r"^[\w\-]+ c = (?:tt|omega arith|search rules|refl)$", line):
                yield path, n, line.strip()


POINTS = [refusing, twins, loops, conversions, repeated, buffers, switches, answers]


def main():
    told = [a for a in sys.argv[1:] if a != "-l"]
    for n, point in enumerate(POINTS, 1):
        if told and str(n) not in told:
            continue
        places = list(point())
        print("%d: %4d  %s" % (n, len(places), point.__doc__))
        if "-l" in sys.argv[1:]:
            for path, line, text in places:
                print("     %s:%d: %s" % (path, line, text))


main()
