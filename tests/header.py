#!/usr/bin/env python3
"""Sees that include/pcd.h declares exactly the entries that the crates export, with their types, the refusal numbers of crates/base, and a place for
each number of a tally; and that each entry has the parameters and the promise of the library's function that it calls.

Run from the repository's root: python3 tests/header.py. The prototype of each entry is made from its signature in Rattle and compared with the
header's, both ways. Ends with status 1 where they differ, or where no entry is found."""
import glob
import re
import sys

NUMBER = {"u8": "uint8_t", "u64": "uint64_t", "i64": "int64_t", "f64": "double"}

# A parameter's name that is a word of C++ has another in the header.
RENAMED = {"operator": "operator_number"}

# An array's length that has a name in its signature.
TALLY_NUMBERS = open("crates/tally_numbers/src/lib.rt", encoding="utf-8").read()
LENGTHS = dict(re.findall(r"^pub const (\w+): usize = (\d+);$", TALLY_NUMBERS, re.M))


def parameter(name, kind):
    """One of Rattle's parameters in C: a slice is a pointer and a count, an array behind a reference a pointer."""
    if kind in NUMBER:
        return ["%s %s" % (NUMBER[kind], name)]
    lent = re.fullmatch(r"&(mut )?(?:(\w+)|\[(\w+)(?:; (\w+))?\])", kind)
    if not lent:
        sys.exit("no C type is known for %s: %s" % (name, kind))
    mutable, alone, element, length = lent.groups()
    base = ("" if mutable else "const ") + NUMBER[alone or element]
    if alone:
        return ["%s *%s" % (base, name)]
    if length:
        return ["%s %s[%s]" % (base, name, LENGTHS.get(length, length))]
    return ["%s *%s" % (base, name), "size_t %s_len" % name]


EXPORT = "#[unsafe(no_mangle)]\n"


def source(pattern):
    return "".join(open(path, encoding="utf-8").read() for path in sorted(glob.glob(pattern)))


def functions(text, head):
    """The functions behind this head: the name, the parameters, what is answered and promised, and the body's first line."""
    found = re.findall(re.escape(head) + r"fn (\w+)\((.*?)\)(?: -> (\w+))?\n(.*?)\n\{\n +(.*?)\n", text, re.S)
    return [(name, [p.strip().split(": ", 1) for p in re.split(r",\s*(?=\w+: |$)", given.strip()) if p.strip()], answer, " ".join(promise.split()), body)
            for name, given, answer, promise, body in found]


def exported():
    """Each exported entry's prototype, from its signature; and what is wrong with an entry beside the function that it calls."""
    text = source("crates/*/src/*.rt")
    entries, wrong = {}, []
    for name, parameters, answer, promise, body in functions(text, EXPORT + 'pub extern "C" '):
        arguments = [a for p, kind in parameters for a in parameter(RENAMED.get(p, p), kind)]
        entries[name] = "%s %s(%s)" % (NUMBER[answer] if answer else "void", name, ", ".join(arguments))
        called = re.fullmatch(r"(\w+)::(\w+)\((.*)\)", body)
        inner = called and functions(source("crates/%s/src/*.rt" % called.group(1)), "pub ")
        if not called or called.groups()[1:] != (name, ", ".join(p for p, _ in parameters)):
            wrong.append("%s does not pass its parameters to the library's function of its name" % name)
        elif (name, parameters, answer, promise) not in [f[:4] for f in inner]:
            wrong.append("%s has other parameters or another promise than %s::%s" % (name, called.group(1), name))
    if not entries or len(entries) != text.count(EXPORT):
        sys.exit("%d signatures were understood, of %d exported entries" % (len(entries), text.count(EXPORT)))
    return entries, wrong


def declared():
    """The header's prototypes and its constants, without comments and with each constant by its value."""
    text = re.sub(r"/\*.*?\*/", " ", open("include/pcd.h", encoding="utf-8").read(), flags=re.S)
    constants = dict(re.findall(r"^#define (PCD_\w+) +(\d+) *$", text, re.M))
    text = re.sub(r"^#.*$", "", text, flags=re.M)
    text = re.sub(r"PCD_\w+", lambda m: constants.get(m.group(), m.group()), text)
    found = re.findall(r"(\w+ (pcd_\w+)\([^()]*\));", text)
    return {name: re.sub(r"\s+", " ", prototype) for prototype, name in found}, constants


def refusals():
    text = open("crates/base/src/refusal.rt", encoding="utf-8").read()
    cases = re.findall(r"^    (\w+) = (\d+),$", text, re.M)
    return {"PCD" + re.sub(r"([A-Z])", r"_\1", name).upper(): number for name, number in cases}


def places():
    """The names of the places of a tally's numbers, in order."""
    text = re.sub(r"/\*.*?\*/", " ", open("include/pcd.h", encoding="utf-8").read(), flags=re.S)
    return re.findall(r"PCD_\w+", re.search(r"enum \{\s*(PCD_BYTES\b.*?)\}", text, re.S).group(1))


def twice():
    """The names that the header gives to two things: a constant would silently take the place of another."""
    text = re.sub(r"/\*.*?\*/", " ", open("include/pcd.h", encoding="utf-8").read(), flags=re.S)
    names = re.findall(r"^#define (PCD_\w+)", text, re.M)
    names += [name for listed in re.findall(r"enum \{(.*?)\}", text, re.S) for name in re.findall(r"PCD_\w+", listed)]
    return sorted({name for name in names if names.count(name) > 1})


def main():
    (wanted, wrong), (prototypes, constants) = exported(), declared()
    wrong += ["%s\n  the library has %s\n  the header has  %s" % (name, wanted.get(name), prototypes.get(name))
             for name in sorted(wanted.keys() | prototypes.keys()) if wanted.get(name) != prototypes.get(name)]
    numbers = refusals()
    wrong += ["%s is %s in crates/base and %s in the header" % (name, number, constants.get(name))
              for name, number in numbers.items() if constants.get(name) != number]
    if constants.get("PCD_NUMBERS") != str(len(places())):
        wrong.append("the header names %d places for the %s numbers of a tally" % (len(places()), constants.get("PCD_NUMBERS")))
    wrong += ["%s is declared twice" % name for name in twice()]
    if wrong or not numbers:
        sys.exit("include/pcd.h differs from the library:\n" + "\n".join(wrong))
    print("include/pcd.h declares the %d entries that the crates export and %d refusals" % (len(wanted), len(numbers)))


main()
