#!/usr/bin/env python3
"""Holds the functions that the C header declares, and the structs that they are lent, against the Rust wrapper's declarations and against the
Rattle source: names, parameters and fields in their order, types. And the functions of `exports_c`, which are linked, against those of `exports`,
which the theorems are about: the same names, parameters and clauses, word for word and with the same definitions, and each only calls its namesake.

A compiler takes parameters of one type in any order, and a linker takes any. No crate can rest on a static library, so no theorem says that the two
crates promise the same. The last line is 'N passed, M failed'.
usage: signatures.py
"""
import glob
import os
import re
import sys

ROOT = os.path.dirname(os.path.dirname(os.path.abspath(__file__)))
STRUCTS = {"sbp_entry": "Entry"}
TYPES = {"size_t": "usize", "bool": "bool", "void": "", **STRUCTS}
TYPES.update({"%sint%d_t" % (sign, bits): "%s%d" % (rust, bits) for sign, rust in (("u", "u"), ("", "i")) for bits in (8, 16, 32, 64)})
# what a slice of Rattle crosses with, whose name is C's and Rust's own
LENGTH = "usize"


def read(*pattern):
    """The text of all files of that name."""
    text = ""
    for path in sorted(glob.glob(os.path.join(ROOT, *pattern))):
        with open(path, encoding="utf-8") as file:
            text += file.read()
    return text


def rust_type(words, pointer):
    constant = words[0] == "const"
    return ("*const " if constant else "*mut ") * pointer + TYPES[words[-1]]


def parameter(text):
    """A parameter of C, as Rust has it."""
    kind, pointer, name = re.fullmatch(r"(.*?)\s*(\*?)(\w+)", text.strip()).groups()
    return "%s: %s" % (name, rust_type(kind.split(), len(pointer)))


def crossing(text):
    """What a parameter of Rattle crosses as."""
    name, kind = " ".join(text.split()).split(": ")
    borrowed = re.fullmatch(r"&(mut )?(\[)?(?:\w+::)*(\w+)\]?", kind)
    if borrowed is None:
        return ["%s: %s" % (name, kind)]
    mutable, many, of = borrowed.groups()
    return ["%s: *%s %s" % (name, "mut" if mutable else "const", of)] + [LENGTH] * bool(many)


def words(inside):
    return [one for one in inside.split(",") if one.strip()]


def in_c():
    header = read("link", "include", "sbp.h")
    for answer, name, inside in re.findall(r"^(\w+) (sbp_\w+)\(([^)]*)\);", header, re.M):
        yield name, [parameter(one) for one in inside.split(",") if one != "void"] + [TYPES[answer]]
    for name, rust in STRUCTS.items():
        inside = "".join(re.findall(r"^struct %s \{([^}]*)\};" % name, header, re.M))
        yield rust, [parameter(one) for one in inside.split(";") if one.strip()]


def structs(source):
    """Their fields; without repr(C) these have no order."""
    for name in STRUCTS.values():
        inside = re.findall(r"^#\[repr\(C\)\]\n(?:#.*\n)*pub struct %s \{([^}]*)\n\}" % name, source, re.M)
        yield name, re.findall(r"^    pub (\w+: \w+),", "".join(inside), re.M)


def in_rust():
    source = read("link", "rust", "src", "*.rs")
    for name, inside, answer in re.findall(r"pub fn (sbp_\w+)\(([^)]*)\)\s*->\s*(\w+);", source):
        yield name, [" ".join(one.split()) for one in words(inside)] + [answer]
    yield from structs(source)


def in_rattle():
    source = read("crates", "*", "src", "*.rt")
    for name, inside, answer in re.findall(r'^pub extern "C" fn (sbp_\w+)\(([^)]*)\)\s*->\s*(\w+)', source, re.M):
        yield name, [one for text in words(inside) for one in crossing(text)] + [answer]
    yield from structs(source)


def named(source):
    """The names that a file brings in, and where from; `ghost use` and `use` alike."""
    found = {}
    for path, many, one in re.findall(r"^(?:ghost )?use ([\w.:]+?)(?:\.|::)(?:\{([^}]*)\}|(\w+));", source, re.M):
        for name in words(many) or [one]:
            found[name.strip()] = path
    return found


def stated(crate, head):
    """Of each function that begins with these words: parameters, result and clauses, what the names in them mean, and the body."""
    for path in sorted(glob.glob(os.path.join(ROOT, "crates", crate, "src", "*.rt"))):
        with open(path, encoding="utf-8") as file:
            source = file.read()
        brought = named(source)
        for name, said, body in re.findall(r"^%s(sbp_\w+)(\(.*?)^\{\n(.*?)^\}$" % re.escape(head), source, re.M | re.S):
            said = re.sub(r"\( | \)|,(?= ?\))", lambda mark: mark[0].strip(" ,"), " ".join(said.split()))
            yield name, (said, {word: brought[word] for word in sorted(brought) if word in re.split(r"[\s(){}&\[\].,;:]+", said)}, body)


def passed_on():
    """Of each function of exports and exports_c: what each states, and whether the second only calls the first."""
    below, above = dict(stated("exports", "pub fn ")), dict(stated("exports_c", '#[unsafe(no_mangle)]\npub extern "C" fn '))
    for name in sorted(below.keys() | above.keys()):
        said, meant, body = above.get(name, (None, None, None))
        parameters = [one.split(":")[0].strip() for one in words((said or "()")[1:].partition(")")[0])]
        calls = body == "    exports::%s(%s)\n" % (name, ", ".join(parameters))
        yield name, below.get(name, (None, None))[:2], (said, meant), calls


def alike(one, other):
    """Whether two have the same parameters; a length without a name is like any."""
    def same(a, b):
        return a == b or b == LENGTH and a.endswith(": " + LENGTH)
    return one is not None and other is not None and len(one) == len(other) and all(map(same, one, other))


def main():
    header, passed, failed = dict(in_c()), 0, 0
    for language, declared in (("Rust", dict(in_rust())), ("Rattle", dict(in_rattle()))):
        for name in sorted(header.keys() | declared.keys()):
            if alike(header.get(name), declared.get(name)):
                passed += 1
            else:
                failed += 1
                print("differs: %s: C has %s, %s %s" % (name, header.get(name), language, declared.get(name)))
    for name, below, above, calls in passed_on():
        if below == above and calls:
            passed += 1
        else:
            failed += 1
            print("differs: %s: %s" % (name, "exports says %s, exports_c %s" % (below, above) if below != above else "exports_c does not only call it"))
    print("%d passed, %d failed" % (passed, failed))
    return 1 if failed or not passed else 0


if __name__ == "__main__":
    sys.exit(main())
