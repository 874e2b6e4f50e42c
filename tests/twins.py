#!/usr/bin/env python3
"""Tests the twins and holds them against each other; its last line is 'N passed, M failed'.

The Rust twin's tests, the C twin's, and the listings and the indexes of all three on generated captures. usage: twins.py [SEED [COUNT]]
"""
import os
import subprocess
import sys
import tempfile

ROOT = os.path.dirname(os.path.dirname(os.path.abspath(__file__)))
RUST, C = os.path.join(ROOT, "twins", "rust"), os.path.join(ROOT, "twins", "c")
sys.dont_write_bytecode = True
sys.path.insert(0, os.path.join(ROOT, "twins", "python"))
import twin

INDEXED = 4000  # so many bytes of a capture


def cargo(word):
    return subprocess.run(["cargo", word, "--offline", "--release", "--quiet"], cwd=RUST).returncode == 0


def compiled(work, name):
    """The C twin with one of its programs, or None."""
    made = os.path.join(work, name)
    words = ["gcc", "-std=c11", "-O3", "-Wall", "-Wextra", "-Werror", "-o", made, name + ".c", "fast.c", "folded.c", "index.c", "rows.c"]
    return made if subprocess.run(words, cwd=C).returncode == 0 else None


def released(name):
    return os.path.join(RUST, "target", "release", name)


def captures(seed, count):
    stream = subprocess.run([released("twingen"), str(seed), str(count)], stdout=subprocess.PIPE, check=True).stdout
    while stream:
        end = 4 + int.from_bytes(stream[:4], "little")
        yield stream[4:end]
        stream = stream[end:]


def printed(program, data, *words):
    return subprocess.run([program, *words], input=data, stdout=subprocess.PIPE).stdout.decode()


def alike(seed, texts):
    same = len(set(texts.values())) == 1
    if not same:
        print("seed %d: %s" % (seed, texts))
    return same


def listed(clist, seed, data):
    return alike(seed, {"Rust": printed(released("twinlist"), data), "C": printed(clist, data), "Python": twin.listing(data)})


def indexed(cindex, seed, data):
    """Rust and C extend theirs by pieces of up to 300 bytes; Python makes it afresh."""
    piece, index = str(1 + seed * 37 % 300), twin.Index()
    index.extend(data, len(data))
    afresh = "".join(line + "\n" for line in index.lines())
    return alike(seed, {"Rust": printed(released("twinindex"), data, piece), "C": printed(cindex, data, piece), "Python": afresh})


def agreed(clist, cindex, seed, count):
    """Whether all three list a capture alike, for each capture, and have the same index of the beginning of every fourth."""
    for at, data in enumerate(captures(seed, count), seed):
        yield listed(clist, at, data)
        if at % 4 == 0:
            yield indexed(cindex, at, data[:INDEXED])


def results(seed, count):
    with tempfile.TemporaryDirectory() as work:
        built = cargo("build")
        yield built
        yield cargo("test")
        ccheck, clist, cindex = (compiled(work, name) for name in ("ccheck", "clist", "cindex"))
        yield ccheck is not None and subprocess.run([ccheck]).returncode == 0
        if built and clist is not None and cindex is not None:
            yield from agreed(clist, cindex, seed, count)
        else:
            yield False


def main():
    seed, count = [int(word) for word in sys.argv[1:]] + [1, 400][len(sys.argv) - 1:]
    try:
        held = list(results(seed, count))
    except FileNotFoundError as missing:
        print("missing here: %s" % missing.filename)
        held = [False]
    print("%d passed, %d failed" % (sum(held), len(held) - sum(held)))
    return 0 if all(held) else 1


if __name__ == "__main__":
    sys.exit(main())
