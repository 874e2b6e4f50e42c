#!/usr/bin/env python3
"""Holds docs/CLOSED.md against what it shows: its captures are those of the theorem (demands/specs/Swallowed.antt), its listings are what sbplist
and the Python twin print, its open readings the twin's. The last line is 'N passed, M failed'; what fails prints a line 'differs: ..'.

usage: pages.py (after tools/prove sbplist)
"""
import os
import re
import subprocess
import sys

ROOT = os.path.dirname(os.path.dirname(os.path.abspath(__file__)))
sys.dont_write_bytecode = True
sys.path.insert(0, os.path.join(ROOT, "twins", "python"))
import twin

PAGE = os.path.join(ROOT, "docs", "CLOSED.md")
THEOREM = os.path.join(ROOT, "crates", "demands", "specs", "Swallowed.antt")
RUN = [os.path.join(ROOT, "tools", "run"), "sbplist"]


def text(path):
    with open(path, encoding="utf-8") as file:
        return file.read()


def blocks(kind):
    """The page's blocks of a kind, in order: early, then late."""
    return re.findall(r"^```%s\n(.*?)^```$" % kind, text(PAGE), re.M | re.S)


def captures():
    return [bytes.fromhex(block) for block in blocks("capture")]


def proved():
    """The bytes that the theorem is about: a list, and what it is made longer by."""
    lists = re.findall(r"^(early|late) =\s(.*?)\[\]$", text(THEOREM), re.M | re.S)
    early, rest = (bytes(int(byte, 16) for byte in re.findall(r"0x(\w\w)", body)) for _, body in lists)
    return [early, early + rest]


def printed(data):
    return subprocess.run(RUN, input=data, stdout=subprocess.PIPE).stdout.decode()


def opened(data):
    """The twin's open reading in words."""
    frames, counts, need = twin.reading(data, True)
    lines = ["F %d %d %d %d" % (at, kind, sender, len(payload)) for at, kind, sender, payload in frames]
    at = sum(counts.values())
    return "".join(line + "\n" for line in lines + ["end at %d" % at if need is None else "needs %d from %d" % (need, at)])


def cases():
    early, late = shown = captures()
    yield "the captures are the theorem's", shown, proved()
    yield "the second begins with the first", late[:len(early)], early
    yield "the listings are sbplist's", blocks("listing"), [printed(data) for data in shown]
    yield "the listings are the twin's", blocks("listing"), [twin.listing(data) for data in shown]
    yield "the open readings are the twin's", blocks("open"), [opened(data) for data in shown]


def main():
    results = []
    for name, got, wanted in cases():
        results.append(got == wanted)
        if got != wanted:
            print("differs: docs/CLOSED.md: %s: %r is not %r" % (name, got, wanted))
    print("%d passed, %d failed" % (results.count(True), results.count(False)))
    return 0 if all(results) else 1


if __name__ == "__main__":
    sys.exit(main())
