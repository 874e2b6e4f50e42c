#!/usr/bin/env python3
"""Holds what the linked functions say against what the Python twin works out, line by line: a program made of tests/values asks them. A line that
is not there differs too. The last line is 'N passed, M failed'.

usage: values.py PROGRAM
"""
import itertools
import os
import subprocess
import sys

ROOT = os.path.dirname(os.path.dirname(os.path.abspath(__file__)))
sys.dont_write_bytecode = True
sys.path[:0] = [os.path.join(ROOT, "twins", "python")]
import answers

SECONDS, SHOWN = 60, 5


def main(program):
    run = subprocess.run([program], stdin=subprocess.DEVNULL, stdout=subprocess.PIPE, timeout=SECONDS, check=False)
    lines = run.stdout.decode(errors="replace").splitlines()
    pairs = list(itertools.zip_longest(lines, answers.asked()))
    differ = [(number, *pair) for number, pair in enumerate(pairs, 1) if pair[0] != pair[1]]
    for number, said, wanted in differ[:SHOWN]:
        print("differs: line %d is '%s', and the twin has '%s'" % (number, said, wanted))
    if run.returncode:
        print("differs: it ended with %d" % run.returncode)
    failed = len(differ) + (run.returncode != 0)
    print("%d passed, %d failed" % (len(pairs) - len(differ), failed))
    return 1 if failed else 0


if __name__ == "__main__":
    sys.exit(main(*sys.argv[1:]))
