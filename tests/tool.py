#!/usr/bin/env python3
"""Tests the tool `sbp` (link/sbp); its last line is 'N passed, M failed', and a comparison that fails prints a line 'differs: ..'.

Builds it with cargo over target/lib (or YAQTUMEER_LIB), and runs it: see tool_parts/ for what each part holds it against.
usage: tool.py [PART..], after link/library, and for the part `list` after tools/prove sbplist; all parts without a word
"""
import os
import subprocess
import sys

sys.dont_write_bytecode = True
sys.path.insert(0, os.path.join(os.path.dirname(os.path.abspath(__file__)), "tool_parts"))
import captures
import common
import finds
import lists
import objects
import piped
import tables
import terminal
import trouble
import unit

PARTS = {"unit": unit.cases, "list": lists.cases, "long": captures.cases, "pipes": piped.cases, "json": objects.cases, "epochs": tables.cases,
         "find": finds.cases, "use": trouble.cases, "terminal": terminal.cases}


def difference(got, wanted):
    """Both from a little before their first difference on."""
    if not (isinstance(got, (bytes, str)) and isinstance(wanted, type(got))):
        return "%.300r is not %.300r" % (got, wanted)
    at = next((i for i, (a, b) in enumerate(zip(got, wanted)) if a != b), min(len(got), len(wanted)))
    start = max(0, at - 40)
    return "at %d: %r is not %r" % (at, got[start:at + 80], wanted[start:at + 80])


def held(part):
    """Whether each comparison of a part holds."""
    try:
        for name, got, wanted in PARTS[part]():
            if got != wanted:
                print("differs: %s: %s: %s" % (part, name, difference(got, wanted)), flush=True)
            yield got == wanted
    except (OSError, ValueError, subprocess.SubprocessError) as wrong:
        print("stopped: %s: %r" % (part, wrong))
        yield False


def results(parts):
    lacking = common.lacking(parts)
    if lacking:
        print("missing here: %s" % lacking)
        yield False
        return
    for part in parts:
        yield from held(part)


def main():
    parts = sys.argv[1:] or list(PARTS)
    unknown = [part for part in parts if part not in PARTS]
    if unknown:
        print("no such part: %s; there are %s" % (" ".join(unknown), " ".join(PARTS)), file=sys.stderr)
        return 2
    all_held = list(results(parts))
    print("%d passed, %d failed" % (sum(all_held), len(all_held) - sum(all_held)))
    return 0 if all(all_held) else 1


if __name__ == "__main__":
    sys.exit(main())
