#!/usr/bin/env python3
"""Tries wrong crates that are proved: a theorem in a crate above has to refuse each.

An edit is a file tests/must-fail/NAME.edit as in crates/*/must-fail, with a line 'crate: NAME', the crate whose code, contract, definitions and
proofs it changes, and a line 'refused: NAME', the crate above it. Several crates stand in one line, 'crate: NAME NAME', and then the paths of files
begin at the root, 'file: crates/NAME/src/..'. Without the edit all are proved. With it the crates named first, and all between them and the second,
are proved and built (rt lib); the second is not (rt check), and its first complaint is about a file of its own: an error that is not of a name that
is gone, or, of a function without a proof file, a note that something is not proved.
All happens in copies of the crates: one without an edit, which rt fills with what it has kept of the same files on this machine, and one for each
edit, in which it begins with what the first one has. The last line is 'N passed, M failed'.
usage: above.py [NAME..]
"""
import concurrent.futures
import os
import re
import shutil
import subprocess
import sys
import tempfile
import threading
import time

from edits import Wrong, edited, read

ROOT = os.path.dirname(os.path.dirname(os.path.abspath(__file__)))
EDITS = os.path.join(ROOT, "tests", "must-fail")
# an error, or a note, of a line of a crate's file: its path, and the rest
COMPLAINT = re.compile(r"^(?:note: (?=\S+:\d+:\d+: )|(?=\S+:\d+:\d+: error))(?:\./)?(\S+?):\d+:\d+: (.*)", re.M)
GONE = re.compile(r"is not in scope|has no field|has no `|was not admitted|is no name")
# one at a time proves what the edits begin with
PROVING = threading.Lock()


def rests_on():
    """Of each crate, lowest first: those that it rests on, all the way down."""
    direct = {}
    with open(os.path.join(ROOT, "crates.txt"), encoding="utf-8") as lines:
        for line in lines:
            name, colon, below = line.partition("#")[0].partition(":")
            if colon:
                direct[name.split()[0]] = below.split()
    reach = lambda name: set().union(*({below} | reach(below) for below in direct.get(name, ())))
    return dict(sorted(((name, reach(name)) for name in direct), key=lambda row: len(row[1] & set(direct))))


def rt(root, crate, word):
    """Runs rt in the folder of a crate: its exit status, and what it says."""
    ran = subprocess.run(["rt", word], cwd=os.path.join(root, "crates", crate), stdin=subprocess.DEVNULL, stdout=subprocess.PIPE,
                         stderr=subprocess.STDOUT, check=False)
    return ran.returncode, ran.stdout.decode(errors="replace")


def copied(folder):
    """The crates as they are now, without what rt keeps beside them."""
    crates = os.path.join(ROOT, "crates")
    shutil.copytree(crates, os.path.join(folder, "crates"), ignore=lambda at, _: ["out"] if os.path.dirname(at) == crates else [])
    shutil.copy2(os.path.join(ROOT, "crates.txt"), folder)


def stepped(crates, steps):
    """The steps with their paths from the root; raises Wrong where they are not steps of exactly these crates."""
    if len(crates) == 1:
        return [(os.path.join("crates", *crates, path), old, new) for path, old, new in steps]
    changed = {path.split("/")[1] if path.startswith("crates/") else path for path, _, _ in steps}
    if changed != set(crates):
        raise Wrong("it changes %s, and names %s" % (" ".join(sorted(changed)), " ".join(crates)))
    return steps


def refused(name, base, proved):
    """Tries an edit, and says where it is refused; raises Wrong where it is not. In the folder base nothing is edited, and the crates in proved are."""
    (named, above), steps = read(os.path.join(EDITS, name + ".edit"), "crate", "refused")
    crates, below, began = named.split(), rests_on(), time.monotonic()
    if not crates or not set(crates) <= below.get(above, set()):
        raise Wrong("%s does not rest on %s" % (above, named))
    with PROVING:
        for crate in [crate for crate in below if crate in below[above] or crate == above]:
            status, said = (0, "") if crate in proved else rt(base, crate, "lib")
            if status:
                raise Wrong("%s is not proved without the edit:\n%s" % (crate, said[-2000:]))
            proved.add(crate)
    with tempfile.TemporaryDirectory() as folder:
        copied(folder)
        edited(folder, stepped(crates, steps))
        for crate in [crate for crate in below if crate in below[above] and ({crate} | below[crate]) & set(crates)]:
            status, said = rt(folder, crate, "lib")
            if status:
                raise Wrong("%s is not proved with it:\n%s" % (crate, said[-2000:]))
        status, said = rt(folder, above, "check")
    if status != 1 or not re.search(r"^logic=not-proved", said, re.M):
        raise Wrong("%s is not refused:\n%s" % (above, said[-2000:]))
    first = COMPLAINT.search(said)
    if not first or not first[1].startswith(("src/", "specs/", "proofs/")):
        raise Wrong("the first complaint is not about %s: %s" % (above, first and first[0]))
    if GONE.search(first[2]):
        raise Wrong("%s is refused for a name that is gone: %s" % (above, first[0]))
    return "%s proved, refused by %s (%d s): %s" % (" ".join(crates), above, time.monotonic() - began, first[0][:160])


def main():
    names = sys.argv[1:] or sorted(name[:-5] for name in os.listdir(EDITS) if name.endswith(".edit"))
    passed, failed = 0, 0
    with tempfile.TemporaryDirectory() as base, concurrent.futures.ThreadPoolExecutor(2) as pool:
        copied(base)
        proved = set()
        for name, tried in [(name, pool.submit(refused, name, base, proved)) for name in names]:
            try:
                print("%s: %s" % (name, tried.result()))
                passed += 1
            except Wrong as why:
                failed += 1
                print("not refused: %s: %s" % (name, why))
    print("%d passed, %d failed" % (passed, failed))
    return 1 if failed or not passed else 0


if __name__ == "__main__":
    sys.exit(main())
