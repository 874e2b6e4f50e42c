#!/usr/bin/env python3
"""Tries wrong edits of what stands around the proved functions (header, wrapper, tool, examples, page, and what tools/contracts, tools/reached and
tests/constants.py read): its test has to refuse each.

An edit is a file tests/wrong/NAME.edit as in crates/*/must-fail (lines 'file: PATH' from the root, 'old: TEXT', which is there once, 'new:
TEXT'), with a line 'test: COMMAND'. Without the edit the command passes. With it the command fails, and at a comparison: it prints a line that
begins with 'differs: ', which nothing prints that is not compiled. All happens in two copies of the repository, side by side. The last line is
'N passed, M failed'.
usage: wrong.py [NAME..] (after link/library and tools/prove sbplist)
"""
import concurrent.futures
import os
import shutil
import signal
import subprocess
import sys
import tempfile

from edits import Wrong, edited, read, restore

ROOT = os.path.dirname(os.path.dirname(os.path.abspath(__file__)))
EDITS = os.path.join(ROOT, "tests", "wrong")
BUILT = ("lib", "bin")
SECONDS = 600


def copied(folder):
    """The repository's files as they are now, and what was built of it by a link."""
    listed = subprocess.run(["git", "ls-files", "-z", "--cached", "--others", "--exclude-standard"], cwd=ROOT, stdout=subprocess.PIPE, check=True)
    for name in filter(None, listed.stdout.decode().split("\0")):
        source, copy = os.path.join(ROOT, name), os.path.join(folder, name)
        if os.path.isfile(source):
            os.makedirs(os.path.dirname(copy), exist_ok=True)
            shutil.copy2(source, copy)
    os.makedirs(os.path.join(folder, "target"))
    for part in BUILT:
        os.symlink(os.path.join(ROOT, "target", part), os.path.join(folder, "target", part))


def run(folder, command):
    """Its exit status, or None where it did not end, and its output."""
    with subprocess.Popen(["bash", "-c", command], cwd=folder, stdin=subprocess.DEVNULL, stdout=subprocess.PIPE, stderr=subprocess.STDOUT,
                          start_new_session=True) as program:
        try:
            said = program.communicate(timeout=SECONDS)[0]
            return program.returncode, said.decode(errors="replace")
        except subprocess.TimeoutExpired:
            os.killpg(program.pid, signal.SIGKILL)
            return None, program.communicate()[0].decode(errors="replace")


def refused(folder, name, sound):
    """Tries an edit; raises Wrong where its test does not refuse it. sound has what each test said without an edit."""
    (test,), steps = read(os.path.join(EDITS, name + ".edit"), "test")
    if test not in sound:
        sound[test] = run(folder, test)
    if sound[test][0] != 0:
        raise Wrong("without it '%s' does not pass:\n%s" % (test, sound[test][1]))
    before = edited(folder, steps)
    status, said = run(folder, test)
    restore(before)
    if status is None:
        raise Wrong("'%s' does not end" % test)
    if status == 0:
        raise Wrong("'%s' passes" % test)
    if not any(line.startswith("differs: ") for line in said.splitlines()):
        raise Wrong("'%s' does not fail at a comparison:\n%s" % (test, said))


def tried(names):
    """Tries edits one after the other in a copy of their own; says of each what is wrong, or None."""
    said, sound = {}, {}
    with tempfile.TemporaryDirectory() as folder:
        copied(folder)
        for name in names:
            try:
                refused(folder, name, sound)
                said[name] = None
            except Wrong as why:
                said[name] = why
    return said


def halves(names):
    """The edits in two parts of about one size; those of one test are together, since it is run once without them."""
    by_test, parts = {}, ([], [])
    for name in names:
        by_test.setdefault(read(os.path.join(EDITS, name + ".edit"), "test")[0][0], []).append(name)
    for group in sorted(by_test.values(), key=len, reverse=True):
        min(parts, key=len).extend(group)
    return parts


def main():
    names = sys.argv[1:] or sorted(name[:-5] for name in os.listdir(EDITS) if name.endswith(".edit"))
    with concurrent.futures.ThreadPoolExecutor(2) as pool:
        said = {name: why for part in pool.map(tried, halves(names)) for name, why in part.items()}
    for name in names:
        if said[name] is not None:
            print("not refused: %s: %s" % (name, said[name]))
    failed = sum(why is not None for why in said.values())
    print("%d passed, %d failed" % (len(said) - failed, failed))
    return 1 if failed or not said else 0


if __name__ == "__main__":
    sys.exit(main())
