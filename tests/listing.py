#!/usr/bin/env python3
"""Holds sbplist against the Python twin's listing, on captures at the edges, and stored files against what makes them; its last line is
'N passed, M failed'.

usage: listing.py (after tools/prove sbplist)
"""
import os
import subprocess
import sys

ROOT = os.path.dirname(os.path.dirname(os.path.abspath(__file__)))
sys.dont_write_bytecode = True
sys.path[:0] = [os.path.join(ROOT, "twins", "python"), os.path.join(ROOT, "tests", "sample")]
import answers
import logs
import make
import twin

# 003, section 6.3: the lengths of the ephemerides and of what goes with them; and types that have no reading
ORBITS = {0x0081: 185, 0x0082: 112, 0x0083: 112, 0x0090: 70, 0x0091: 10, 0x0092: 14}
UNREAD = 0x0047, 0x0080, 0x00A0, 0x00A4, 0x00A5, 0x00A7, 0x00AE

RUN = [os.path.join(ROOT, "tools", "run"), "sbplist"]


def printed(data, piece=None):
    """What sbplist prints, the capture coming whole or in pieces."""
    with subprocess.Popen(RUN, stdin=subprocess.PIPE, stdout=subprocess.PIPE, stderr=subprocess.PIPE) as program:
        if piece is None:
            return program.communicate(data)[0].decode()
        try:
            for at in range(0, len(data), piece):
                program.stdin.write(data[at:at + piece])
                program.stdin.flush()
        except BrokenPipeError:
            pass
        return program.communicate()[0].decode()


def cases():
    sample = make.capture()
    blank, epoch = twin.frame(0, 0, b""), twin.frame(twin.OBS, 65535, twin.obs(2**32 - 1, 65535, 0x10, 0))
    ten = b"".join(twin.frame(twin.OBS, 65530 - s, twin.obs(5, 6, 0x20 + i, s % 16)) for i in (0, 1) for s in range(10))
    yield "nothing", b"", None
    yield "one byte of noise", b"\x00", None
    yield "one byte of a frame", b"\x55", None
    yield "the sample", sample, None
    yield "the sample, 7 bytes at a time", sample, 7
    yield "65536 bytes of noise", bytes(65536), None
    yield "65537 bytes of noise", bytes(65537), None
    yield "65536 bytes of frames", blank * 8192, None
    yield "65537 bytes of frames", blank * 8192 + b"\x55", None
    yield "65535 bytes of epochs", epoch * 4369, None
    yield "65536 bytes of 0x55", b"\x55" * 65536, None
    yield "ten senders", ten, None
    yield "two queues", answers.two_queues(64), None
    yield "packets in every order, with copies", answers.every_order(), None
    yield "unknown and malformed", b"".join(twin.frame(k, 9, bytes(n)) for k in (0x48, 0x49, 0x4A, 0x100, 0x200, 0x401) for n in (0, 7, 11, 24, 32, 255)), None
    yield "LOGs: text, and zeros after it", logs.CAPTURE, None
    yield "ephemerides: their lengths and one off", b"".join(twin.frame(k, 9, bytes(n + off)) for k, n in ORBITS.items() for off in (-1, 0, 1)), None
    yield "types that stay without a reading", b"".join(twin.frame(k, 9, bytes(n)) for k in UNREAD for n in (0, 70, 112, 185)), None
    yield "a megabyte, 997 bytes at a time", (sample + bytes(100)) * 200, 997


def as_stored(program, lines):
    """Whether these lines are what a program has to print."""
    with open(os.path.join(ROOT, "crates", program, "stdout")) as stored:
        return stored.read() == "".join(line + "\n" for line in lines)


def main():
    passed, failed = 0, []
    for name, data, piece in cases():
        if printed(data, piece) == twin.listing(data):
            passed += 1
        else:
            failed.append(name)
            print("not the listing:", name, data[:60].hex())
    with open(os.path.join(ROOT, "tests", "sample", "base-and-rover.sbp"), "rb") as stored:
        sample = stored.read() == make.capture()
    vectors, rewritten = as_stored("vectors", answers.lines()), as_stored("rewritten", answers.rewritten())
    with subprocess.Popen(RUN, stdin=os.open(ROOT, os.O_RDONLY), stdout=subprocess.PIPE, stderr=subprocess.PIPE) as program:
        out, said = program.communicate()
    for name, held in (
            ("the stored sample is what make.py makes", sample), ("vectors' stored answers are what the Python twin works out", vectors),
            ("rewritten's stored answers are what the Python twin works out", rewritten),
            ("the Python twin answers LOGs as logs.py has them", logs.as_answered()),
            ("a read that fails prints nothing and says why", out == b"" and said.startswith(b"read: "))):
        passed += held
        if not held:
            failed.append(name)
            print("not so:", name)
    print("%d passed, %d failed" % (passed, len(failed)))
    return 1 if failed else 0


if __name__ == "__main__":
    sys.exit(main())
