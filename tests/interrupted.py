#!/usr/bin/env python3
"""Holds sbplist to what it does when reading is disturbed, which no contract can say; its last line is 'N passed, M failed'.

A read that a signal interrupts is tried again: the listing is that of the whole capture. A read that fails, at once or after some bytes, lists
nothing, for half a capture would be listed as if it were whole, and says why on standard error.
usage: interrupted.py (after tools/prove sbplist)
"""
import fcntl
import os
import signal
import socket
import struct
import subprocess
import sys
import termios
import time
import tty

ROOT = os.path.dirname(os.path.dirname(os.path.abspath(__file__)))
RUN = [os.path.join(ROOT, "tools", "run"), "sbplist"]
# document 01's input and its whole output
CAPTURE = bytes.fromhex("00 550202cc0414703dd018cfefffffefe8fffff01800000000050043 94 5549000000 07e80300006c071087 22 55".replace(" ", ""))
LISTING = b"F 1 514 1228 20 0\nF 29 73 0 7 0\nE 0 1900 1000 1 0\nT 45 43 1 0 1\n"


def until(what, seconds=60):
    """Waits until something holds three times in a row, a hundredth of a second apart."""
    held, end = 0, time.time() + seconds
    while held < 3:
        held = held + 1 if what() else 0
        if time.time() > end:
            raise TimeoutError
        time.sleep(0.01)


def state(pid):
    """A process's letter: S asleep, T stopped, Z ended."""
    with open("/proc/%d/stat" % pid) as stat:
        return stat.read().rsplit(")", 1)[1].split()[0]


def runs(pid):
    """It is the program by now, and no more the script that starts it."""
    with open("/proc/%d/cmdline" % pid, "rb") as words:
        return RUN[0].encode() not in words.read()


def unread(fd):
    return struct.unpack("i", fcntl.ioctl(fd, termios.FIONREAD, b"\0" * 4))[0]


def waits(program, fd):
    """The program has read all there is and waits for more, or has ended."""
    until(lambda: program.poll() is not None or runs(program.pid) and unread(fd) == 0 and state(program.pid) == "S")


def started(stdin):
    return subprocess.Popen(RUN, stdin=stdin, stdout=subprocess.PIPE, stderr=subprocess.PIPE)


def interrupted(*pieces):
    """What the program prints where a signal interrupts its reading before each piece comes.

    A read of a socket that has a time limit is not begun again by the kernel once the program was stopped and goes on: it gives EINTR, and no
    handler is needed (signal(7)).
    """
    ours, theirs = socket.socketpair()
    theirs.setsockopt(socket.SOL_SOCKET, socket.SO_RCVTIMEO, struct.pack("ll", 600, 0))
    with ours, theirs, started(theirs) as program:
        for piece in pieces:
            waits(program, theirs.fileno())
            if program.poll() is None:
                program.send_signal(signal.SIGSTOP)
                until(lambda: state(program.pid) == "T")
                program.send_signal(signal.SIGCONT)
                waits(program, theirs.fileno())
            ours.sendall(piece)
        ours.shutdown(socket.SHUT_WR)
        return program.communicate()


def hung_up(data):
    """What it prints where its terminal hangs up after some bytes: that read gives EIO."""
    ours, theirs = os.openpty()
    tty.setraw(theirs)
    with started(theirs) as program:
        os.write(ours, data)
        waits(program, theirs)
        os.close(ours)
        os.close(theirs)
        return program.communicate()


def reset(data):
    """What it prints where its connection is reset after some bytes: the other end closes with bytes unread."""
    ours, theirs = socket.socketpair()
    with theirs, started(theirs) as program:
        ours.sendall(data)
        waits(program, theirs.fileno())
        theirs.sendall(b"\0")
        ours.close()
        return program.communicate()


def cases():
    yield "a read is interrupted at the start", interrupted(CAPTURE), (LISTING, b"")
    yield "a read is interrupted after some bytes", interrupted(CAPTURE[:29], CAPTURE[29:]), (LISTING, b"")
    yield "reads are interrupted before each byte", interrupted(*(CAPTURE[i:i + 1] for i in range(len(CAPTURE)))), (LISTING, b"")
    yield "a read is interrupted at the end", interrupted(CAPTURE, b""), (LISTING, b"")
    yield "a terminal hangs up at the start", hung_up(b""), (b"", b"read: ")
    yield "a terminal hangs up after some bytes", hung_up(CAPTURE[:29]), (b"", b"read: ")
    yield "a connection is reset after some bytes", reset(CAPTURE[:29]), (b"", b"read: ")


def main():
    passed, failed = 0, 0
    for name, (out, said), (listing, why) in cases():
        if out == listing and said.startswith(why) and bool(said) == bool(why):
            passed += 1
        else:
            failed += 1
            print("not so: where %s it prints %r and says %r" % (name, out, said))
    print("%d passed, %d failed" % (passed, failed))
    return 1 if failed else 0


if __name__ == "__main__":
    sys.exit(main())
