"""Captures to list, and the part `long`: captures beyond sbplist's 65536 bytes, against the Python twin's lines."""
import random

import common  # first: it says where the others are
import answers
import make
import twin
import twins

SAMPLE = make.capture()


def many_senders(count):
    """Epochs of two packets, the packets of all senders by turns; those of each third sender come twice."""
    packets = ((s, i) for i in (0, 1) for s in range(count) for _ in range(1 + (s % 3 == 0)))
    return b"".join(twin.frame(twin.OBS, 65530 - s, twin.obs(5 + s, 6, 0x20 + i, s % 16)) for s, i in packets)


def noise(seed, size, start=0.02):
    """Any bytes, a share of them 0x55."""
    rng = random.Random(seed)
    return bytes(0x55 if rng.random() < start else rng.randrange(256) for _ in range(size))


def cut_to_the_window():
    """Frames of the longest kind, laid so that refilling a window of a power of two cuts them everywhere."""
    return b"".join(twin.frame(0x0401, i % 3, bytes([i % 8]) + b"\x55" * 254) for i in range(2500)) + b"\x55\x01"


def generated(count):
    for seed, data in enumerate(twins.captures(1, count), 1):
        yield "generated capture %d" % seed, data


def long_ones():
    yield "the sample 120 times", (SAMPLE + b"\x55") * 120
    yield "frames of 263 bytes", cut_to_the_window()
    yield "noise", noise(3, 300000)
    yield "all 0x55", b"\x55" * 70000
    yield "65537 bytes", bytes(65536) + b"\x55"
    yield "forty senders, many times", many_senders(40) * 60
    yield "400 epochs of two queues", answers.two_queues(400)


def cases():
    for name, data in long_ones():
        yield name, common.run("list", data=data), (twin.lines(data).encode(), b"", 0)
