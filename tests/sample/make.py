#!/usr/bin/env python3
"""Makes a small capture: a base (sender 1228) and the rover that it relays as sender 0, on one line.

Twelve epochs of each, their packets interleaved, the rover's position and a heartbeat of the base after each; noise in two places, one damaged
frame, and a tail that is cut.

usage: make.py > base-and-rover.sbp
"""
import binascii
import struct
import sys

BASE, ROVER, WEEK = 1228, 0, 1900


def frame(kind, sender, payload):
    body = struct.pack("<HHB", kind, sender, len(payload)) + payload
    return b"\x55" + body + struct.pack("<H", binascii.crc_hqx(body, 0))


def packet(sender, tow, n, i, satellites):
    """Packet i of n of an epoch: one observation for each satellite."""
    seen = (struct.pack("<IiBBHHBB", 2100000000 + 7919 * sat + tow % 1000, -110000000 + 104729 * sat, (sat * 37) % 256, 160 + sat, 900, sat, 0, 0)
            for sat in satellites)
    return frame(0x0049, sender, struct.pack("<IHB", tow, WEEK, 16 * n + i) + b"".join(seen))


def capture():
    out = [b"$PASHR,power-on*00\r\n"]
    for k in range(12):
        tow = 416300000 + 1000 * k
        base = [packet(BASE, tow, 3, i, range(1 + 4 * i, 5 + 4 * i)) for i in range(3)]
        rover = [packet(ROVER, tow, 2, i, range(1 + 5 * i, 6 + 5 * i)) for i in range(2)]
        out += base[0], rover[0], base[1], rover[1], base[2]
        position = struct.pack("<IdddHHBB", tow, 37.7749 + k * 1e-6, -122.4194 - k * 1e-6, 21.5, 15, 25, 9, 1)
        out += frame(0x0201, ROVER, position), frame(0xFFFF, BASE, struct.pack("<I", 0x80000000))
        if k == 4:
            out.append(bytes.fromhex("55ff00550055"))
        if k == 7:
            broken = bytearray(packet(BASE, tow, 3, 0, range(1, 5)))
            broken[20] ^= 0x10
            out.append(bytes(broken))
    out.append(packet(ROVER, 416312000, 2, 0, range(1, 6))[:40])
    return b"".join(out)


if __name__ == "__main__":
    sys.stdout.buffer.write(capture())
