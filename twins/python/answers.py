#!/usr/bin/env python3
"""Works out published values and edge cases, by the twin beside it and Python's own codecs: what vectors and rewritten must print, and what the
linked functions have to say when tests/values asks them.

usage: answers.py > crates/vectors/stdout
       answers.py --rewritten > crates/rewritten/stdout
       answers.py --asked
"""
import binascii
import itertools
import struct
import sys

from twin import (
    FIX_MODES, FLAGS, HEARTBEAT_FLAGS, MESSAGES, NAMES, OBS, Index, Sorter, answer, frame, is_obs, log_answer, made, obs, reading, row, sent_by)
from twin import collated as read_and_collated

# type through payload of the example frame of 003, section 4, and the fields that table 4.0.2 reads in it
EXAMPLE = bytes.fromhex("0202cc0414703dd018cfefffffefe8fffff018000000000500")
FIELDS = dict(tow=416300400, x=-4145, y=-5905, z=6384, accuracy=0, n_sats=5, flags=0)

# the CRC's check text, and the starts from which parts are taken
TEXT = b"123456789"
STARTS = 0, 1, 65535

# the own number of the recorder that writes, and what it is given for a sender where it is given none
OWN, NO_SENDER = 1228, 65536


def published():
    """The CRC of nothing, of its check text and of the example frame; that frame read, with its fields; and read with a CRC that differs."""
    for name, data in ("nothing", b""), ("123456789", TEXT), ("example-frame", EXAMPLE):
        yield "crc %s %04x" % (name, binascii.crc_hqx(data, 0))
    example = frame(0x0202, 1228, EXAMPLE[5:])
    yield from readings("example", example)
    yield "baseline-ecef %s %s" % (" ".join("%d" % v for v in FIELDS.values()), frame(0x0202, 0x0201, EXAMPLE[5:]).hex())
    yield from readings("example-damaged", example[:-1] + b"\x95")


def readings(name, data):
    """A capture read frame by frame, open and closed, and its totals."""
    for mode in "open", "closed":
        found, counts, need = reading(data, mode == "open")
        line = "%s %s" % (mode, name)
        for at, kind, sender, payload in found:
            line += " frame %d %d %d %d %s" % (at, kind, sender, len(payload), payload.hex())
        yield line + (" end " if need is None else " needs %d " % need) + row(counts)
    yield "totals %s %s" % (name, row(reading(data, False)[1]))


def mixed(seed, step, size):
    return bytes((seed + step * i) % 256 for i in range(size))


def cuts():
    """From each start the check text cut at its ten places, then parts of 0, 1 and 255 bytes."""
    sizes = 0, 1, 255
    pairs = [(TEXT[:at], TEXT[at:]) for at in range(10)] + [(mixed(3, 37, n), mixed(9, 41, m)) for n in sizes for m in sizes]
    return [(start, first, second) for start in STARTS for first, second in pairs]


def sums():
    """A frame's header and its payload, and each without the other; then parts, the second begun at what the first comes to."""
    head = b"\x55" + EXAMPLE[:5]
    for name, header, payload in ("example-frame", head, EXAMPLE[5:]), ("no-header", b"", EXAMPLE[5:]), ("no-payload", head, b""):
        yield "crc-apart %s %04x" % (name, binascii.crc_hqx(header[1:] + payload, 0))
    for start in STARTS:
        yield "crc-from %d %04x" % (start, binascii.crc_hqx(TEXT, start))
    for start, first, second in cuts():
        sizes = start, len(first), len(second)
        yield "crc-parts %d %d %d %04x %04x" % (*sizes, binascii.crc_hqx(first, start), binascii.crc_hqx(first + second, start))


def sums_apart():
    """The same parts by the one function that takes both, which what is linked calls with a start of 0 alone."""
    for start, first, second in cuts():
        yield "crc-apart-from %d %d %d %04x" % (start, len(first), len(second), binascii.crc_hqx(first + second, start))


def numbers():
    data, greatest = bytes([1, 2, 3, 4, 0x85, 0x86, 0x87, 0x88]), 2**64 - 1
    for at in 0, 4, 7, 8, greatest:
        read = [int.from_bytes((data[at:at + w] + bytes(8))[:w], "little") for w in (1, 2, 4, 8)]
        yield "read-at %d %d %d %d %d" % (at, *read)
    for n in 0x8000, 0x7FFF, 0x80000000, 0x7FFFFFFF, 0xFFFFFFFF:
        raw = struct.pack("<I", n)
        yield "signed %08x %d %d %s" % (n, *struct.unpack("<h", raw[:2]), *struct.unpack("<i", raw), (raw[:2] + raw).hex())
    for at in 0, 3, 5, 7, 9, greatest:
        buf, line = bytearray([0x11] * 9), "store-at %d" % at
        for w, value in (1, 0xA1), (2, 0xB2B1), (4, 0xC4C3C2C1), (8, 0xD8D7D6D5D4D3D2D1):
            if at + w <= len(buf):
                buf[at:at + w] = value.to_bytes(w, "little")
            line += " " + buf.hex()
        yield line


def doubles():
    """Both zeros, one, the ends of the subnormals and of the normals; both infinities; signalling and quiet NaNs; and two that no reading makes."""
    for bits in (
            0x0000000000000000, 0x8000000000000000, 0x3FF0000000000000, 0x0000000000000001, 0x000FFFFFFFFFFFFF, 0x0010000000000000, 0x7FEFFFFFFFFFFFFF,
            0x7FF0000000000000, 0xFFF0000000000000, 0x7FF0000000000001, 0x7FF8000000000000, 0x7FF8DEADBEEF0001, 0xFFF4000000000000, 0xFFFFFFFFFFFFFFFF):
        value = struct.unpack("<d", bits.to_bytes(8, "little"))[0]
        nan = value != value
        yield "double %016x %d %016x %016x" % (bits, nan, bits if nan else 0, bits)
    yield "double nan-without-pattern 7ff8000000000000"
    yield "double one-with-pattern 3ff0000000000000"


def captures():
    inside = bytes.fromhex("5501010202085500000000000000aabb")
    for name, data in (
            ("all-zero-frame", b"\x55" + bytes(7)), ("nothing", b""), ("five-bytes", b"\x55" + bytes(4)), ("frame-inside-a-bad-one", inside),
            ("preamble-in-a-payload", frame(0x1234, 0x5678, b"\x55\x55"))):
        yield from readings(name, data)
    yield from noise_around()


def noise_around():
    """A frame with noise before and after it, and a byte that begins a frame: vectors has a cursor that counts from frame to frame."""
    yield from readings("noise-around", b"\x01\x55" + bytes(7) + b"\x02\x03\x55")


def written():
    for n in range(256):
        data = frame(0x1234, 0x5678, mixed(n, 3, n))
        yield "length %d %d %04x ee %d" % (n, n + 8, struct.unpack("<H", data[-2:])[0], n)
    data = frame(0x1234, OWN, mixed(255, 3, 255))
    yield "write 255-into-263 263"
    for n in range(264):
        found, _, need = reading(data[:n], True)
        outcome = "frame %d" % found[0][2] if found else "end" if need is None else "needs %d" % need
        yield "cut %d %s %s" % (n, outcome, row(reading(data[:n], False)[1]))
    untouched = "ee" * 12
    yield "write 5-into-12 refused 32 " + untouched
    yield "write 256-into-12 refused 31 " + untouched
    yield "write 3-into-12 11 " + frame(0x0102, OWN, mixed(7, 3, 3)).hex() + "ee"


# what a recorder writes, by name, type and length of the payload: messages by their own writers, and raw frames
SENT = (
    ("heartbeat", 0xFFFF, 4), ("pos-llh", 0x0201, 34), ("log", 0x0401, 9), ("obs", OBS, 39), ("read-by-index-req", 0x00A2, 2), ("settings-save", 0x00A1, 0),
    ("raw-00a1", 0x00A1, 0), ("raw-00a2", 0x00A2, 2), ("raw-00a0", 0x00A0, 9), ("raw-00a4", 0x00A4, 9), ("raw-00a8", 0x00A8, 9), ("raw-0800", 0x0800, 9),
    ("raw-ffff", 0xFFFF, 4))


def senders():
    """Who sends what a recorder writes: by each own number and each sender that is given; which types do not go out under the own number; and two
    recorders on one line."""
    for name, kind, size in SENT:
        for own in 0, 0x42, 1228, 65535:
            for given in NO_SENDER, 0, 0x42, 7, 65535, 65536 + 7, 2**32 - 1:
                yield "sent %s %d %d %s" % (name, own, given, frame(kind, sent_by(kind, own, given), mixed(5, 37, size)).hex())
    unnamed = [(kind, sent_by(kind, OWN, NO_SENDER)) for kind in range(65536)]
    yield "not-own" + "".join(" %04x %d" % (kind, sender) for kind, sender in unnamed if sender != OWN)
    for (at, kind, sender, payload), epoch in read_and_collated(two_recorders(), 8)[0]:
        yield "heard %d %d %d %d%s" % (at, kind, sender, len(payload), " epoch %d %d %d %d %d" % tuple(epoch) if epoch else "")


def two_recorders():
    """Frames by turns on one line, none of which is given a sender; a packet of the one has one observation, of the other two."""
    turns = [[(kind, mixed(5, 37, size))] * 2 for _, kind, size in SENT[:3]]
    turns += [[(OBS, obs(tow, 1900, n_obs, count)) for count in (1, 2)] for tow in (1000, 2000, 3000) for n_obs in (0x20, 0x21)]
    return b"".join(frame(kind, sent_by(kind, own, NO_SENDER), payload) for turn in turns for own, (kind, payload) in zip((1228, 1229), turn))


def message(name, payload):
    kind, layout, _ = MESSAGES[name]
    refused = answer(kind, payload)
    if refused:
        return "%s refused %d" % (name, refused)
    fields = struct.unpack("<" + layout.replace("d", "Q"), payload)
    shown = ["%016x" % v if c == "d" else "%d" % v for c, v in zip(layout, fields)]
    return " ".join([name, *shown, frame(kind, 0x0201, payload).hex()])


def each():
    for seed in 0, 5:
        for off in -1, 0, 1:
            for name, (_, layout, _) in MESSAGES.items():
                if layout:
                    yield message(name, mixed(seed, 37, struct.calcsize("<" + layout) + off))
    for ns in 500000, 500001, -500000, -500001:
        yield message("gps-time", struct.pack("<HIiB", 0, 0, ns, 0))
    for bits in 0x8000000000000000, 0x7FF0000000000001, 0xFFF8000000000123, 0x7FFFFFFFFFFFFFFF:
        payload = struct.pack("<IQQQHHBB", 0, bits, bits, bits, 0, 0, 0, 0)
        yield message("pos-llh", payload)
        yield message("pos-ecef", payload[:32])
        yield message("base-pos-llh", payload[4:28])
        yield message("base-pos-ecef", payload[4:28])
    for name in "settings-save", "read-by-index-done":
        for size in 0, 1:
            yield message(name, bytes(size))


# minus zero, both infinities, both ends of the subnormals, two NaN patterns
DOUBLES = (0x8000000000000000, 0x7FF0000000000000, 0xFFF0000000000000, 1, 0x800FFFFFFFFFFFFF, 0x7FF0000000000001, 0xFFF8000000000123)


def orbits():
    """Each kind of double in each place of the ephemerides and of IONO, and group delays at the ends of their range."""
    for turn in range(7):
        filled = b"".join(struct.pack("<Q", DOUBLES[(turn + i) % 7]) for i in range(19))
        plain = mixed(5, 37, 300)
        payload = plain[:10] + filled[:8] + plain[18:24] + filled + plain[176:]
        for name, size in ("ephemeris-gps", 185), ("ephemeris-sbas", 112), ("ephemeris-glo", 112):
            yield message(name, payload[:size])
        yield message("iono", plain[:6] + filled[:64])
    for delays in (-2**15, 2**15 - 1, -1), (-1, -2**15, 2**15 - 1), (2**15 - 1, -1, -2**15):
        yield message("group-delay", struct.pack("<IHBBhhh", 0, 0, 0, 0, *delays))


def flags():
    """A flags byte at all values: each ranged message's answer and its fix mode, then the single flags; and HEARTBEAT's, bit by bit."""
    for flags in range(256):
        ends = lambda name: bytes(struct.calcsize("<" + MESSAGES[name][1]) - 1) + bytes([flags])
        line = "flags %d" % flags
        for name, table in ("pos-ecef", "pos-ecef"), ("pos-llh", "pos-llh"), ("baseline-ecef", "baseline"):
            line += " %d %s" % (answer(MESSAGES[name][0], ends(name)), FIX_MODES[table].get(flags % 8, "reserved"))
        for name in "baseline-ned", "baseline-heading":
            line += " %d" % answer(MESSAGES[name][0], ends(name))
        yield line + bits(flags, FLAGS)
    for flags in 0, *(1 << k for k in range(32)), 2**32 - 1:
        yield "heartbeat-flags %08x%s" % (flags, bits(flags, HEARTBEAT_FLAGS))


def bits(flags, table):
    return "".join(" %d" % (flags >> k & 1) for k in table.values())


def entry(payload, i, kind=OBS):
    if kind != OBS:
        return "refused 21"
    if not is_obs(len(payload)):
        return "refused 22"
    if i >= (len(payload) - 7) // 16:
        return "refused 25"
    return "%d %d %d %d %d %d %d %d" % struct.unpack_from("<IiBBHHBB", payload, 7 + 16 * i)


def observations():
    data = mixed(3, 37, 300)
    for size in 6, 7, 8, 39, 247, 263:
        payload = data[:size]
        yield "obs %d %s" % (size, "%d %d %d %d" % (*struct.unpack_from("<IHB", payload), (size - 7) // 16) if is_obs(size) else "refused 22")
        for i in 0, 1, 2, 15:
            yield "observation %d %s" % (i, entry(payload, i))
    for count in 2, 15, 16:
        whole = data[:39] + bytes(16 * (count - 2))
        yield "write-obs " + (frame(OBS, 0, whole).hex() if count <= 15 else "refused 31")
    for whole, part in (-3, 128), (-1, 255), (0, 0), (-2**31, 0), (2**31 - 1, 255):
        yield "phase %d %d %d" % (whole, part, 256 * whole + part)
    for z in -640, -1, 0, 255, 256, -256, -257, 2**39 - 1, 2**39, -2**39, -2**39 - 1, -2**63:
        yield "parts %d %s" % (z, "%d %d" % (z // 256, z % 256) if -2**39 <= z < 2**39 else "refused 33")


def log_payloads():
    """With zeros after the level and the text, or none; then with a letter after a zero, and a level of 0, which ends nothing."""
    data = mixed(65, 6, 300)
    for filled, size in (0, 0), (1, 1), (9, 9), (9, 10), (9, 200), (1, 255), (0, 5), (255, 255), (254, 255), (256, 256):
        yield (data[:filled] + bytes(256))[:size]
    for filled, at, size in (9, 10, 20), (9, 19, 20), (9, 9, 20), (0, 1, 6), (0, 2, 6), (9, 200, 256):
        payload = bytearray((data[:filled] + bytes(256))[:256])
        payload[at] = 0x41
        yield bytes(payload[:size])


def log_text(payload):
    """It ends before the first zero after the level."""
    return payload[1:].split(b"\0")[0]


def log_texts():
    """A payload that is refused has a text too."""
    for payload in log_payloads():
        yield "log-text %d %s" % (len(payload), log_text(payload).hex())


def read_log(payload):
    """Level, length of the text, and how many zeros stand after it."""
    refusal, size = log_answer(payload), len(log_text(payload))
    return "log %d %s" % (len(payload), "refused %d" % refusal if refusal else "%d %d %d" % (payload[0], size, len(payload) - 1 - size))


def write_log(text, padding, room):
    """What is told of a LOG of level 6, and the buffer after it."""
    size = 1 + len(text) + padding
    refusal = 23 if 0 in text else 31 if size > 255 else 32 if size + 8 > room else 0
    made = b"" if refusal else frame(0x0401, OWN, b"\x06" + text + bytes(padding))
    buf = made + b"\xee" * (room - len(made))
    return "write-log %d %d %s %s" % (len(text), padding, "refused %d" % refusal if refusal else "%d" % (size + 8), buf.hex())


def logs():
    data = mixed(65, 6, 300)
    yield from map(read_log, log_payloads())
    for size, padding, room in (0, 0, 9), (0, 3, 13), (5, 0, 14), (5, 0, 13), (5, 2, 16), (5, 2, 15):
        yield write_log(data[:size], padding, room)
    for size, padding in (254, 0), (255, 0), (100, 154), (100, 155), (0, 254), (0, 255), (5, 2**64 - 1):
        yield write_log(data[:size], padding, 264)
    for at, size, padding, room in (0, 5, 0, 264), (2, 5, 0, 264), (4, 5, 1, 264), (299, 300, 0, 264), (4, 5, 250, 264), (4, 5, 0, 13):
        yield write_log(data[:at] + b"\0" + data[at + 1:size], padding, room)


def walks():
    """A reader over each of the rover's payloads and one of another type, asked five times: it stays at a refusal."""
    s, t = mixed(3, 37, 300), mixed(9, 41, 300)
    for kind, payload in (OBS, s[:39]), (OBS, s[:8]), (OBS, s[:7]), (OBS, t[:55]), (0x004A, s[:39]):
        at, line = 0, "walk %d" % len(payload)
        for _ in range(5):
            outcome = entry(payload, at, kind)
            at += not outcome.startswith("refused")
            line += " %s at %d" % (outcome, at)
        yield line


def in_counter_order():
    """An epoch as document 01 had it before P7: n packets of one key that follow one another, with counters 0 to n - 1. Here three come, of n = 3, and
    packet i has 8 + i observations."""
    for came in (0, 1, 2), (0, 2, 1):
        yield "run %d %d %d" % came + (" epoch %d" % sum(8 + i for i in came) if came == (0, 1, 2) else "")


def types():
    """The lengths up to 264 at which zeros are taken, by type; then how many types answer 21 to an empty payload, and how many 22."""
    sizes = {kind: [struct.calcsize("<" + layout)] for kind, layout, _ in MESSAGES.values()}
    sizes.update({OBS: range(7, 248, 16), 0x0401: range(1, 256)})
    for kind, lengths in sizes.items():
        yield "lengths %04x %s" % (kind, " ".join("%d" % n for n in lengths))
    yield "types %d %d" % (65536 - len(sizes), sum(0 not in lengths for lengths in sizes.values()))


def fed(name, sorter, *packets):
    return name + "".join(sorter.feed(OBS, sender, obs(*packet)) for sender, *packet in packets)


def in_a_row(*packets):
    return b"".join(frame(OBS, sender, obs(*packet)) for sender, *packet in packets)


def two_captures():
    """The same frames for each sender, in order and shuffled between senders, with noise and an unlisted sender; and the epochs of both."""
    base = (1228, 10, 1900, 0x20, 1), (1228, 10, 1900, 0x21, 2), (1228, 20, 1900, 0x10, 3)
    rover = (0, 10, 1900, 0x20, 2), (0, 10, 1900, 0x21, 1), (0, 20, 1900, 0x20, 1)
    stranger = 77, 10, 1900, 0x21, 1
    yield "ordered", epochs_in(in_a_row(*base, *rover))
    yield "shuffled", epochs_in(bytes(3) + in_a_row(rover[0], base[0], stranger, base[1]) + bytes(5) + in_a_row(*rover[1:], base[2]))


def epochs_in(data):
    sorter = Sorter(1228, 0)
    outcomes = [sorter.feed(kind, sender, payload) for _, kind, sender, payload in reading(data, False)[0]]
    return [outcome for outcome in outcomes if outcome.startswith(" epoch")]


def counted():
    """A whole capture collated: the roster's answer, and how many epochs each of the two senders has."""
    for name, epochs in two_captures():
        yield "%s 0 %d %d" % (name, *(sum(epoch.startswith(" epoch %d " % s) for epoch in epochs) for s in (1228, 0)))


def collated():
    rosters = (), (7,), (0, 65535), range(1, 9), range(1, 10), (5, 6, 5), (1, 1, 3, 4, 5, 6, 7, 8, 9)
    yield "rosters" + "".join(" %d" % made(roster) for roster in rosters)
    three = 1228, 0, 65535
    yield fed("halves", Sorter(*three), (0, 1, 2, 0x00, 0), (0, 1, 2, 0x11, 0), (0, 1, 2, 0x10, 3), (0, 1, 2, 0x02, 0), (0, 1, 2, 0x10, 15), (65535, 9, 8, 0x10, 0))
    c, zeros = Sorter(*three), obs(1, 2, 0, 1)
    yield (fed("refusals", c, (0, 5, 6, 0x20, 1)) + c.feed(0x004A, 9, zeros[:8]) + c.feed(OBS, 9, zeros[:8]) + c.feed(OBS, 9, zeros[:7])
           + c.feed(OBS, 0, zeros[:7]) + fed("", c, (0, 5, 6, 0x12, 1), (1228, 5, 6, 0x21, 1), (0, 5, 6, 0x21, 2)))
    c = Sorter(*three)  # it goes on from one line to the next
    yield fed("repeated", c, (0, 5, 6, 0x30, 1), (0, 5, 6, 0x31, 1), (0, 5, 6, 0x31, 1), (0, 5, 6, 0x32, 1))
    yield fed("begun-again", c, (0, 5, 6, 0x30, 1), (0, 5, 6, 0x31, 1), (0, 5, 6, 0x30, 4), (0, 5, 6, 0x31, 5), (0, 5, 6, 0x32, 6), (0, 5, 6, 0x32, 6))
    yield fed("other-week", c, (0, 5, 6, 0x20, 1), (0, 5, 7, 0x21, 1), (0, 5, 6, 0x21, 1))
    yield fed("other-time-and-size", c, (0, 5, 6, 0x20, 1), (0, 4, 6, 0x21, 1), (0, 5, 6, 0x20, 1), (0, 5, 6, 0x31, 1))
    yield fed("two-senders-one-time", c, (0, 5, 6, 0x20, 1), (1228, 5, 6, 0x20, 10), (0, 5, 6, 0x21, 2), (1228, 5, 6, 0x21, 5))
    for n in range(1, 16):
        yield fed("packets %d" % n, c, *((65535, 100, 1900, 16 * n + i, 15) for i in range(n)))
    each_once = [(sender, 5, 6, n_obs, count) for n_obs in (0x20, 0x21) for sender, count in zip((65535, 6, 5, 4, 3, 2, 1, 0, 7), (7, 6, 5, 4, 3, 2, 1, 0, 8))]
    yield fed("eight-senders", Sorter(0, 1, 2, 3, 4, 5, 6, 65535), *each_once)
    c, outcome = Sorter(*three), ""
    for tow in range(400):
        packets = (1228, 0x30, 12), (0, 0x20, 9), (77, 0x21, 9), (1228, 0x31, 12), (0, 0x00, 1), (0, 0x21, 4), (1228, 0x32, 1)
        outcome += fed("", c, *((sender, tow, 1900, n_obs, count) for sender, n_obs, count in packets))
    yield "ticket %d %d" % (outcome.count(" epoch 1228 "), outcome.count(" epoch 0 "))
    for name, epochs in two_captures():
        yield name + "".join(epochs)


def packet(n, i, count, sender=0):
    return sender, 5, 6, 16 * n + i, count


def orders(*sizes):
    """The counters of so many packets in every order."""
    return [order for n in sizes for order in itertools.permutations(range(n))]


def copied(order):
    """Packets in that order, packet i with 2^i observations; before each come copies of all before it, with more."""
    n = len(order)
    for place, i in enumerate(order):
        yield from (packet(n, j, 15) for j in order[:place])
        yield packet(n, i, 2**i)


# like the first packet of three, each but for one thing, for which it is refused: the type, the length, the sender, n, the counter
REFUSED = (
    (0x004A, 0, obs(5, 6, 0x30, 1)), (OBS, 0, obs(5, 6, 0x30, 1) + b"\0"), (OBS, 9, obs(5, 6, 0x30, 1)), (OBS, 0, obs(5, 6, 0x00, 1)),
    (OBS, 0, obs(5, 6, 0x33, 1)))


def refused_after(c, order):
    """What is said of three packets in that order, and of the frames that are refused after each of them."""
    return "".join(fed("", c, packet(3, i, 2**i)) + "".join(c.feed(*one) for one in REFUSED) for i in order)


def between():
    """Of an epoch of three some packets; some of another; those of the first that are missing, and the others again."""
    for tow, wn, n in (4, 6, 3), (5, 7, 3), (5, 6, 2), (5, 6, 1):
        for came, others in itertools.product((1, 2), range(1, n + 1)):
            whole = [packet(3, i, 2**i) for i in range(3)]
            other = [(0, tow, wn, 16 * n + i, 9) for i in range(others)]
            yield "between %d %d %d %d %d" % (tow, wn, n, came, others), whole[:came] + other + whole[came:] + whole[:came]


def late():
    """After an epoch one of its packets comes twice more, and then the others."""
    for n in range(1, 5):
        for i in range(n):
            whole = [packet(n, k, 2**k) for k in range(n)]
            yield "late %d %d" % (n, i), whole + [packet(n, i, 15)] * 2 + whole[:i] + whole[i + 1:]


def queued(tow):
    """An epoch of the base and one of the rover, a stranger's packet and a refused one: some go through one queue, some through the other, and the
    bits of the time say from which of them the next one comes."""
    queues = [(1228, 0x30, 12), (77, 0x20, 9), (0, 0x20, 9), (1228, 0x32, 1)], [(0, 0x00, 1), (1228, 0x31, 12), (0, 0x21, 4)]
    for bit in range(7):
        turn = tow >> bit & 1
        sender, n_obs, count = (queues[turn] or queues[1 - turn]).pop(0)
        yield sender, tow, 1900, n_obs, count


def two_queues(epochs):
    """Such epochs as a capture."""
    return in_a_row(*(packet for tow in range(epochs) for packet in queued(tow)))


def every_order():
    """A capture of one to four packets in every order, with their copies."""
    return in_a_row(*(packet for order in orders(1, 2, 3, 4) for packet in copied(order)))


def numbered(name, order):
    return name + "".join(" %d" % i for i in order)


def out_of_order():
    """P7: packets that overtake each other, and that come twice. Each collator goes on from one line to the next."""
    c = Sorter(0)
    for order in orders(1, 2, 3, 4):
        yield fed(numbered("order", order), c, *(packet(len(order), i, 2**i) for i in order))
    for order in orders(1, 2, 3, 4):
        yield fed(numbered("copied", order), c, *copied(order))
    for name, packets in (*late(), *between()):
        yield fed(name, c, *packets)
    for order in orders(3):
        yield numbered("refused", order) + refused_after(c, order)
    c = Sorter(0, 1228)
    for order in orders(4):  # 0 and 1 are the packets of the one sender, 2 and 3 those of the other
        yield fed(numbered("overtaking", order), c, *(packet(2, i % 2, 2**i, (0, 1228)[i // 2]) for i in order))
    for n in range(1, 16):
        yield fed("backwards %d" % n, c, *(packet(n, i, 15) for i in reversed(range(n))))
    for n in range(1, 16):
        yield fed("twice %d" % n, c, *(packet(n, i, count) for i in range(n) for count in (2, 3)))
    c, epochs = Sorter(1228, 0, 65535), 400
    for tow in range(epochs):
        yield fed("queues %d" % tow, c, *queued(tow))
    yield "two-queues %d %d" % (epochs, epochs)  # all of the base's and all of the rover's


def indexed_capture():
    """Document 01's, whose last byte begins a frame that does not come; then frames of any payload, the last without its last byte."""
    start = b"\0" + frame(0x0202, 1228, EXAMPLE[5:]) + frame(OBS, 0, obs(1000, 1900, 0x10, 0)) + b"\x55"
    frames = (0xFFFF, 1228, 4), (0xFFFF, 0, 4), (0x0800, 1228, 10), (OBS, 1228, 6), (0x0401, 0, 0), (0xFFFF, 1228, 4), (0x00A1, 66, 0), (0xFFFF, 0, 4)
    return (start + b"".join(frame(kind, sender, mixed(3, 37, size)) for kind, sender, size in frames))[:-1]


def entries(index):
    return ("entry %d %d %d %d %d" % (place, *one) for place, one in enumerate(index.entries))


def first(index, most, kind, sender, offset):
    refusal, place = index.first(most, kind, sender, offset)
    return "first %d %d %d %s" % (kind, sender, offset, "refused %d" % refusal if refusal else "none" if place is None else place)


def firsts(index):
    """Each frame at its offset, one before and one after; its type of another sender, and another type of its sender."""
    for at, kind, sender, _ in index.entries:
        asked = [(kind, sender, at + k) for k in (-1, 0, 1)] + [(kind, (sender + 1) % 2**16, 0), ((kind + 1) % 2**16, sender, 0), (kind, sender, 2**64 - 1)]
        yield from (first(index, 16, *one) for one in asked)


def indexed():
    """An index in some bytes, and over no list; then extended byte by byte, in the shortest list; its entries, its counts, what is found; refusals."""
    for room in 0, 207, 208, 209:
        yield "index-room %d" % room + (" refused 32" * 4 if room < 208 else " refused 0 refused 0 none refused 0")
    data, index = indexed_capture(), Index()
    for size in range(len(data) + 1):
        refusal = index.extend(data[:size], 16)
        yield "extend %d " % size + ("refused %d" % refusal if refusal else "%d %d %d" % (len(index.entries), index.reached, len(index.entries)))
    yield from entries(index)
    counts = {kind: index.count(kind) for kind in range(65536)}
    yield from ("count %04x 0 %d" % (kind, count) for kind, (refusal, count) in counts.items() if not refusal)
    yield "uncounted %d" % sum(refusal == 21 for refusal, _ in counts.values())
    yield from firsts(index)
    held, end = len(index.entries), index.reached
    lists = (end - 1, 0), (end - 1, held), (end, held - 1), (len(data), 0), (end, held)
    yield "short" + "".join(" refused %d" % index.extend(data[:size], most) for size, most in lists)
    yield first(index, held - 1, *index.entries[0][1:3], 0)
    yield from far(data)


def far(data):
    """The same capture after 4 GiB that were read before: all is found so much later."""
    before, index = 2**32, Index()
    index.extend(data, 16)
    index.entries = [(before + at, *rest) for at, *rest in index.entries]
    yield "extend %d %d %d %d" % (before + len(data), len(index.entries), before + index.reached, len(index.entries))
    yield from entries(index)
    at, kind, sender, _ = index.entries[2]
    yield first(index, 16, kind, sender, at)
    yield first(index, 16, kind, sender, at + 1)


# the messages by their types in the order in which rewritten has them, and where mixed bytes begin, such that flags are in their range
MIXED = {
    0x0206: 5, 0x0200: 5, 0x0201: 5, 0x0202: 2, 0x0204: 5, 0x0203: 7, 0x0205: 5, 0x0207: 4, 0x0044: 5, 0x0048: 5, 0x0081: 5, 0x0082: 5, 0x0083: 5,
    0x0090: 5, 0x0091: 5, 0x0092: 5, OBS: 3, 0x0401: None, 0x00A1: 5, 0x00A6: 5, 0x00A2: 5, 0xFF00: 5, 0xFFFF: 5}


def payloads():
    """Each type with a payload and the byte after it: GPS_TIME with its least ns, two observations, a LOG of the greatest length with two zeros."""
    plain = mixed(5, 37, 12)
    yield 0x0100, plain[:6] + struct.pack("<i", -500000) + plain[10:]
    for kind, seed in MIXED.items():
        if kind == 0x0401:
            text = mixed(1, 2, 256)
            yield kind, text[:253] + bytes(2) + text[255:]
        else:
            yield kind, mixed(seed, 37, (39 if kind == OBS else struct.calcsize("<" + MESSAGES[NAMES[kind]][1])) + 1)


def rewritten():
    """What rewritten prints: the type, the answer to its payload, the frame of a writer that is given no sender, that the raw one is the same, and
    the answers of the message's own reader to the payload and to one byte more."""
    for kind, longer in payloads():
        payload = longer[:-1]
        outcome = answer(kind, payload)
        sent = frame(kind, sent_by(kind, 0x0201, NO_SENDER), payload)
        yield "%04x %d %s same %d %d" % (kind, outcome, sent.hex(), outcome, answer(kind, longer))


def lines():
    """What vectors prints: the published values, and what no linked function reaches."""
    for part in published, noise_around, sums_apart, numbers, doubles, log_texts, walks, counted, in_counter_order:
        yield from part()


def asked():
    """What tests/values prints: the published values again, and all that the linked functions can be asked."""
    for part in published, sums, captures, written, senders, each, orbits, flags, observations, logs, types, collated, out_of_order, indexed:
        yield from part()


if __name__ == "__main__":
    for line in {"--asked": asked, "--rewritten": rewritten}.get("".join(sys.argv[1:]), lines)():
        print(line)
