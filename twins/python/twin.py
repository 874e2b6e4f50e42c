"""A twin in Python, by the words of documents 01 and 003 and of requests P1, P2 and P5 to P7, with Python's own codecs: frames, who sends them,
payload answers, flags, epochs, the listing, an index beside a capture.

It has none of our code and looks at none.
"""
import binascii
import struct

OBS = 0x0049

# tow and wn; sid, toe, ura, fit_interval, valid and health, which every ephemeris begins with; position, velocity and acceleration
TIME = "IH"
COMMON = "HBB" + TIME + "dIBB"
MOTION = "ddd" * 3

# name: type, struct format (d: a double), and the last fix mode that flags may have
MESSAGES = {
    "gps-time": (0x0100, "HIiB", None), "dops": (0x0206, "IHHHHH", None), "pos-ecef": (0x0200, "IdddHBB", 2), "pos-llh": (0x0201, "IdddHHBB", 2),
    "baseline-ecef": (0x0202, "IiiiHBB", 1), "vel-ecef": (0x0204, "IiiiHBB", None), "baseline-ned": (0x0203, "IiiiHHBB", 1),
    "vel-ned": (0x0205, "IiiiHHBB", None), "baseline-heading": (0x0207, "IIBB", 1), "base-pos-llh": (0x0044, "ddd", None),
    "base-pos-ecef": (0x0048, "ddd", None), "ephemeris-gps": (0x0081, COMMON + "d" * 19 + TIME + "BH", None),
    "ephemeris-sbas": (0x0082, COMMON + MOTION + "dd", None), "ephemeris-glo": (0x0083, COMMON + "dd" + MOTION, None),
    "iono": (0x0090, TIME + "d" * 8, None), "sv-configuration-gps": (0x0091, TIME + "I", None), "group-delay": (0x0092, TIME + "BBhhh", None),
    "read-by-index-req": (0x00A2, "H", None),
    "startup": (0xFF00, "I", None), "heartbeat": (0xFFFF, "I", None), "settings-save": (0x00A1, "", None), "read-by-index-done": (0x00A6, "", None)}
NAMES = {kind: name for name, (kind, _, _) in MESSAGES.items()}

# 003's tables of fix modes, flags[0:2]: 6.2.4, 6.2.8, and 6.2.13 (6.2.17 and 6.2.23 are the same)
FIX_MODES = {
    "pos-ecef": {0: "single", 1: "float", 2: "fixed"},
    "pos-llh": {0: "single", 1: "fixed", 2: "float"},
    "baseline": {0: "float", 1: "fixed"}}

# 003's tables of single flags: the bit that each is about
FLAGS = {
    "raim available": 3,  # 6.2.5, 6.2.14, 6.2.18, 6.2.24
    "raim repair": 4,  # 6.2.6, 6.2.15, 6.2.19, 6.2.25
    "pos-llh height above mean sea level": 3,  # 6.2.9
    "pos-llh raim available": 4,  # 6.2.10
    "pos-llh raim repair": 5}  # 6.2.11
HEARTBEAT_FLAGS = {
    "system error": 0,  # 6.5.3
    "io error": 1,  # 6.5.4
    "swiftnap error": 2,  # 6.5.5
    "external antenna": 31}  # 6.5.6


def frame(kind, sender, payload):
    body = struct.pack("<HHB", kind, sender, len(payload)) + payload
    return b"\x55" + body + struct.pack("<H", binascii.crc_hqx(body, 0))


def sent_by(kind, own, given):
    """P6's rule: a frame's sender is the one that is given (no number of 16 bits: none), else 0x42 for the two types that devices are to obey, else
    the recorder's own number."""
    return given if given < 65536 else 0x42 if kind in (0x00A1, 0x00A2) else own


def reading(data, opened):
    """Document 01's five lines: the frames, the four counts, and how many bytes an open reading asks for (None: it ended)."""
    p, found, counts = 0, [], dict(framed=0, junk=0, bad=0, short=0)
    while p < len(data):
        left = len(data) - p
        need = 6 if left < 6 else data[p + 5] + 8
        if data[p] != 0x55:
            kind, step = "junk", 1
        elif left < need:
            if opened:
                return found, counts, need
            kind, step = "short", 1
        elif binascii.crc_hqx(data[p + 1:p + need - 2], 0) != struct.unpack("<H", data[p + need - 2:p + need])[0]:
            kind, step = "bad", 1
        else:
            found.append((p, *struct.unpack("<HH", data[p + 1:p + 5]), data[p + 6:p + need - 2]))
            kind, step = "framed", need
        counts[kind] += step
        p += step
    return found, counts, None


def row(counts):
    return "%(framed)d %(junk)d %(bad)d %(short)d" % counts


def is_obs(size):
    return size in range(7, 248, 16)


def log_answer(payload):
    """The text after the level ends before the first zero, and all that comes after it is zeros."""
    if not 1 <= len(payload) <= 255:
        return 22
    _, _, after = payload[1:].partition(b"\0")
    return 23 if any(after) else 0


def answer(kind, payload):
    """0, 21, 22 or 23."""
    if kind == OBS:
        return 0 if is_obs(len(payload)) else 22
    if kind == 0x0401:
        return log_answer(payload)
    if kind not in NAMES:
        return 21
    _, layout, last = MESSAGES[NAMES[kind]]
    if len(payload) != struct.calcsize("<" + layout):
        return 22
    if NAMES[kind] == "gps-time" and not -500000 <= struct.unpack("<" + layout, payload)[2] <= 500000:
        return 23
    return 23 if last is not None and payload[-1] % 8 > last else 0


def obs(tow, wn, n_obs, count):
    return struct.pack("<IHB", tow, wn, n_obs) + bytes(16 * count)


COUNTED = {OBS, 0x0401, *NAMES}  # the types that have a reading


class Index:
    """P5's index by its meaning: what a full open reading of the capture has, made afresh each time. A list is told by how many entries it has."""

    def __init__(self):
        self.reached, self.entries = 0, []

    def extend(self, data, most):
        if len(data) < self.reached:
            return 52
        found, counts, _ = reading(data, True)
        if most < len(found):
            return 51
        self.reached, self.entries = sum(counts.values()), [(at, kind, sender, len(payload)) for at, kind, sender, payload in found]
        return 0

    def first(self, most, kind, sender, offset):
        """The refusal or 0, and the place of the first such frame at or after the offset, or None."""
        if most < len(self.entries):
            return 51, None
        places = (place for place, entry in enumerate(self.entries) if entry[1:3] == (kind, sender) and entry[0] >= offset)
        return 0, next(places, None)

    def count(self, kind):
        """The refusal or 0, and how many frames of that type were read."""
        return (0, sum(entry[1] == kind for entry in self.entries)) if kind in COUNTED else (21, None)

    def lines(self):
        """Each entry with the place of the next like it, the counts, the position reached and how many entries are held."""
        for at, kind, sender, length in self.entries:
            _, place = self.first(len(self.entries), kind, sender, at + 1)
            yield "F %d %d %d %d%s" % (at, kind, sender, length, "" if place is None else " %d" % place)
        for kind in sorted(COUNTED):
            yield "C %d %d" % (kind, self.count(kind)[1])
        yield "T %d %d" % (self.reached, len(self.entries))


def made(roster):
    return 41 if not 1 <= len(roster) <= 8 else 42 if len(set(roster)) < len(roster) else 0


class Sorter:
    """P7's epochs by their meaning: the well-formed frames of each listed sender in groups, and whether the last group is whole. A group has a key and
    the packets that came, by their counters; a new one begins with the first frame, after a whole group, and where the key differs."""

    def __init__(self, *roster):
        self.groups = {sender: [] for sender in roster}

    def feed(self, kind, sender, payload):
        if kind != OBS:
            return " refused 46"
        if not is_obs(len(payload)):
            return " refused 22"
        if sender not in self.groups:
            return " refused 43"
        tow, wn, n_obs = struct.unpack_from("<IHB", payload)
        n, i = divmod(n_obs, 16)
        if not i < n:
            return " refused %d" % (45 if n else 44)
        packets = self.group(sender, (tow, wn, n))
        if i in packets:
            return " refused 47"
        packets[i] = (len(payload) - 7) // 16
        if set(packets) != set(range(n)):
            return " taken"
        return " epoch %d %d %d %d %d" % (sender, wn, tow, n, sum(packets.values()))

    def group(self, sender, key):
        """The packets of the group that a frame with that key belongs to."""
        groups = self.groups[sender]
        if not groups or groups[-1][0] != key or set(groups[-1][1]) == set(range(key[2])):
            groups.append((key, {}))
        return groups[-1][1]


def answered(data, most=None):
    """Each frame with what a collator of the first so many senders says of it, a word and numbers, and the counts."""
    found, counts, _ = reading(data, False)
    senders = list(dict.fromkeys(sender for _, kind, sender, _ in found if kind == OBS))
    sorter, frames = Sorter(*senders[:most]), []
    for frame in found:
        word, *numbers = sorter.feed(*frame[1:]).split()
        frames.append((frame, word, [int(n) for n in numbers]))
    return frames, counts


def collated(data, most=None):
    """Each frame with the numbers of the epoch that it ends, or None, and the counts; of the first so many senders."""
    frames, counts = answered(data, most)
    return [(frame, numbers if word == "epoch" else None) for frame, word, numbers in frames], counts


def lines(data):
    """A listing, whatever the length."""
    frames, counts = collated(data, 8)
    listed = []
    for (at, kind, sender, payload), epoch in frames:
        listed.append("F %d %d %d %d %d" % (at, kind, sender, len(payload), answer(kind, payload)))
        if epoch is not None:
            listed.append("E %d %d %d %d %d" % tuple(epoch))
    listed.append("T %d %s" % (len(data), row(counts)))
    return "".join(line + "\n" for line in listed)


def listing(data):
    """What sbplist prints."""
    return "R 11\n" if len(data) > 65536 else lines(data)
