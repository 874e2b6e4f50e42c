"""Messages by 003's tables, and captures of them with values of all kinds."""
import random
import re
import struct

import twin

COMMON = " ".join("common." + name for name in "sid.sat sid.code sid.reserved toe.tow toe.wn ura fit_interval valid health".split())
MOTION = " ".join("%s[%d]" % (name, i) for name in ("pos", "vel", "acc") for i in range(3))

# 003, section 6: type, name, fields in order by their dotted names; OBS and LOG have forms of their own
FIELDS = {
    0x0100: ("MSG_GPS_TIME", "wn tow ns flags"), 0x0206: ("MSG_DOPS", "tow gdop pdop tdop hdop vdop"),
    0x0200: ("MSG_POS_ECEF", "tow x y z accuracy n_sats flags"),
    0x0201: ("MSG_POS_LLH", "tow lat lon height h_accuracy v_accuracy n_sats flags"),
    0x0202: ("MSG_BASELINE_ECEF", "tow x y z accuracy n_sats flags"), 0x0204: ("MSG_VEL_ECEF", "tow x y z accuracy n_sats flags"),
    0x0203: ("MSG_BASELINE_NED", "tow n e d h_accuracy v_accuracy n_sats flags"),
    0x0205: ("MSG_VEL_NED", "tow n e d h_accuracy v_accuracy n_sats flags"),
    0x0207: ("MSG_BASELINE_HEADING", "tow heading n_sats flags"), 0x0044: ("MSG_BASE_POS_LLH", "lat lon height"),
    0x0048: ("MSG_BASE_POS_ECEF", "x y z"), 0x0049: ("MSG_OBS", "header obs"), 0x0401: ("MSG_LOG", "level text padding"),
    0x0081: ("MSG_EPHEMERIS_GPS", COMMON + " tgd c_rs c_rc c_uc c_us c_ic c_is dn m0 ecc sqrta omega0 omegadot w inc inc_dot af0 af1 af2"
                                           " toc.tow toc.wn iode iodc"),
    0x0082: ("MSG_EPHEMERIS_SBAS", COMMON + " " + MOTION + " a_gf0 a_gf1"), 0x0083: ("MSG_EPHEMERIS_GLO", COMMON + " gamma tau " + MOTION),
    0x0090: ("MSG_IONO", "t_nmct.tow t_nmct.wn a0 a1 a2 a3 b0 b1 b2 b3"), 0x0091: ("MSG_SV_CONFIGURATION_GPS", "t_nmct.tow t_nmct.wn l2c_mask"),
    0x0092: ("MSG_GROUP_DELAY", "t_op.tow t_op.wn prn valid tgd isc_l1ca isc_l2c"),
    0x00A1: ("MSG_SETTINGS_SAVE", ""), 0x00A6: ("MSG_SETTINGS_READ_BY_INDEX_DONE", ""),
    0x00A2: ("MSG_SETTINGS_READ_BY_INDEX_REQ", "index"), 0xFF00: ("MSG_STARTUP", "reserved"), 0xFFFF: ("MSG_HEARTBEAT", "flags")}

EDGES = {
    "B": [0, 1, 7, 8, 127, 128, 255], "H": [0, 1, 255, 256, 65535], "I": [0, 1, 65536, 2**31, 2**32 - 1],
    "h": [0, -1, 1, 2**15 - 1, -2**15], "i": [0, -1, 1, -500000, 500000, 2**31 - 1, -2**31],
    # both zeros, ones, the least and largest numbers, subnormals, infinities, quiet and signalling NaNs; and numbers that need 17 digits
    "d": [0, 1 << 63, 0x3FF0000000000000, 0x0010000000000000, 0x7FEFFFFFFFFFFFFF, 1, 0x800FFFFFFFFFFFFF, 0x7FF0000000000000,
          0xFFF0000000000000, 0x7FF8000000000000, 0x7FF8000000000001, 0x7FF0000000000001, 0xFFFFFFFFFFFFFFFF, 0xFFF4000000000000,
          0x3FD3333333333334, 0x4042E334D6A161E5, 0xC05E9AD42C3C9EEC, 0x4340000000000001]}
WIDTHS = {"B": 1, "H": 2, "I": 4, "h": 2, "i": 4, "d": 8}
TEXTS = [b"", b"plain", b'quote " and \\ back', b"line\r\n\ttab \x01\x1b\x7f", "Gr\u00f6\u00dfe \u20ac \U0001f6f0".encode(), b"\xff\xfe cut \xe2\x82", b"\x80",
         b"\xed\xa0\x80 \xed\xb2\x80", b"\xc0\x80 \xf4\x90\x80\x80", bytes(range(1, 255)), b"\xe2\x82" * 127, b"a" * 254]


def keys(names):
    """What dotted names begin with, in order: an object's keys."""
    return list(dict.fromkeys(re.match(r"\w+", name).group() for name in names.split()))


def number(rng, form):
    """Bytes of a field of that format."""
    value = rng.choice(EDGES[form]) if rng.random() < 0.5 else rng.getrandbits(8 * WIDTHS[form])
    return (value % 256**WIDTHS[form]).to_bytes(WIDTHS[form], "little")


def filled(rng, kind):
    """A payload of that type, mostly one that is read."""
    if kind == 0x0401:
        text = rng.choice(TEXTS) if rng.random() < 0.7 else rng.randbytes(rng.randrange(255))
        return (number(rng, "B") + text + bytes(rng.choice([0, 0, 1, 9, 254])))[:255]
    if kind == twin.OBS:
        return b"".join(number(rng, form) for form in "IHB" + "IiBBHHBB" * rng.randrange(16))
    _, layout, last = twin.MESSAGES[twin.NAMES[kind]]
    payload = b"".join(number(rng, form) for form in layout)
    if rng.random() < 0.2:
        return payload
    if kind == 0x0100:
        ns = rng.choice([0, -1, -500000, 500000, rng.randrange(-500000, 500001)])
        return payload[:6] + struct.pack("<i", ns) + payload[10:]
    return payload if last is None else payload[:-1] + bytes([payload[-1] & 0xF8 | rng.randrange(last + 1)])


def capture(seed, rounds):
    """All messages with values of all kinds, among unknown types, wrong lengths and noise."""
    rng = random.Random(seed)
    out = []
    for _ in range(rounds):
        for kind in rng.sample(sorted(FIELDS), len(FIELDS)):
            payload = filled(rng, kind)
            if rng.random() < 0.05:
                payload = rng.choice([payload[:-1], payload[:254] + b"\0", b""])
            out.append(twin.frame(kind, rng.choice([0, 66, 1228, 65535, rng.randrange(65536)]), payload))
        out.append(twin.frame(rng.randrange(65536), 7, rng.randbytes(rng.randrange(256))))
        out.append(rng.choice([b"", b"\x55", rng.randbytes(3)]))
    return b"".join(out)
