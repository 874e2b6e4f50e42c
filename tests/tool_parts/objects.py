"""`sbp json`: each line's frame put together again is that part of the capture, and its fields, packed by 003's formats with Python's struct, are
the payload, to the bit. Read back and written by the library's own writers (tests/rewrite.c), the lines give the same frames."""
import base64
import decimal
import json
import struct

import captures
import common
import logs
import messages
import twin

FRAME = ["offset", "answer", "preamble", "msg_type", "msg_name", "sender", "length", "payload", "crc"]


class Number(str):
    """A number with a point or an exponent, as it stands in the line."""


def digits(text):
    """How many a number has; two with as few may have the same bits, and languages choose differently."""
    return len(decimal.Decimal(text).normalize().as_tuple().digits)


def double(value):
    """A double's bytes; a number has to be the shortest that has its bits, a string the bits of what is no number."""
    if isinstance(value, Number):
        if digits(value) != digits(repr(float(value))):
            raise ValueError("%s is not the shortest" % value)
        return struct.pack("<d", float(value))
    bits = int(value, 16)
    if len(value) != 18 or not value.startswith("0x") or bits >> 52 & 0x7FF != 0x7FF:
        raise ValueError("%s is a number, or no pattern of 16 digits" % value)
    return struct.pack("<Q", bits)


def packed(form, values):
    """Fields in their formats, one after the other."""
    if len(form) != len(values):
        raise ValueError("%d fields of %d" % (len(values), len(form)))
    return b"".join(double(value) if one == "d" else struct.pack("<" + one, value) for one, value in zip(form, values))


def observation(one):
    nested = [list(one), list(one["L"]), list(one["sid"])]
    if nested != [["P", "L", "cn0", "lock", "sid"], ["i", "f"], ["sat", "code", "reserved"]]:
        raise ValueError("keys %s" % nested)
    sid = one["sid"]
    return packed("IiBBHHBB", [one["P"], one["L"]["i"], one["L"]["f"], one["cn0"], one["lock"], sid["sat"], sid["code"], sid["reserved"]])


def leaves(name, value):
    """What a value holds, by dotted names."""
    if isinstance(value, dict):
        for key, inner in value.items():
            yield from leaves("%s.%s" % (name, key), inner)
    elif isinstance(value, list):
        for i, inner in enumerate(value):
            yield from leaves("%s[%d]" % (name, i), inner)
    else:
        yield name, value


def fields_of(told):
    """The fields of a message that is neither OBS nor LOG, which stand under 003's names."""
    names = messages.FIELDS[told["msg_type"]][1]
    found = [leaf for key in messages.keys(names) for leaf in leaves(key, told[key])]
    if [name for name, _ in found] != names.split():
        raise ValueError("fields %s" % [name for name, _ in found])
    return [value for _, value in found]


def text_of(told):
    return told["text"].encode("utf-8", "surrogateescape")


def fields_packed(told):
    """The payload that an object's fields make."""
    kind = told["msg_type"]
    if kind == twin.OBS:
        header = told["header"]
        if [list(header), list(header["t"])] != [["t", "n_obs"], ["tow", "wn"]]:
            raise ValueError("keys of the header")
        return packed("IHB", [header["t"]["tow"], header["t"]["wn"], header["n_obs"]]) + b"".join(map(observation, told["obs"]))
    if kind == 0x0401:
        text = text_of(told)
        if 0 in text:
            raise ValueError("a zero in the text")
        return packed("B", [told["level"]]) + text + bytes(told["padding"])
    return packed(twin.MESSAGES[twin.NAMES[kind]][1], fields_of(told))


def row(form, values):
    """Fields as the numbers that the library's writers take."""
    return ["%d" % (int.from_bytes(double(v), "little") if one == "d" else v % 2**64) for one, v in zip(form, values)]


def line_of(letter, told, *lists):
    return " ".join([letter, "%d" % told["msg_type"], "%d" % told["sender"]] + [word for ns in lists for word in ["%d" % len(ns)] + ns])


def writers_line(line):
    """What tests/rewrite.c is asked to write: the fields, or of a refused payload its bytes."""
    told = json.loads(line, parse_float=Number)
    kind = told["msg_type"]
    if told["answer"] != 0:
        return line_of("F", told, ["%d" % byte for byte in base64.b64decode(told["payload"])])
    if kind == twin.OBS:
        header, seen = told["header"], [(o["P"], *o["L"].values(), o["cn0"], o["lock"], *o["sid"].values()) for o in told["obs"]]
        return line_of("O", told, row("IHB", [*header["t"].values(), header["n_obs"]]), [n for one in seen for n in row("IiBBHHBB", one)])
    if kind == 0x0401:
        return line_of("L", told, ["%d" % n for n in (told["level"], told["padding"], *text_of(told))])
    return line_of("W", told, row(twin.MESSAGES[twin.NAMES[kind]][1], fields_of(told)))


def written_again(lines):
    asked = "".join(writers_line(line) + "\n" for line in lines).encode()
    return common.run(data=asked, program=common.rewriter())


def told_of(line):
    """What a line says: its keys, offset, answer, name, the frame that it makes, and the payload that its fields make; or what is wrong with it."""
    try:
        told = json.loads(line, parse_float=Number)
        payload = base64.b64decode(told["payload"], validate=True)
        head = struct.pack("<BHHB", told["preamble"], told["msg_type"], told["sender"], told["length"])
        frame = head + payload + struct.pack("<H", told["crc"])
        fields = fields_packed(told) if told["answer"] == 0 else None
        return list(told), told["offset"], told["answer"], told["msg_name"], frame, fields
    except (KeyError, TypeError, ValueError, struct.error) as wrong:
        return "%r in %.200r" % (wrong, line)


def wanted_of(data, at, kind, payload):
    answer = twin.answer(kind, payload)
    name, fields = messages.FIELDS.get(kind, ("UNKNOWN", ""))
    keys = FRAME + (messages.keys(fields) if answer == 0 else [])
    return keys, at, answer, name, data[at:at + len(payload) + 8], payload if answer == 0 else None


def compared(name, data):
    out, said, status = common.run("json", data=data)
    lines, found = out.split(b"\n"), twin.reading(data, False)[0]
    yield name + ": lines", (len(lines) - 1, lines[-1], said, status), (len(found), b"", b"", 0)
    for line, (at, kind, _, payload) in zip(lines, found):
        yield "%s: the frame at %d" % (name, at), told_of(line), wanted_of(data, at, kind, payload)
    frames = b"".join(data[at:at + len(payload) + 8] for at, _, _, payload in found)
    yield name + ": written again by the library", written_again(lines[:-1]), (frames, b"", 0)


def reached(data):
    """The types that are read, and the answers; a capture that lacks one shows too little."""
    answers = [(kind, twin.answer(kind, payload)) for _, kind, _, payload in twin.reading(data, False)[0]]
    return {kind for kind, answer in answers if answer == 0}, {answer for _, answer in answers}


def cases():
    data = messages.capture(14, 60)
    yield "all types are read and all answers come", reached(data), (set(messages.FIELDS), {0, 21, 22, 23})
    yield from compared("all messages", data)
    yield from compared("the sample", captures.SAMPLE)
    texts = b"".join(twin.frame(0x0401, 1, b"\x06" + text) for text in messages.TEXTS)
    yield from compared("texts", texts)
    yield from compared("LOGs", logs.CAPTURE)
    edges = b"".join(twin.frame(0x0048, 1, struct.pack("<QQQ", bits, bits ^ 1 << 63, bits ^ 1)) for bits in messages.EDGES["d"])
    yield from compared("doubles", edges)
    # past the first window: offsets are the whole capture's
    far = bytes(600000) + captures.SAMPLE
    yield from compared("far", far)
