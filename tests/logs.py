"""LOG payloads at the edges, by the answer that each has: a level, a text that ends before the first zero, zeros from there on."""
import twin

PAYLOADS = {
    0: [b"\x06text", b"\x06text\0", b"\x06text" + bytes(250),  # no zero after the text, one, many
        b"\x06", b"\x06\0", b"\x06" + bytes(254),  # no text
        b"\0", b"\0text", b"\0text\0", bytes(255),  # a level of 0 ends nothing
        b"\x06" + b"x" * 254, b"\x06" + b"x" * 253 + b"\0"],  # the longest
    22: [b""],
    23: [b"\x06\0t", b"\0\0t", b"\x06text\0t", b"\x06text\0t\0", b"\x06text\0\0\0\xff",  # a letter after a zero
         b"\x06" + bytes(253) + b"t", b"\x06" + b"x" * 252 + b"\0x"]}
CAPTURE = b"".join(twin.frame(0x0401, 1228, payload) for alike in PAYLOADS.values() for payload in alike)


def as_answered():
    """Whether the Python twin gives each the answer that it has here."""
    return all(twin.answer(0x0401, payload) == answer for answer, alike in PAYLOADS.items() for payload in alike)
