"""Up to 65536 bytes `sbp list` prints what sbplist prints: at the edges and on generated captures. So does the part `long`'s own listing."""
import itertools

import captures
import common
import answers
import logs
import twin


def edges():
    sample, blank = captures.SAMPLE, twin.frame(0, 0, b"")
    yield "nothing", b""
    yield "one byte", b"\x55"
    yield "the sample", sample
    yield "the sample, cut", sample[:-700]
    yield "65536 bytes of noise", captures.noise(1, 65536)
    yield "65536 bytes of frames", blank * 8192
    yield "65536 bytes of 0x55", b"\x55" * 65536
    yield "65536 bytes with a cut tail", (sample * 12)[:65536]
    yield "twelve senders", captures.many_senders(12)
    yield "malformed ones first", twin.frame(twin.OBS, 1, b"") + captures.many_senders(8)
    yield "two queues", answers.two_queues(64)
    yield "every order, with copies", answers.every_order()
    kinds = (0x48, 0x49, 0x4A, 0x100, 0x200, 0x401)
    yield "unknown and malformed", b"".join(twin.frame(k, 9, bytes(n)) for k in kinds for n in (0, 7, 11, 24, 32, 255))
    orbits = (0x47, 0x80, 0x81, 0x82, 0x83, 0x90, 0x91, 0x92)
    yield "orbits, and old ones", b"".join(twin.frame(k, 9, bytes(n + one)) for k in orbits for n in (10, 14, 70, 112, 185) for one in (-1, 0, 1))
    yield "LOGs: text, and zeros after it", logs.CAPTURE


def cases():
    generated = ((name, data) for name, data in captures.generated(400) if len(data) <= 65536)
    for name, data in itertools.chain(edges(), generated):
        lines, said, status = common.run(*common.SBPLIST[1:], data=data, program=common.SBPLIST[0])
        yield name, common.run("list", data=data), (lines, said, status)
        yield name + ", the listing to compare long ones with", twin.lines(data).encode(), lines
