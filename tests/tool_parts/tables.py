"""`sbp epochs` against counts of the Python twin's frames and epochs."""
import os
import tempfile

import captures
import common
import answers
import twin

HEADINGS = "sender epochs first_wn first_tow last_wn last_tow observations no_epoch copies".split()


def row(sender, frames):
    """A sender's line: of its epochs (sender, wn, tow, n, observations), of its frames that are in none, and of copies (47)."""
    own = [told for (_, kind, by, _), *told in frames if kind == twin.OBS and by == sender]
    ended = [numbers for word, numbers in own if word == "epoch"]
    first, last = (ended[0][1:3], ended[-1][1:3]) if ended else (["-", "-"], ["-", "-"])
    copies = own.count(["refused", [47]])
    lost = len(own) - sum(epoch[3] for epoch in ended) - copies
    return [str(cell) for cell in (sender, len(ended), *first, *last, sum(epoch[4] for epoch in ended), lost, copies)]


def table(data):
    frames, _ = twin.answered(data)
    senders = dict.fromkeys(sender for (_, kind, sender, _), *_ in frames if kind == twin.OBS)
    return [HEADINGS] + [row(sender, frames) for sender in senders]


def cells(out):
    return [line.split() for line in out.decode().splitlines()]


def aligned(out):
    """Every line as long as the others, and no space but between cells."""
    lines = out.decode().splitlines()
    return len({len(line) for line in lines}) == 1 and not any(line.endswith(" ") for line in lines)


def samples():
    yield "nothing", b""
    yield "no observations", twin.frame(0, 0, b"")
    yield "the sample", captures.SAMPLE
    yield "the sample many times", captures.SAMPLE * 100
    yield "only malformed ones", twin.frame(twin.OBS, 3, b"") + twin.frame(twin.OBS, 4, twin.obs(1, 2, 0x00, 0)) + twin.frame(twin.OBS, 3, bytes(8))
    yield "eight senders", captures.many_senders(8)
    yield "nine senders", captures.many_senders(9)
    yield "forty senders", captures.many_senders(40) * 3
    yield "two queues", answers.two_queues(400)
    yield "every order, with copies", answers.every_order()
    yield "copies of what is lost", b"".join(twin.frame(twin.OBS, 3, twin.obs(tow, 6, 0x30, 1)) for tow in range(9) for _ in range(tow))
    yield "the end of every range", b"".join(twin.frame(twin.OBS, 65535, twin.obs(2**32 - 1, 65535, 0xF0 + i, 15)) for i in range(15))
    yield from captures.generated(150)


def cases():
    for name, data in samples():
        out, said, status = common.run("epochs", data=data)
        yield name, (cells(out), said, status), (table(data), b"", 0)
        yield name + ", aligned", aligned(out), True
    with tempfile.TemporaryDirectory() as work:
        names = [os.path.join(work, name) for name in ("one", "other")]
        for name, data in zip(names, (captures.SAMPLE, captures.many_senders(9))):
            with open(name, "wb") as file:
                file.write(data)
        each = [b"==> %s <==\n" % name.encode() + common.run("epochs", name)[0] for name in names]
        yield "a table for each file", common.run("epochs", *names), (b"".join(each), b"", 0)
