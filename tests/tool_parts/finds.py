"""`sbp find` against the Python twin's open reading: of files as they are, of one that grows between questions, of one that shrinks; asked by lines
and once on the command line."""
import functools
import os
import random
import subprocess
import tempfile

import captures
import common
import messages
import piped
import twin

NAMES = {kind: name for kind, (name, _) in messages.FIELDS.items()}
NO_QUESTIONS = [b"", b" ", b"73 0", b"73 0 0 0", b"65536", b"-1", b"+1", b"0x", b"0x10000", b"0X49", b"4a", b"obs", b"OBSE", b"MSG_", b"UNKNOWN",
                b"73 65536 0", b"73 0 18446744073709551616", b"73 0 -1", b"73 OBS 0", b"73,0,0", b"73\0", b"\xff", b"? " * 50000]


@functools.lru_cache(1)
def frames(data):
    return twin.reading(data, True)[0]


def first(data, kind, sender, offset):
    """The line for a frame looked for."""
    for at, of_kind, by, payload in frames(data):
        if (of_kind, by) == (kind, sender) and at >= offset:
            return b"F %d %d %d %d\n" % (at, kind, sender, len(payload))
    return b"N\n"


def count(data, kind):
    """The line for a type's count."""
    if kind not in NAMES:
        return b"R 21\n"
    return b"C %d\n" % sum(of_kind == kind for _, of_kind, _, _ in frames(data))


def asked(data, seed):
    """Questions in all forms, and their answers: frames at their offsets and past them, those that are not there, counts."""
    rng = random.Random(seed)
    found = frames(data)
    some = rng.sample(found, min(len(found), 12)) + [(5, twin.OBS, 65535, b""), (0, 0x0800, 0, b"")]
    for at, kind, sender, _ in some:
        for offset in (0, at, at + 1, rng.randrange(len(data) + 2), 2**64 - 1):
            form = rng.choice(["%d %d %d", "0x%x 0x%X 0x%x", " 0x%04x\t%05d  %d\r"])
            yield form.encode() % (kind, sender, offset), first(data, kind, sender, offset)
    for kind in [*NAMES, 0, 0x0800, rng.randrange(65536)]:
        yield rng.choice([b"%d", b"0x%x"]) % kind, count(data, kind)
    for kind, name in NAMES.items():
        yield name.encode(), count(data, kind)
        yield name[4:].encode() + b" 0 0", first(data, kind, 0, 0)


def kept(work, name, data):
    path = os.path.join(work, name)
    with open(path, "wb") as file:
        file.write(data)
    return path


def by_lines(work):
    """All questions in one go, the last one without its line's end."""
    sample = captures.SAMPLE
    ones = [("nothing", b""), ("the sample", sample), ("a frame that has not come whole", sample[:150]), ("noise", captures.noise(5, 3000))]
    for seed, (name, data) in enumerate(ones + list(captures.generated(40)) + list(captures.long_ones())):
        lines, answers = zip(*asked(data, seed))
        yield "questions about %s" % name, common.run("find", kept(work, "file", data), data=b"\n".join(lines)), (b"".join(answers), b"", 0)
    lines = b"".join(line + b"\n" for line in NO_QUESTIONS)
    yield "what is no question", common.run("find", kept(work, "file", sample), data=lines), (b"?\n" * len(NO_QUESTIONS), b"", 0)
    yield "no lines", common.run("find", kept(work, "file", sample)), (b"", b"", 0)


def answer(program, line):
    """The answer to a line, before another is asked; where none comes, none is waited for again."""
    program.stdin.write(line + b"\n")
    program.stdin.flush()
    told = common.line_of(program)
    if told == common.NOTHING:
        program.kill()
    return told


def growing(work):
    """A file that grows by 0 to 300 bytes between questions, and once by more than a window; questions about what is there, and what is not yet."""
    rng = random.Random(6)
    whole = captures.noise(7, 200) + captures.SAMPLE + captures.cut_to_the_window()[:400000] + captures.SAMPLE
    sizes = [rng.randrange(301) for _ in range(60)] + [len(whole)]
    path, end = kept(work, "growing", b""), 0
    with common.started("find", path) as program, open(path, "ab", buffering=0) as file:
        for size in sizes:
            file.write(whole[end:end + size])
            end = min(end + size, len(whole))
            now = whole[:end]
            last = max(0, end - 400)
            for kind, sender in ((twin.OBS, 1228), (twin.OBS, 0), (0xFFFF, 1228), (0x0401, 1)):
                got = answer(program, b"%d %d %d" % (kind, sender, last))
                yield "the last %d of %d at %d bytes" % (kind, sender, end), got, first(now, kind, sender, last)
                yield "how many %d at %d bytes" % (kind, end), answer(program, b"%d" % kind), count(now, kind)
        yield "the end of a file that grew", program.communicate(), (b"", b"")


def shrinking(work):
    """A file that is cut below what was read of it, comes back, and has another end in place of a frame that had not come whole."""
    sample = captures.SAMPLE
    read = sum(twin.reading(sample, True)[1].values())
    path = kept(work, "shrinking", sample)
    with common.started("find", path) as program:
        yield "before it shrinks", answer(program, b"HEARTBEAT"), count(sample, 0xFFFF)
        for length in (read - 1, 1, 0):
            os.truncate(path, length)
            for line in (b"HEARTBEAT", b"0x0800", b"HEARTBEAT 1228 0", b"0 0 0"):
                yield "%r of %d bytes" % (line, length), answer(program, line), b"R 52\n"
            yield "no question of %d bytes" % length, answer(program, b"what"), b"?\n"
        for now in (sample, sample[:read], sample[:-1], sample[:read] + twin.frame(0x0800, 9, b"another end")):
            kept(work, "shrinking", now)
            yield "a count of %d bytes again" % len(now), answer(program, b"HEARTBEAT"), count(now, 0xFFFF)
            yield "a frame of %d bytes again" % len(now), answer(program, b"0x0800 9 0"), first(now, 0x0800, 9, 0)
        yield "the end of a file that shrank", program.communicate(), (b"", b"")


def once(work):
    """The question on the command line, with the status of grep."""
    sample = captures.SAMPLE
    path = kept(work, "file", sample)
    asked = [(["HEARTBEAT", "1228", "4000"], first(sample, 0xFFFF, 1228, 4000), 0), (["0xffff", "0x4cc"], first(sample, 0xFFFF, 1228, 0), 0),
             (["MSG_OBS", "0", "99"], first(sample, twin.OBS, 0, 99), 0), (["73", "0", "100"], first(sample, twin.OBS, 0, 100), 0),
             (["HEARTBEAT", "0"], b"N\n", 1), (["OBS", "0", "%d" % len(sample)], b"N\n", 1), (["0x0800", "0"], b"N\n", 1),
             (["OBS"], count(sample, twin.OBS), 0), (["LOG"], b"C 0\n", 1), (["0x0800"], b"R 21\n", 2)]
    for words, wanted, status in asked:
        yield "once: %s" % words, common.run("find", path, *words), (wanted, b"", status)
        yield "once, of standard input: %s" % words, common.run("find", "-", *words, data=sample), (wanted, b"", status)
    pipe = os.path.join(work, "pipe")
    os.mkfifo(pipe)
    with common.started("find", pipe) as program:
        with open(pipe, "wb") as end:
            end.write(sample)
        yield "a pipe is read to its end", answer(program, b"OBS"), count(sample, twin.OBS)
        yield "a pipe asked again", answer(program, b"OBS 0 99"), first(sample, twin.OBS, 0, 99)
        with open(pipe, "wb"):
            yield "a pipe that another opens is not waited for", answer(program, b"OBS"), count(sample, twin.OBS)


def to_a_closed_pipe(*words):
    """What it says and leaves where nobody reads."""
    ours, theirs = os.pipe()
    os.close(ours)
    done = subprocess.run([common.SBP, *words], input=b"OBS\n" * 9, stdout=theirs, stderr=subprocess.PIPE)
    os.close(theirs)
    return done.stderr, done.returncode


def trouble(work):
    path, absent = kept(work, "file", captures.SAMPLE), os.path.join(work, "absent")
    missing, folder = b"sbp: %s: No such file or directory\n" % absent.encode(), b"sbp: %s: Is a directory\n" % work.encode()
    for words in ([], ["OBS"], ["OBS", "0"]):
        yield "a missing file: %s" % words, common.run("find", absent, *words, data=b"OBS\n"), (b"", missing, 2)
        yield "a folder: %s" % words, common.run("find", work, *words, data=b"OBS\n"), (b"", folder, 2)
        with open("/dev/full", "wb") as full:
            done = subprocess.run([common.SBP, "find", path, *words], input=b"OBS\n", stdout=full, stderr=subprocess.PIPE)
            yield "a full disk: %s" % words, (done.stderr, done.returncode), (b"sbp: standard output: No space left on device\n", 2)
    for words, status in (([], 0), (["OBS"], 0), (["LOG"], 1)):
        yield "a pipe that is closed: %s" % words, to_a_closed_pipe("find", path, *words), (b"", status)
    asking = os.open(work, os.O_RDONLY)
    done = subprocess.run([common.SBP, "find", path], stdin=asking, stdout=subprocess.PIPE, stderr=subprocess.PIPE)
    os.close(asking)
    yield "questions that cannot be read", (done.stdout, done.stderr, done.returncode), (b"", b"sbp: standard input: Is a directory\n", 2)


def cases():
    with tempfile.TemporaryDirectory() as work:
        for part in (by_lines, growing, shrinking, once, trouble):
            yield from part(work)
    peak = piped.memory("find", "/dev/null", data=b"? " * (16 << 20))
    yield "a question without an end takes little memory (%d bytes)" % peak, peak < piped.MOST_MEMORY, True
    # long frames: what is kept of each is little
    peak = piped.memory("find", "-", "LOG", data=captures.cut_to_the_window() * 40)
    yield "find in a long capture takes little memory (%d bytes)" % peak, peak < piped.MOST_MEMORY, True
