"""A capture that comes through a pipe, in any pieces, gives the same lines, and gives them as they come; memory stays small."""
import subprocess
import tempfile

import captures
import common
import pages
import twin

MOST_MEMORY = 8 << 20


def in_pieces(command, data, sizes):
    """What it prints where the capture comes in pieces of these sizes, over and over."""
    # into a file: nobody reads its output while the pieces are written
    with tempfile.TemporaryFile() as out, common.started(command, stdout=out) as program:
        at, turn = 0, 0
        while at < len(data):
            size = sizes[turn % len(sizes)]
            program.stdin.write(data[at:at + size])
            program.stdin.flush()
            at, turn = at + size, turn + 1
        _, said = program.communicate()
        out.seek(0)
        return out.read(), said, program.returncode


def first_line(command, data):
    """The line that is there while the pipe is still open, and the rest."""
    with common.started(command) as program:
        program.stdin.write(data)
        program.stdin.flush()
        line = common.line_of(program)
        program.stdin.close()
        return line, program.stdout.read()


def grown(command, data, more):
    """What it prints where more comes only once it has printed a line."""
    with common.started(command) as program:
        program.stdin.write(data)
        program.stdin.flush()
        line = common.line_of(program)
        program.stdin.write(more)
        program.stdin.close()
        return line + program.stdout.read()


def memory(*words, data):
    """The most memory that it had by the time it has read all but what a pipe holds."""
    with common.started(*words, stdout=subprocess.DEVNULL) as program:
        program.stdin.write(data)
        program.stdin.flush()
        with open("/proc/%d/status" % program.pid) as status:
            peak = next(int(line.split()[1]) for line in status if line.startswith("VmHWM"))
        program.communicate()
        return 1024 * peak


def cases():
    sample = captures.SAMPLE
    frame = sample[20:20 + 8 + sample[25]]
    for command in ("list", "json", "epochs"):
        whole = common.run(command, data=sample)
        for sizes in ([1], [7], [3, 264, 1, 997], [4096, 1]):
            yield "%s, in pieces of %s" % (command, sizes), in_pieces(command, sample, sizes), whole
    long = sample * 60
    yield "a long capture in odd pieces", in_pieces("list", long, [1, 65521, 3, 262143]), common.run("list", data=long)
    for command in ("list", "json"):
        lines = common.run(command, data=frame)[0].splitlines(True)
        yield "%s gives a frame as it comes" % command, first_line(command, frame), (lines[0], b"".join(lines[1:]))
    early, late = pages.captures()
    blank = twin.frame(0, 0, b"")
    yield "list shows nothing that a frame swallows later", grown("list", blank + early, late[len(early):]), twin.lines(blank + late).encode()
    for command in ("list", "json", "epochs"):
        peak = memory(command, data=sample * 4000)
        yield "%s of a long capture takes little memory (%d bytes)" % (command, peak), peak < MOST_MEMORY, True
