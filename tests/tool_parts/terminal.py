"""Progress is shown on a terminal, of long captures, and nowhere else."""
import os
import re
import subprocess
import tempfile
import tty

import captures
import common


def on_terminal(*words, stdin=subprocess.DEVNULL, data=b"", both=False):
    """What is written to a terminal that is its standard error, or both; and its exit status."""
    ours, theirs = os.openpty()
    tty.setraw(theirs)
    with common.started(*words, stdin=stdin, stdout=theirs if both else subprocess.DEVNULL, stderr=theirs) as program:
        os.close(theirs)
        if stdin == subprocess.PIPE:
            program.stdin.write(data)
            program.stdin.close()
        shown = b""
        try:
            while piece := os.read(ours, 4096):
                shown += piece
        except OSError:  # a terminal that nobody has open any more gives EIO
            pass
        os.close(ours)
        return shown, program.wait()


def cases_in(work):
    small, long = os.path.join(work, "small"), os.path.join(work, "long")
    data = captures.SAMPLE * 2000
    length = b"%.1f" % (len(data) / 2**20)
    for name, content in ((small, captures.SAMPLE), (long, data)):
        with open(name, "wb") as file:
            file.write(content)
    known = re.compile(rb"(\r[\d.]+ MiB of %s MiB read, \d+%%\x1b\[K)+\r\x1b\[K" % re.escape(length))
    for words in (["list", long], ["json", long], ["epochs", long], ["find", long], ["find", long, "OBS"]):
        yield "%s of a long file without a terminal" % words[0], common.run(*words)[1:], (b"", 0)
        shown, status = on_terminal(*words)
        yield "%s of a long file on a terminal: %r" % (words[0], shown), (bool(known.fullmatch(shown)), status), (True, 0)
    with open(long, "rb") as file:
        shown, status = on_terminal("list", stdin=file)
        yield "a long file as standard input on a terminal: %r" % shown, (bool(known.fullmatch(shown)), status), (True, 0)
    yield "a small file on a terminal", on_terminal("list", small), (b"", 0)
    shown, status = on_terminal("list", long, both=True)
    lines, times = re.subn(rb"\r[^\r\n]*%\x1b\[K\r\x1b\[K", b"", shown)
    yield "lines and progress on one terminal", (lines, times > 0, status), (common.run("list", long)[0], True, 0)
    shown, status = on_terminal("epochs", stdin=subprocess.PIPE, data=data)
    unknown = re.fullmatch(rb"(\r[\d.]+ MiB read\x1b\[K)+\r\x1b\[K", shown)
    yield "a long pipe on a terminal: %r" % shown, (bool(unknown), status), (True, 0)


def cases():
    with tempfile.TemporaryDirectory() as work:
        yield from cases_in(work)
