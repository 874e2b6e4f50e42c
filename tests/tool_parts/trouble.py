"""Files, reads that fail, closed pipes, wrong use, help and versions."""
import os
import re
import select
import socket
import subprocess
import tempfile
import time

import captures
import common
import twin

LISTED = twin.lines(captures.SAMPLE).encode()


def read_error(*words, data):
    """What it prints, says and leaves where its connection is reset after it has told of all of this: the other end closes with bytes unread."""
    ours, theirs = socket.socketpair()
    with theirs, common.started(*words, stdin=theirs) as program:
        ours.sendall(data)
        told = common.line_of(program) if words[0] in ("list", "json") else emptied(program, theirs)
        theirs.sendall(b"\0")
        ours.close()
        return told + program.stdout.read(), program.stderr.read(), program.wait()


def emptied(program, end):
    """Nothing, once it has read all that was sent to that end."""
    while program.poll() is None and select.select([end], [], [], 0)[0]:
        time.sleep(0.01)
    return b""


def first_line(*words):
    """The first line, after which its reader closes the pipe; what it says, and its exit status."""
    with common.started(*words, stdin=subprocess.DEVNULL) as program:
        line = program.stdout.readline()
        program.stdout.close()
        return line, program.stderr.read(), program.wait()


def files(work):
    sample, other, absent = (os.path.join(work, name) for name in ("sample", "-other", "absent"))
    for name, data in ((sample, captures.SAMPLE), (other, twin.frame(0, 5, b"")[:-1])):
        with open(name, "wb") as file:
            file.write(data)
    short = twin.lines(twin.frame(0, 5, b"")[:-1]).encode()
    missing, folder = b"sbp: %s: No such file or directory\n" % absent.encode(), b"sbp: %s: Is a directory\n" % work.encode()
    yield "a file by name", common.run("list", sample), (LISTED, b"", 0)
    yield "standard input by its dash", common.run("list", "-", data=captures.SAMPLE), (LISTED, b"", 0)
    yield "several files", common.run("list", sample, "-", other, data=b"\x55"), (LISTED + twin.lines(b"\x55").encode() + short, b"", 0)
    yield "a missing file", common.run("list", absent), (b"", missing, 1)
    yield "a missing file among others", common.run("list", sample, absent, other), (LISTED + short, missing, 1)
    for command in ("list", "json", "epochs"):
        yield "%s of a folder" % command, common.run(command, work), (b"", folder, 1)
    with open(os.path.join(work, "sample"), "rb") as file:
        done = subprocess.run([common.SBP, "list"], stdin=file, stdout=subprocess.PIPE)
        yield "a file as standard input", (done.stdout, done.returncode), (LISTED, 0)
    done = subprocess.run([common.SBP, "list", "--", "-other"], cwd=work, stdout=subprocess.PIPE)
    yield "a name that looks like an option", (done.stdout, done.returncode), (short, 0)
    with open("/dev/full", "wb") as full:
        done = subprocess.run([common.SBP, "json", sample], stdout=full, stderr=subprocess.PIPE)
        yield "a full disk", (done.stderr, done.returncode), (b"sbp: standard output: No space left on device\n", 1)


def read_errors():
    frame = twin.frame(twin.OBS, 4, twin.obs(1, 2, 0x10, 0))
    said = b"sbp: standard input: Connection reset by peer\n"
    for command in ("list", "json", "epochs"):
        whole = common.run(command, data=frame)[0]
        before = b"".join(line for line in whole.splitlines(True) if not line.startswith(b"T "))
        yield "%s where a read fails in the middle" % command, read_error(command, data=frame + b"\x55\x49"), (before, said, 1)
    yield "find where a read fails in the middle", read_error("find", "-", "OBS", data=frame), (b"", said, 2)


def wrong_use():
    for words in ([], ["lists"], ["list", "--all"], ["json", "-x", "file"], ["--list"], [""], ["--version", "more"], ["--help", "more"],
                  ["find"], ["find", "-"], ["find", "file", "OB"], ["find", "file", "OBS", "-1"], ["find", "file", "OBS", "1", "2", "3"],
                  ["find", "file", "65536"], ["find", "--all", "file"]):
        out, said, status = common.run(*words)
        yield "wrong use: %s" % words, (out, said.startswith(b"sbp: ") and said.endswith(b"; see sbp --help\n"), status), (b"", True, 2)


def told():
    """Help names all commands, keys and columns; both versions are the crate's."""
    with open(os.path.join(common.CRATE, "Cargo.toml")) as about:
        version = re.search('^version = "(.*)"', about.read(), re.M).group(1)
    yield "versions", common.run("--version"), (b"sbp %s (library %s)\n" % (version.encode(), version.encode()), b"", 0)
    asked = {(): "list json epochs find", ("list",): "F E T", ("find",): "F N C R TYPE SENDER OFFSET 21 52",
             ("json",): "offset answer preamble msg_type msg_name sender length payload crc padding common pos vel acc UNKNOWN",
             ("epochs",): "sender epochs first_wn first_tow last_wn last_tow observations no_epoch copies"}
    for command, words in asked.items():
        out, said, status = common.run(*command, "--help")
        lacking = [word for word in words.split() + ["Exit"] if word not in re.findall(r"\w+", out.decode())]
        yield "help %s" % " ".join(command), (out.startswith(b"usage: sbp"), lacking, said, status), (True, [], b"", 0)


def closed_pipes(work):
    long = os.path.join(work, "long")
    with open(long, "wb") as file:
        file.write(captures.SAMPLE * 2000)
    for command in ("list", "json"):
        line = common.run(command, data=captures.SAMPLE)[0].splitlines(True)[0]
        yield "%s into a pipe that is closed" % command, first_line(command, long), (line, b"", 0)
    with subprocess.Popen([common.SBP, "--help"], stdout=subprocess.PIPE, stderr=subprocess.PIPE) as program:
        program.stdout.close()
        yield "help into a pipe that is closed", (program.stderr.read(), program.wait()), (b"", 0)


def cases():
    with tempfile.TemporaryDirectory() as work:
        yield from files(work)
        yield from closed_pipes(work)
    yield from read_errors()
    yield from wrong_use()
    yield from told()
