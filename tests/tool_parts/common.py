"""What all parts need: the built tool, and how it is run."""
import os
import select
import shutil
import subprocess
import sys

ROOT = os.path.dirname(os.path.dirname(os.path.dirname(os.path.abspath(__file__))))
CRATE = os.path.join(ROOT, "link", "sbp")
BUILT = os.path.join(ROOT, "target", "sbp")
SBP = os.path.join(BUILT, "release", "sbp")
REWRITE = os.path.join(ROOT, "tests", "rewrite.c")
SBPLIST = [os.path.join(ROOT, "tools", "run"), "sbplist"]
sys.path[:0] = [os.path.join(ROOT, "twins", "python"), os.path.join(ROOT, "tests", "sample"), os.path.join(ROOT, "tests")]
import twins

SECONDS = 300
WAIT = 20
NOTHING = b"nothing came"


def cargo(*words, **how):
    return subprocess.run(["cargo", *words, "--offline", "--release", "--target-dir", BUILT], cwd=CRATE, **how)


def library():
    return os.path.join(os.environ.get("YAQTUMEER_LIB", os.path.join(ROOT, "target", "lib")), "libyaqtumeer.a")


def rewriter():
    """The program that writes frames again, built once."""
    program = os.path.join(BUILT, "rewrite")
    if not os.path.exists(program) or os.path.getmtime(program) < max(map(os.path.getmtime, (library(), REWRITE))):
        header = "-I" + os.path.join(ROOT, "link", "include")
        subprocess.run(["gcc", "-std=c99", "-Wall", "-Wextra", "-Werror", "-O2", header, "-o", program, REWRITE, library()], check=True)
    return program


def lacking(parts):
    """What is not there, or None once the tool is built."""
    for compiler in ("cargo", "gcc"):
        if shutil.which(compiler) is None:
            return compiler
    if not os.path.exists(library()):
        return "%s, which link/library makes" % library()
    if "list" in parts and not os.path.exists(os.path.join(ROOT, "target", "bin", "sbplist")):
        return "sbplist, which tools/prove sbplist builds"
    if {"list", "epochs", "find"} & set(parts) and not twins.cargo("build"):
        return "the Rust twin, which generates captures and did not build"
    return None if cargo("build", "--quiet").returncode == 0 else "the tool, which did not build"


def run(*words, data=b"", program=SBP):
    """What it prints, says and leaves as exit status."""
    done = subprocess.run([program, *words], input=data, stdout=subprocess.PIPE, stderr=subprocess.PIPE, timeout=SECONDS)
    return done.stdout, done.stderr, done.returncode


def started(*words, **ends):
    pipes = dict(stdin=subprocess.PIPE, stdout=subprocess.PIPE, stderr=subprocess.PIPE)
    return subprocess.Popen([SBP, *words], **{**pipes, **ends})


def line_of(program):
    """A line of what it prints, while more of its input may come."""
    return program.stdout.readline() if select.select([program.stdout], [], [], WAIT)[0] else NOTHING
