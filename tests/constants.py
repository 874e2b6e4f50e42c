#!/usr/bin/env python3
"""Holds the CRC to no table. Request P8 leaves it 16 entries in its sources, and the bootloader 96 bytes of constants; it takes none. It looks twice.

At the sources of crc and of the crates that it rests on: no array has more than 16 entries, those of arrays in it each by itself, be it a type, a
list, a repetition or a text. Comments and what is there for the proof are left out; a length that is not told is refused.
At the library that C links: sbp_crc and sbp_frame_crc, with all that they call, refer to no byte outside the code, each and both at once. So a
table that a source hides, in a match or by names for its parts, is seen here. And no function of the library has a table that the compiler made.
A reference counts as the whole piece that it points into: a symbol's bytes, an entry or a text of a merged section, data among instructions, a
section in which nothing has a name. It is refused where that cannot be told, and so is a call of what the library does not have. What stands in
an instruction is code. The kit's clang makes a table of 256 entries, .L.crctable, of a loop that takes a CRC bit by bit: no source shows that.

Both looks are first tried on texts and functions of the test's own. The last line is 'N passed, M failed'; what fails prints a line 'differs: ..'.
usage: constants.py [LIBRARY] (after link/library; LIBRARY may be an object file; CC stands for another compiler than gcc)
"""
import glob
import os
import re
import shutil
import struct
import subprocess
import sys
import tempfile
from typing import NamedTuple

ROOT = os.path.dirname(os.path.dirname(os.path.abspath(__file__)))
LIBRARY = os.path.join(ROOT, "target", "lib", "libyaqtumeer.a")
CRATE = "crc"
FUNCTIONS = "sbp_crc", "sbp_frame_crc"
ENTRIES = 16
BYTES = 0
MADE = "crctable"
CC = os.environ.get("CC", "gcc").split()


class Unclear(Exception):
    """What a look cannot tell."""


# ---- the sources

COMMENT_OR_TEXT = re.compile(r'//[^\n]*|/\*.*?\*/|b?"((?:\\.|[^"\\])*)"|\'(?:\\[^\n]+?|[^\'\\])\'', re.S)
ESCAPE = re.compile(r"\\(?:x\w\w|\n\s*|.)", re.S)
GHOST_USE = re.compile(r"\bghost\s+use\b[^;]*;")
CLAUSE = re.compile(r"\b(?:requires|ensures|ghost)\b[^{};]*(?=\{)")
CONSTANT = re.compile(r"\bconst\s+(\w+)\s*:[^=;]*=([^;]*);")
NUMBER = re.compile(r"(0x[\da-f_]+|0b[01_]+|0o[0-7_]+|\d[\d_]*)(?:[ui](?:8|16|32|64|size))?", re.I)
BRACKETS = {"(": ")", "[": "]", "{": "}"}


def past(text, at):
    """The index past the bracket that closes the one at `at`."""
    waiting = []
    for i in range(at, len(text)):
        if text[i] in BRACKETS:
            waiting.append(BRACKETS[text[i]])
        elif waiting and text[i] == waiting[-1]:
            waiting.pop()
            if not waiting:
                return i + 1
    raise Unclear("where a bracket is closed: %s" % text[at:at + 40])


def parts(text, mark):
    """Text between marks that stand in no bracket."""
    found, began, at = [], 0, 0
    while at < len(text):
        if text[at] == mark:
            found.append(text[began:at])
            began = at + 1
        at = past(text, at) if text[at] in BRACKETS else at + 1
    return found + [text[began:]]


def blank(text):
    """Lines stay where they are."""
    return "\n" * text.count("\n")


def as_list(found):
    """A comment goes, a letter becomes a number, and a text the list of its bytes, so that they count as entries."""
    if found[1] is None:
        return blank(found[0]) if found[0].startswith("/") else "0"
    length = len(ESCAPE.sub(lambda escape: escape[0][1].strip(), found[1]).encode())
    return "[%s]" % ("0," * length) + blank(found[0])


def code(text):
    """A file's text without comments and without what is there for the proof."""
    text = GHOST_USE.sub(lambda use: blank(use[0]), COMMENT_OR_TEXT.sub(as_list, text))
    at = 0
    while clause := CLAUSE.search(text, at):
        end, at = past(text, clause.end()), clause.start()
        text = text[:at] + blank(text[at:end]) + text[end:]
    return text


def number(text, constants):
    """What a length comes to: a number, or a constant that has one value in all that is looked at."""
    text = text.strip()
    if literal := NUMBER.fullmatch(text):
        digits = literal[1].replace("_", "")
        return int(digits, 0 if digits[1:2].isalpha() else 10)
    values = constants.get(text.split("::")[-1].strip(), set())
    if len(values) != 1:
        raise Unclear(text)
    return number(*values, {name: value for name, value in constants.items() if value is not values})


def entries(text, constants):
    """How many entries an array has, a type or a value, those of arrays in it each by itself; 1 for all that is none."""
    text = text.strip().lstrip("&")
    if not text.startswith("[") or past(text, 0) < len(text):
        return 1
    of, *length = parts(text[1:-1], ";")
    if length:
        return entries(of, constants) * number(length[0], constants)
    return sum(entries(entry, constants) for entry in parts(of, ",") if entry.strip())


def too_long(text, constants):
    """The arrays of a file's code that have too many entries, or an unknown number of them: the line, and what is wrong."""
    at = text.find("[")
    while at >= 0:
        end = past(text, at)
        try:
            many = entries(text[at:end], constants)
            why = None if many <= ENTRIES else "an array of %d entries" % many
        except Unclear as unclear:
            why = "an array whose length is not told: %s" % unclear
        if why:
            yield text.count("\n", 0, at) + 1, why
        at = text.find("[", end if why else at + 1)


def constants_of(texts):
    known = {}
    for text in texts:
        for name, value in CONSTANT.findall(text):
            known.setdefault(name, set()).add(value.strip())
    return known


def read(path):
    with open(path, encoding="utf-8") as file:
        return file.read()


def rests_on():
    """Where each library of the kit and each crate is, and what it rests on, by what the first was built over and by crates.txt."""
    kit = os.path.dirname(os.path.dirname(os.path.realpath(shutil.which("rt") or "")))
    known = {}
    for path in glob.glob(os.path.join(kit, "rlibs", "*.rlib", "format")):
        name = os.path.basename(os.path.dirname(path)).removesuffix(".rlib")
        known[name] = os.path.join(kit, "rattle", name), re.findall(r"^dep (\w+)$", read(path), re.M)
    for line in read(os.path.join(ROOT, "crates.txt")).splitlines():
        if named := re.match(r"(\w+)(?: +staticlib)?:(.*)", line):
            known[named[1]] = os.path.join(ROOT, "crates", named[1]), named[2].split()
    return known


def sources(crate):
    """The code of a crate and of all that it rests on, by file."""
    known, found, waiting = rests_on(), {}, [crate]
    for name in waiting:
        folder, below = known.get(name, ("", []))
        files = {path: code(read(path)) for path in sorted(glob.glob(os.path.join(folder, "src", "**", "*.rt"), recursive=True))}
        if not folder or not files:
            raise Unclear("where the sources of %s are" % name)
        found.update(files)
        # no list names std: it is there for who names it
        below = below + ["std"] * any(re.search(r"\bstd\s*::", text) for text in files.values())
        waiting += [name for name in below if name not in waiting]
    return found


def looked_at_sources():
    """A case for each file."""
    files = sources(CRATE)
    known = constants_of(files.values())
    for path, text in files.items():
        shown = path.removeprefix(ROOT + os.sep)
        yield ["%s:%d: %s" % (shown, line, why) for line, why in too_long(text, known)]


# ---- object files

X86, ARM = 62, 183
UNDEFINED, RESERVED = 0, 0xFF00
EXECUTED, MERGED, TEXTS = 4, 0x10, 0x20
SYMBOLS, RELOCATIONS, NO_ADDENDS = 2, 4, 9
OBJECT, FUNCTION, THREAD = 1, 2, 6
# relocations by machine: PC32, PLT32 and GOTPCREL.. of x86-64, which count from where they stand, and a processor from the instruction's end
NEXT = {X86: {2, 4, 9, 41, 42}, ARM: set()}
# and those that say where they lead: 64, 32, 32S; ABS64, MOVW.., ADR.. and LDST.. of aarch64, its jumps and what is by way of its GOT
THERE = {X86: {1, 10, 11}, ARM: {257, *range(263, 270), *range(273, 281), *range(282, 287), 299, 311, 312, 313}}
# of x86-64, by objdump's text: an instruction, where it leads in its section, and what one looks like that goes on there
LISTED = re.compile(r"^\s*([0-9a-f]+):\s+(\S.*)$", re.M)
TARGET = re.compile(r"(?:^|\s)([0-9a-f]+) <")
JUMP = re.compile(r"(?:^|\s)(?:call|j[a-z]+|loop|xbegin)\w*\s")
# of aarch64, by the instruction's bits: the mask and value that tell it, and where it has a distance in words; and adr, which has one in bytes
DISTANCES = (
    (0x7C000000, 0x14000000, 0, 26),  # b, bl
    (0xFF000000, 0x54000000, 5, 19),  # b.eq and the like
    (0x7E000000, 0x34000000, 5, 19),  # cbz, cbnz
    (0x7E000000, 0x36000000, 5, 14),  # tbz, tbnz
    (0x3B000000, 0x18000000, 5, 19))  # ldr from a pool
ADR = 0x9F000000, 0x10000000
# what a compiler takes to be there in every program, one without a C library too
GIVEN = "memcpy", "memmove", "memset", "memcmp"


class Section(NamedTuple):
    name: str
    kind: int
    flags: int
    at: int
    size: int
    link: int
    info: int
    entry: int


class Symbol(NamedTuple):
    name: str
    kind: int
    local: bool
    section: int
    value: int
    size: int


class Relocation(NamedTuple):
    at: int
    kind: int
    symbol: Symbol
    addend: int


class Place(NamedTuple):
    """Bytes of a section that are one function or one piece of constants."""
    object: "Object"
    section: int
    start: int
    end: int
    executed: bool
    name: str


def text_at(data, at):
    return data[at:data.index(b"\0", at)].decode(errors="replace")


def distances(word):
    """How far from itself an instruction of aarch64 leads, if it does."""
    for mask, value, low, bits in DISTANCES:
        if word & mask == value:
            yield signed(word >> low, bits) * 4
    if word & ADR[0] == ADR[1]:
        yield signed(word >> 5, 19) * 4 + (word >> 29 & 3)


def signed(number, bits):
    """The lowest bits as a number that may be negative."""
    number %= 1 << bits
    return number - (1 << bits) if number >> (bits - 1) else number


class Object:
    """An object file, and which functions and pieces it has."""

    def __init__(self, data, path):
        head = struct.unpack_from("<16sHHIQQQIHHHHHH", data.ljust(64))
        self.data, self.path, self.machine = data, path, head[2]
        if head[0][:6] != b"\x7fELF\x02\x01" or self.machine not in NEXT:
            raise Unclear("what a file has that is no object file of x86-64 or aarch64")
        rows = [struct.unpack_from("<IIQQQQIIQQ", data, head[6] + i * head[11]) for i in range(head[12])]
        names = rows[head[13]][4]
        self.sections = [Section(text_at(data, names + row[0]), row[1], row[2], row[4], row[5], row[6], row[7], row[9]) for row in rows]
        self.symbols = [symbol for section in self.sections if section.kind == SYMBOLS for symbol in self.symbols_of(section)]
        self.relocations = {section.info: self.relocations_of(section) for section in self.sections if section.kind == RELOCATIONS}
        if any(section.kind == NO_ADDENDS for section in self.sections):
            raise Unclear("where relocations without addends lead")

    def rows(self, section, form):
        return struct.iter_unpack(form, self.data[section.at:section.at + section.size])

    def symbols_of(self, section):
        names = self.sections[section.link].at
        for name, info, _, at, value, size in self.rows(section, "<IBBHQQ"):
            yield Symbol(text_at(self.data, names + name), info & 15, info >> 4 == 0, at, value, size)

    def relocations_of(self, section):
        return [Relocation(at, info & 0xFFFFFFFF, self.symbols[info >> 32], addend) for at, info, addend in self.rows(section, "<QQq")]

    def instructions(self, place):
        """A function's: where each begins and ends, whether it goes on where it leads, and where in its section it leads, or None."""
        return self.listed(place) if self.machine == X86 else self.decoded(place)

    def listed(self, place):
        if sum(section.name == self.sections[place.section].name for section in self.sections) > 1:
            raise Unclear("which of several sections %s is meant" % self.sections[place.section].name)
        command = ["objdump", "-d", "-z", "--no-show-raw-insn", "-j", self.sections[place.section].name,
                   "--start-address=%#x" % place.start, "--stop-address=%#x" % place.end, self.path]
        lines = LISTED.findall(subprocess.run(command, stdout=subprocess.PIPE, check=True).stdout.decode(errors="replace"))
        begins = [int(at, 16) for at, _ in lines]
        if begins[:1] != [place.start]:
            raise Unclear("what instructions %s has" % place.name)
        for start, end, (_, text) in zip(begins, begins[1:] + [place.end], lines):
            target = TARGET.search(text)
            yield start, end, bool(JUMP.search(text)), int(target[1], 16) if target else None

    def decoded(self, place):
        among = [range(piece.start, piece.end) for piece in self.data_among(place.section)]
        for at in range(place.start, place.end, 4):
            word, = struct.unpack_from("<I", self.data, self.sections[place.section].at + at)
            if not any(at in data for data in among):
                yield at, at + 4, True, next((at + distance for distance in distances(word)), None)

    def data_among(self, section):
        """Where an executed section has data: aarch64 marks it by symbols $d, and what comes after by $x."""
        marks = sorted((symbol.value, symbol.name[:2]) for symbol in self.symbols if symbol.section == section and symbol.name[:2] in ("$d", "$x"))
        ends = [at for at, _ in marks[1:]] + [self.sections[section].size]
        for (at, mark), end in zip(marks, ends):
            if mark == "$d" and at < end:
                yield self.piece(section, at, end)

    def piece(self, section, start, end, name=None):
        return Place(self, section, start, end, False, name or self.sections[section].name)

    def named(self, symbol):
        """A symbol's bytes."""
        # of pieces in one section LLVM makes tables of distances, which need no relocation
        if symbol.name.startswith("reltable."):
            raise Unclear("where %s leads" % symbol.name)
        return self.piece(symbol.section, symbol.value, symbol.value + symbol.size, symbol.name)

    def merged(self, section, at):
        """The text or the entry that is there in a merged section, or None. Equal entries are one, as a linker makes them."""
        part = self.sections[section]
        body, zero = self.data[part.at:part.at + part.size], bytes(part.entry)
        rows = [body[i:i + part.entry] for i in range(0, part.size, part.entry)]
        row = at // part.entry
        if not 0 <= row < len(rows):
            return None
        if not part.flags & TEXTS:
            first = rows.index(rows[row])
            return self.piece(section, first * part.entry, (first + 1) * part.entry)
        before = [i for i in range(row) if rows[i] == zero]
        return self.piece(section, (before[-1] + 1 if before else 0) * part.entry, (rows.index(zero, row) + 1) * part.entry)

    def covering(self, section, at, *kinds):
        """The largest symbol whose bytes are there, or None."""
        there = [symbol for symbol in self.symbols if symbol.section == section and symbol.kind in kinds and 0 <= at - symbol.value < symbol.size]
        return max(there, key=lambda symbol: symbol.size, default=None)

    def place(self, section, at, jump):
        """The function or the piece that is there; jump: what leads there goes on there."""
        part = self.sections[section]
        if part.flags & EXECUTED:
            for piece in self.data_among(section):
                if piece.start <= at < piece.end:
                    return piece
            function = self.covering(section, at, FUNCTION)
            if function and (jump or at == function.value):
                return Place(self, section, function.value, function.value + function.size, True, function.name)
        elif part.flags & MERGED and (piece := self.merged(section, at)):
            return piece
        elif not any(symbol.section == section and symbol.size for symbol in self.symbols):
            return self.piece(section, 0, part.size)
        if symbol := self.covering(section, at, OBJECT, THREAD):
            return self.named(symbol)
        raise Unclear("what stands at %s+%#x, and where it ends" % (part.name, at))


def members(data):
    """The object files of a library, or the one that this is."""
    if not data.startswith(b"!<arch>\n"):
        yield data
        return
    at = 8
    while at < len(data):
        name, size = data[at:at + 16].strip(), int(data[at + 48:at + 58])
        # the index, and the list of long names
        if name not in (b"/", b"//", b"/SYM64/"):
            yield data[at + 60:at + 60 + size]
        at += 60 + size + size % 2


class Library:
    """Object files, and where a function of theirs leads."""

    def __init__(self, path, folder):
        self.objects = []
        if not os.path.exists(path):
            raise Unclear("what %s has: it is not there" % path)
        with open(path, "rb") as file:
            for data in members(file.read()):
                with tempfile.NamedTemporaryFile(dir=folder, delete=False) as member:
                    member.write(data)
                self.objects.append(Object(data, member.name))
        self.named = {symbol.name: (object, symbol) for object in self.objects for symbol in object.symbols
                      if not symbol.local and symbol.section != UNDEFINED}

    def reached(self, name):
        """The functions that a function leads to, itself among them, and the pieces of constants."""
        if name not in self.named:
            raise Unclear("what %s is: it is not there" % name)
        object, symbol = self.named[name]
        reached, waiting = set(), [object.place(symbol.section, symbol.value, True)]
        while waiting:
            place = waiting.pop()
            if place not in reached:
                reached.add(place)
                waiting += self.executed(place) if place.executed else self.held(place)
        return reached

    def executed(self, place):
        """Where a function's instructions lead, by relocation or within their section; and data that stands among them."""
        object = place.object
        yield from (piece for piece in object.data_among(place.section) if piece.start < place.end and place.start < piece.end)
        relocations = object.relocations.get(place.section, [])
        for start, end, jump, target in object.instructions(place):
            by = [relocation for relocation in relocations if start <= relocation.at < end]
            for relocation in by:
                distance = end - relocation.at if relocation.kind in NEXT[object.machine] else 0
                yield from self.led(object, relocation, distance, NEXT[object.machine] | THERE[object.machine], jump)
            if not by and target is not None:
                yield object.place(place.section, target, jump)

    def held(self, place):
        """Where a piece of constants leads: to what it has the addresses of."""
        for relocation in place.object.relocations.get(place.section, []):
            if place.start <= relocation.at < place.end:
                yield from self.led(place.object, relocation, 0, THERE[place.object.machine], False)

    def led(self, object, relocation, distance, kinds, jump):
        """Where a relocation leads."""
        symbol = relocation.symbol
        if relocation.kind not in kinds:
            raise Unclear("where relocation %d to %s leads" % (relocation.kind, symbol.name))
        if symbol.section == UNDEFINED:
            if symbol.name in GIVEN:
                return
            if symbol.name not in self.named:
                raise Unclear("what %s has, which is not there" % symbol.name)
            object, symbol = self.named[symbol.name]
        if symbol.section >= RESERVED:
            raise Unclear("where %s is" % symbol.name)
        if symbol.kind in (OBJECT, THREAD) and symbol.size:
            yield object.named(symbol)
        else:
            at = 0 if symbol.kind == FUNCTION else relocation.addend + distance
            yield object.place(symbol.section, symbol.value + at, jump)


def constants_in(reached):
    """How many bytes the pieces take together; they may overlap."""
    total, ends = 0, {}
    for piece in sorted((place for place in reached if not place.executed), key=lambda place: place.start):
        begins = max(piece.start, ends.get(piece[:2], 0))
        total += max(piece.end - begins, 0)
        ends[piece[:2]] = max(piece.end, begins)
    return total


def looked_at_library(path, folder):
    """A case for each function, and one for both at once."""
    library = Library(path, folder)
    reached = [(name, library.reached(name)) for name in FUNCTIONS]
    for name, places in reached + [("both", set().union(*(places for _, places in reached)))]:
        many, where = constants_in(places), sorted({place.name for place in places if not place.executed})
        print("%s: %d bytes of constants%s, by %s" % (
            name, many, " in " + ", ".join(where) if where else "", ", ".join(sorted(place.name for place in places if place.executed))))
        yield ["%s: %d bytes of constants, and %d may be" % (name, many, BYTES)] if many > BYTES else []
    made = sorted({section.name for object in library.objects for section in object.sections if MADE in section.name})
    yield ["tables that the compiler made: %s" % ", ".join(made)] if made else []


# ---- both looks, tried

FINE = (
    "const A: [u16; 16] = [0; 16];", "const A: [u16; 0x1_0usize] = [1, 2, 3, 4, 5, 6, 7, 8, 9, 10, 11, 12, 13, 14, 15, 16,];",
    "const N: usize = 16; type A = [u8; N];", "fn f(s: &[u8; 4]) -> u8 { s[3] } // [u16; 256]", "type A = [[u8; 4]; 4];",
    "fn f(s: &[u16]) { g(&s[1..256], b'[', b'\\x00', b\"sixteen bytes..\\n\") }",
    "ghost use a.{_[_;_]}; fn f() -> u8 ensures { λ r. { [u16; 256] } } { 0 }")
REFUSED = (
    "const A: [u16; 17] = [0; 3];", "static A: &[u16] = &[1, 2, 3, 4, 5, 6, 7, 8, 9, 10, // and\n 11, 12, 13, 14, 15, 16, f(1, 2)];",
    "fn f(s: &[u8\n; /* 1 */ 0x11u8]) {}", "const M: usize = 17; const N: usize = M; fn f() { g([0; crate::N]); }",
    "fn f() { let a = [0; N]; }", "const N: usize = N; type A = [u8; N];", "const N: usize = 8 + 9; type A = [u8; N];",
    "type A = [[u8; 4]; 5];", "type A = [[u8; 2]; g(3)];", "fn f() { g(b\"seventeen bytes\\x00\\n\"); }",
    "fn f() { g([b\"12345678\", b\"12345678\", b\"9\"]); }", "fn f() { g([%s]); }" % ("b'[', " * 17),
    "fn f() ensures { λ r. r } { let a = [[1, 2, 3, 4, 5, 6], [1, 2, 3, 4, 5, 6], [1, 2, 3, 4, 5, 6]]; }")
# by function: how many bytes of constants it leads to, or None where that cannot be told
COUNTED = {"none": 0, "nibbles": 32, "whole": 512, "called": 512, "pointed": 560, "vector": 16, "vectors": 32, "message": 9, "messages": 14,
           "alone": 98, "unnamed": None, "outside": None}
# and of what aarch64 alone has
AMONG = {"among": 16}
TRIED = r"""
typedef unsigned short u16;
typedef unsigned char v16 __attribute__((vector_size(16)));
/* in sections of their own: gcc for aarch64 reaches all of a section by one address */
static const u16 sixteen[16] __attribute__((section(".rodata.sixteen"))) = {1, 2};
static const u16 table[256] __attribute__((section(".rodata.table"))) = {3, 4};
const u16 *tables[2] = {table, sixteen};
extern const u16 bare[], apart[];
extern u16 other(u16);
__asm__(".pushsection .rodata.table,\"a\"\nbare: .zero 512\n.section .rodata.apart,\"a\"\n.zero 2\napart: .zero 96\n.popsection");
u16 none(u16 r) { r ^= r >> 4; return r ^ r << 5 ^ r << 12; }
u16 nibbles(u16 r) { return sixteen[r >> 12]; }
u16 whole(u16 r) { return table[r >> 8]; }
static __attribute__((noinline)) u16 inner(u16 r) { return table[r >> 8] * r; }
u16 called(u16 r) { return inner(r) + inner(r + 1); }
u16 pointed(u16 r) { return tables[r & 1][r >> 12]; }
void vector(v16 *x) { *x ^= (v16){1, 2, 3, 4, 5, 6, 7, 8, 9, 10, 11, 12, 13, 14, 15, 1}; }
void vectors(v16 *x) { vector(x); *x += (v16){1, 2, 3, 4, 5, 6, 7, 8, 9, 10, 11, 12, 13, 14, 15, 2}; }
const char *message(void) { return "no table"; }
const char *messages(u16 r) { return r ? message() : "none"; }
u16 alone(u16 r) { return apart[r >> 12]; }
u16 unnamed(u16 r) { return bare[r >> 8]; }
u16 outside(u16 r) { return other(r) + 1; }
#ifdef __aarch64__
__asm__(".text\n.balign 8\nnear: .quad 1\n.globl among\n.type among, %function\n"
        "among: ldr x0, =0x123456789abcdef0\nadr x1, near\nret\n.balign 8\n.ltorg\n.size among, .-among");
#endif
"""


def tried_texts():
    for text in FINE + REFUSED:
        alone = code(text)
        found = list(too_long(alone, constants_of([alone])))
        yield [] if bool(found) == (text in REFUSED) else ["in the text %r is found: %r" % (text, found)]


def tried_functions(folder):
    """The functions compiled in two ways, that address constants differently."""
    for way in "-fPIC", "-fno-pic":
        path = os.path.join(folder, "tried" + way)
        subprocess.run([*CC, "-O2", way, "-c", "-x", "c", "-", "-o", path], input=TRIED.encode(), check=True)
        library = Library(path, folder)
        for name, many in {**COUNTED, **(AMONG if library.objects[0].machine == ARM else {})}.items():
            try:
                found = constants_in(library.reached(name))
            except Unclear:
                found = None
            yield [] if found == many else ["%s, compiled %s: %s bytes of constants, and %s are found" % (name, way, many, found)]


def main():
    passed = failed = 0
    with tempfile.TemporaryDirectory() as folder:
        for looked in (tried_texts(), tried_functions(folder), looked_at_sources(), looked_at_library((sys.argv[1:] or [LIBRARY])[0], folder)):
            try:
                for wrong in looked:
                    passed += not wrong
                    failed += bool(wrong)
                    for line in wrong:
                        print("differs: %s" % line)
            except Unclear as unclear:
                failed += 1
                print("differs: it cannot be told %s" % unclear)
    print("%d passed, %d failed" % (passed, failed))
    return 1 if failed or not passed else 0


if __name__ == "__main__":
    sys.exit(main())
