#!/usr/bin/env python3
"""Brings the repository's own definitions and lemmas to one spelling, after the kit's port.py.

usage: tools/respell.py    at the top of the checkout, once

Words are in snake case; types, records of statements and modules keep their capitals. A dash stays only behind a function of lists, as in
`length-little`; else it becomes an underscore. Names are those that .antt files of crates/ declare: they change in .antt
files, in the clauses and comments of .rt files, in the must-fail edits and in the pages (there only between backticks). Names that come from
Rust's own source, or that the check makes, stay. Where two names of one file would fall together, nothing is written and the names are printed.
"""

import glob
import os
import re
import sys

FUNCTIONS = set("length take drop get_or sets append map foldl flatten replicate reverse".split())
SAME = """
    allowed-rows asked-times before-short bytes-of came-to count-in decode-from decode-front each-packs epoch-line fed-in fed-into few-enough
    first-eight fits-row frame-line index-stored is-nan is-obs log-length new-seat no-entry obs-senders once-honest own-reports phase-of read-obs
    run-then step-at stored-from totals-line unless-short wide-body
"""
LEMMAS = {n: n.replace("-", "_") + "_lem" for n in SAME.split()}
# lemmas that have a function's name already, by the crates that know them
NAMESAKES = {
    "past_first": "examples",
    "left_open": "groups",
    "same_key": "packets runs groups demands",
    "past_all": "lent_index",
    "wide_row": "row_reader",
    "no_zero": "rows_back",
    "in_bytes": "indexed",
}
MADE = re.compile(r"(goal|tie|need)\.")
WORD = r"[^\s(){}\[\],;.:\"`|×≡→⊎]+"
DECLARED = re.compile(r"^\s*(?:(?:abbrev|unfoldable|pub|opaque)\s+)*(" + WORD + r")(?:\s+(" + WORD + r"(?:\s+" + WORD + r")*))?\s*:\s+(.*)$")


def snake(word):
    if word[:1].isupper() or not re.search(r"[a-z0-9][A-Z]", word):
        return word
    return re.sub(r"(?<=[a-z0-9])([A-Z])", lambda m: "_" + m.group(1).lower(), word)


def read(path):
    with open(path, encoding="utf-8") as f:
        return f.read()


def declared(paths):
    """The names that the files declare, but for goals, which the check names."""
    names = set()
    for p in paths:
        for line in read(p).split("\n"):
            if line.lstrip().startswith("--"):
                continue
            m = DECLARED.match(line)
            if not m:
                continue
            if MADE.match(m.group(3)):
                continue
            names.add(m.group(1))
            for more in (m.group(2) or "").split():
                names.add(more)
    return names


def new_name(name):
    parts = [snake(p) for p in name.split("-")]
    joint = "-" if parts[0] in FUNCTIONS and parts[-1] != "spec" or parts[0][:1].isupper() else "_"
    return parts[0] + joint + "_".join(parts[1:]) if parts[1:] else parts[0]


def respell(text, table, everywhere, at_call=False):
    """The text with each name of the table turned: as a whole word, and in prose only between backticks unless it is camel case."""

    def turned(code):
        def one(m):
            w = m.group(0)
            if w in LEMMAS and at_call and code[m.start() - 1 : m.start()] == ".":
                return w  # a step of the function, and not the lemma
            return table.get(w, w)

        return re.sub(WORD, one, code)

    def prose(line):
        line = re.sub(r"`[^`]*`", lambda m: turned(m.group(0)), line)
        return re.sub(r"\b[a-z]+[a-z0-9]*[A-Z]\w*\b", lambda m: table.get(m.group(0), m.group(0)), line)

    out = []
    for line in text.split("\n"):
        cut = re.search(r"(^|\s)(--|//)\s", line)
        if everywhere == "page":
            out.append(re.sub(r"`[^`]*`", lambda m: turned(m.group(0)), line) if "`" in line else line)
        elif cut and everywhere == "code":
            at = cut.start(2)
            out.append(turned(line[:at]) + prose(line[at:]))
        else:
            out.append(turned(line))
    return "\n".join(out)


def main():
    antt = sorted(glob.glob("crates/*/specs/**/*.antt", recursive=True) + glob.glob("crates/*/proofs/**/*.antt", recursive=True))
    rust = sorted(glob.glob("crates/*/src/**/*.rt", recursive=True))
    edits = sorted(glob.glob("crates/*/must-fail/*.edit") + glob.glob("tests/must-fail/*.edit"))
    pages = sorted(glob.glob("docs/*.md") + ["README.md"])
    names = declared(antt)
    for p in antt:  # camel-case names that are bound and not declared: arguments, lets
        for w in re.findall(WORD, "\n".join(l for l in read(p).split("\n") if not l.lstrip().startswith("--"))):
            if re.fullmatch(r"[a-z][a-z0-9]*([A-Z][a-z0-9]*)+('|₀|₁)*", w):
                names.add(w)
    words = {snake(n) for n in names}
    table = {n: new_name(n) for n in names if not n[:1].isupper()}
    table = {a: b for a, b in table.items() if a != b}
    for p in edits:  # names that port.py has turned already stand in the edits as they were
        for w in re.findall(r"\b[a-z]+[a-z0-9]*[A-Z]\w*\b", read(p)):
            if snake(w) in words and w not in table:
                table[w] = snake(w)
    table |= LEMMAS  # a lemma of its function's name
    table["indexIn"] = "index_from_bytes"  # `index_in` is the call
    bad = 0
    for p in antt + rust:
        text = read(p)
        if p.endswith(".antt"):
            for name, crates in NAMESAKES.items():
                if p.split("/")[1] in crates.split():
                    text = re.sub(r"(?<![\w.'-])" + name + r"(?![\w.'-])", name + "_lem", text)
        words = set(re.findall(r"(?<![\w.])" + WORD + r"(?!\.)", re.sub(r"(--|//)\s.*", "", text)))
        met = {}
        for w in words:
            met.setdefault(table.get(w, w), []).append(w)
        for new, old in met.items():
            if len(old) > 1:
                print(f"{p}: {' and '.join(sorted(old))} would be one name, {new}")
                bad += 1
    if bad and "--even-so" not in sys.argv:
        return 1
    for p in antt + rust + edits + pages:
        text = read(p)
        if p.endswith(".antt"):
            crate = p.split("/")[1]
            for name, crates in NAMESAKES.items():
                if crate in crates.split():
                    text = re.sub(r"(?<![\w.'-])" + name + r"(?![\w.'-])", name + "_lem", text)
        kind = "page" if p.endswith(".md") else "edit" if p.endswith(".edit") else "code"
        out = respell(text, table, kind, p.endswith("/Proof.antt"))
        if out != text:
            with open(p, "w", encoding="utf-8") as f:
                f.write(out)
    for a in sorted(table):
        print(f"{a} {table[a]}")
    return 0


if __name__ == "__main__":
    raise SystemExit(main())
