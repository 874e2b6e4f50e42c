"""Edits to be tried: lines 'file: PATH', 'old: TEXT', which is there once, and 'new: TEXT', as in crates/*/must-fail, and lines 'WORD: TEXT' of the
test's own."""
import os


class Wrong(Exception):
    """An edit that cannot be tried, or that is not refused."""


def read(path, *words):
    """The texts of the words, each there once, and the edit's steps: (path, old, new)."""
    file, old, texts, steps = None, None, {}, []
    with open(path, encoding="utf-8") as lines:
        for line in lines.read().splitlines():
            word, _, text = line.partition(":")
            text = text.removeprefix(" ")
            if word == "file":
                file = text
            elif word == "old":
                old = text
            elif word == "new" and file and old:
                steps.append((file, old, text))
            elif word in words and word not in texts:
                texts[word] = text
            else:
                raise Wrong("no edit has the line '%s'" % line)
    if len(texts) < len(words) or not steps:
        raise Wrong("one of %s, or an edit, is missing" % ", ".join(words))
    return [texts[word] for word in words], steps


def write(path, text):
    with open(path, "w", encoding="utf-8") as file:
        file.write(text)


def edited(folder, steps):
    """Makes the edit, and hands back what puts all as it was."""
    before = {}
    for path, old, new in steps:
        there = os.path.join(folder, path)
        with open(there, encoding="utf-8") as file:
            text = file.read()
        before.setdefault(there, (text, os.stat(there).st_mtime_ns if path.startswith("crates/") else None))
        if text.count(old) != 1:
            restore(before)
            raise Wrong("'%s' is %d times in %s" % (old, text.count(old), path))
        write(there, text.replace(old, new))
    return before


def restore(before):
    """Puts all as it was. The times too in crates, of which nothing is then built again (tools/run), but not elsewhere: cargo would go on with what
    it has built of the edit."""
    for path, (was, when) in before.items():
        write(path, was)
        if when is not None:
            os.utime(path, ns=(when, when))
