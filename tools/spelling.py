#!/usr/bin/env python3
"""Brings the names of definitions and lemmas to the spelling of today's Rattle: snake case, a dash only where it joins two names.

usage: tools/spelling.py, once, at the top of a checkout on which the kit's port.py has run.

The rows of spelling.tsv, beside this file, are old name, new name, and "bare" where the name turns only where no dot stands before
it (behind a dot it is a function of src/). It turns whole words in the .antt files of crates/, in clauses and `ghost use` items of
the .rt files, and in the code spans of .md files. In comments a word turns in a code span, or where it has a capital in it. In a
Proof.antt a call's step is named as the function of src/ is: `c.part-at` turns to `c.part_at`."""
import glob
import os
import re

HERE = os.path.dirname(os.path.abspath(__file__))
WORD = re.compile(r'[^\s(){}.;,@"«»`]+')
COMMENT = re.compile(r'(?<![^\s(){}.;,@"«»])--[^\n]*')
SPAN = re.compile(r"`[^`\n]+`")
CLAUSE = re.compile(r"\b(?:requires|ensures)\s*\*?\s*(?:\w+\s*)?\{|\bghost\s*(?:\w+\s*(?::\s*|=\s*))?\{")
USE = re.compile(r"\bghost\s+use\b[^;]*;")
CALLED = re.compile(r"\bfn (\w+)")


def read(name):
    with open(name, encoding="utf-8") as f:
        return f.read()


def write(name, old, new):
    if new != old:
        with open(name, "w", encoding="utf-8") as f:
            f.write(new)


TABLE, BARE = {}, set()
for row in read(os.path.join(HERE, "spelling.tsv")).splitlines():
    parts = row.split("\t")
    TABLE[parts[0]] = parts[1]
    if parts[2:] == ["bare"]:
        BARE.add(parts[0])


def words(text, may=lambda word: True):
    def one(m):
        dotted = text[m.start() - 1 : m.start()] == "."
        if m[0] not in TABLE or dotted and m[0] in BARE or not may(m[0]):
            return m[0]
        return TABLE[m[0]]

    return WORD.sub(one, text)


def has_capital(word):
    return re.search("[a-z0-9][A-Z]", word) is not None


def between(pattern, text, inside, outside):
    out, at = [], 0
    for m in pattern.finditer(text):
        out += [outside(text[at : m.start()]), inside(m[0])]
        at = m.end()
    return "".join(out + [outside(text[at:])])


def comment(text):
    return between(SPAN, text, words, lambda t: words(t, has_capital))


def antt(text, functions=()):
    def step(m):
        return "." + (m[1].replace("-", "_") if m[1].replace("-", "_") in functions else m[1])

    def code(part):
        if functions:
            part = re.sub(r'\.([a-z][^\s(){}.;,@"«»]*)', step, part)
        return words(part)

    return between(COMMENT, text, comment, code)


def closing(text, at):
    depth = 1
    while depth:
        depth += {"{": 1, "}": -1}.get(text[at], 0)
        at += 1
    return at


def rattle(text):
    out, at = [], 0
    pattern = re.compile("%s|%s|//[^\n]*" % (CLAUSE.pattern, USE.pattern))
    while True:
        m = pattern.search(text, at)
        if not m:
            return "".join(out + [text[at:]])
        end = closing(text, m.end()) if m[0].endswith("{") else m.end()
        part = text[m.start() : end]
        out += [text[at : m.start()], comment(part) if part.startswith("//") else words(part)]
        at = end


def main():
    functions = {name for file in glob.glob("crates/*/src/**/*.rt", recursive=True) for name in CALLED.findall(read(file))}
    for file in glob.glob("crates/**/*.antt", recursive=True):
        old = read(file)
        write(file, old, antt(old, functions if file.endswith("/Proof.antt") else ()))
    for file in glob.glob("crates/*/src/**/*.rt", recursive=True):
        old = read(file)
        write(file, old, rattle(old))
    for file in glob.glob("*.md") + glob.glob("docs/**/*.md", recursive=True):
        old = read(file)
        write(file, old, between(SPAN, old, words, str))


if __name__ == "__main__":
    main()
