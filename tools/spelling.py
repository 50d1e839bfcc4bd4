#!/usr/bin/env python3
"""spelling.py [--pages]: brings this project's own definitions and lemmas to words in snake case.

Ran right behind the kit's port.py when the project came to today's Rattle, and again with a longer list (docs/PORT.md). The names stand in
spelling.txt beside this file, a line `old new` each. It writes them into specs/, proofs/, the clauses of src/ and the
must-fail edits of all crates. Types, facts, modules and variants (a capital in front), functions of src/, goals and words
of the kit are not in the list. A lemma that would have had a definition's name ends in `_law`; five fields of statements have names of their own.
--pages writes the names into the pages instead, where they stand between backquotes (README.md, docs/): there also those
that port.py had turned already, which stand in spelling-kit.txt.
"""
import glob
import os
import re
import sys

HERE = os.path.dirname(os.path.abspath(__file__))
# what may not stand before or behind a name, or it is a part of another
BEFORE = r"(?<![^\s(){}\[\],;.:«»\"λ])"
BEHIND = r"(?![^\s(){}\[\],;.:«»\"])"


def names(file):
    with open(os.path.join(HERE, file), encoding="utf-8") as f:
        return dict(line.split() for line in f)


def pattern(table, before=BEFORE, behind=BEHIND):
    return re.compile(before + "(" + "|".join(sorted(map(re.escape, table), key=len, reverse=True)) + ")" + behind)


def files():
    for folder, dirs, found in os.walk("crates"):
        dirs[:] = sorted(d for d in dirs if d != "out")
        for name in sorted(found):
            if name.endswith((".antt", ".rt", ".edit")):
                yield os.path.join(folder, name)


def rewrite(path, turn):
    with open(path, encoding="utf-8") as f:
        old = f.read()
    new = turn(old)
    if new != old:
        with open(path, "w", encoding="utf-8") as f:
            f.write(new)


def main():
    table = names("spelling.txt")
    if "--pages" not in sys.argv:
        word = pattern(table)
        for path in files():
            rewrite(path, lambda text: word.sub(lambda m: table[m.group(1)], text))
        return
    # the pages were not turned before: a name in snake case is as it should be there
    table = {old: new for old, new in table.items() if re.search("[A-Z-]", old)}
    table.update(names("spelling-kit.txt"))
    # in a page a name stands alone between backquotes, or behind its file: `f`, `crate/proofs/f`
    word = pattern(table, r"(?<![\w'/.-])", r"(?![\w'/.-])")
    for path in ["README.md", *sorted(glob.glob("docs/*.md"))]:
        if os.path.basename(path) != "PORT.md":
            rewrite(path, lambda text: re.sub(r"`[^`\n]+`", lambda q: word.sub(lambda m: table[m.group(1)], q.group(0)), text))


main()
