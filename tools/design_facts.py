#!/usr/bin/env python3
"""design_facts.py [FOLDER]: the facts that stand in the `requires` of three or more functions of crates/*/src of a folder.

One line for each fact: how many functions ask for it, the fact, and these functions. The last line says how many facts there
are, and at how many places they stand. A clause is cut at its outermost `×`; `.now`, `.old` and `.entry` are left out, so that a
fact about what a `&` and a `&mut` point to counts as one.
"""
import collections
import pathlib
import re
import sys


def clauses(text):
    """(function, what it asks) for each `requires`, also where its braces stand on several lines."""
    function = None
    lines = text.split("\n")
    i = 0
    while i < len(lines):
        line = lines[i]
        if m := re.match(r'\s*(?:pub )?(?:const )?(?:extern "C" )?fn (\w+)', line):
            function = m.group(1)
        if m := re.match(r"\s*requires (?:\w+ )?\{", line):
            asked = line[m.end():]
            while asked.count("{") >= asked.count("}") and i + 1 < len(lines):
                i += 1
                asked += " " + lines[i].strip()
            yield function, asked.rstrip().removesuffix("}")
        i += 1


def facts(asked):
    depth, fact = 0, ""
    for c in asked:
        depth += (c in "([{") - (c in ")]}")
        if c == "×" and depth == 0:
            yield fact
            fact = ""
        else:
            fact += c
    yield fact


def plain(fact):
    fact = re.sub(r"\.(now|old|entry)\b", "", fact.strip())
    while fact.startswith("(") and fact.endswith(")"):
        fact = fact[1:-1].strip()
    return " ".join(fact.split())


def main():
    folder = pathlib.Path(sys.argv[1] if len(sys.argv) > 1 else ".")
    asking = collections.defaultdict(set)
    for path in sorted(folder.glob("crates/*/src/**/*.rt")):
        crate = path.relative_to(folder).parts[1]
        for function, asked in clauses(path.read_text()):
            for fact in facts(asked):
                asking[plain(fact)].add(f"{crate}::{function}")
    shared = {f: fs for f, fs in asking.items() if len(fs) >= 3}
    for fact, functions in sorted(shared.items(), key=lambda item: (-len(item[1]), item[0])):
        print(len(functions), fact, "|", ", ".join(sorted(functions)))
    print("facts", len(shared), "places", sum(map(len, shared.values())))


if __name__ == "__main__":
    main()
