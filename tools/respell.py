#!/usr/bin/env python3
"""Brings the repository's own definitions and lemmas to snake case, and its own types and facts to camel case.

usage: python3 tools/respell.py        once, at the top of a repository whose other spelling is today's

A name is the repository's own if a file of specs/ or proofs/ declares it with a dash: a definition, a lemma, a field, a
constructor. Goals of proof files, whose names the checker makes, keep theirs. In files of code only what stands outside strings
and comments is respelled, in comments of specs/ and proofs/ too.
"""

import os
import re
import sys

NAME = r"[A-Za-z_][\w'-]*"
DECLARED = re.compile(r"^\s*(?:abbrev |unfoldable |pub |record |data |ruleset )*(" + NAME + r")(?=[ ({:])[^=]*?:")
WORD = re.compile(r"[\w'-]+")
QUOTED = re.compile(r'("(?:[^"\\]|\\.)*")')


def files(kinds):
    for folder, folders, names in os.walk("crates"):
        folders[:] = sorted(f for f in folders if f != "out")
        for name in sorted(names):
            if name.endswith(kinds):
                yield os.path.join(folder, name)


def read(path):
    with open(path, encoding="utf-8") as file:
        return file.read()


def respelled(name):
    parts = name.split("-")
    if parts[0][0].isupper():
        return "".join(part[0].upper() + part[1:] for part in parts)
    return "_".join(parts)


def declared():
    dashed, others = set(), set()
    for path in files(".antt"):
        for line in read(path).splitlines():
            found = DECLARED.match(line)
            if found and ": goal." not in line:
                (dashed if "-" in found.group(1) else others).add(found.group(1))
    return dashed, others


def in_words(text, turn):
    return WORD.sub(lambda word: turn.get(word.group(0), word.group(0)), text)


def in_code(line, turn):
    code, slashes, comment = line.partition("//") if '"' not in line else (line, "", "")
    pieces = QUOTED.split(code)
    pieces[::2] = [in_words(piece, turn) for piece in pieces[::2]]
    return "".join(pieces) + slashes + comment


def main():
    dashed, others = declared()
    turn = {name: respelled(name) for name in dashed}
    together = sorted(name for name in dashed if turn[name] in others)
    for name in together:
        print(f"together: {name} and {turn[name]}", file=sys.stderr)
    for path in files((".antt", ".rt", ".edit")):
        old = read(path)
        lines = old.split("\n")
        new = "\n".join(in_code(line, turn) if not path.endswith(".antt") else in_words(line, turn) for line in lines)
        if new != old:
            with open(path, "w", encoding="utf-8") as file:
                file.write(new)


main()
