#!/usr/bin/env python3
"""Lists the lines of src/ at which an older form may stand, for each point of docs/DESIGN-PASS.md.

    tools/places.py [-q] [FOLDER]      (-q prints the counts alone; FOLDER is another checkout's root)
"""
import collections
import pathlib
import re
import sys

# Each search: point, what it looks for, pattern of a line.
SEARCHES = [
    ("1a", "own enums", r"^\s*(pub(\(\w+\))? )?enum "),
    ("1b", "a value that stands for none", r"//.*\b(0 where|0 stands|both 0)\b"),
    ("1c", "a Result or Option handed on by a match", r"(Err\((_|\(?\w+(, _\))?)\)|Ok\(\(\)\)|None) => "),
    ("1d", "a refusal returned by an if", r"return Err\(\(?Refus"),
    ("1e", "a number for a yes or a refusal", r"\{ 1 \} else \{ 0 \}|-> u(8|32)$|Ok\(\(\)\) => 0"),
    ("3a", "loops", r"^\s*(for|while|loop)\b"),
    ("3b", "neighbours named one by one", r"\b\w+\[\w+( \+ \d+)?\], \w+\[|^\s*\w+\[at( \+ \d+)?\],|^\s*(word_from|station)\((\w+, )?\d+\),"),
    ("4a", "impls of a library trait", r"^\s*impl\b.*\b(PartialEq|Eq|Ord|PartialOrd|From|TryFrom|Display|Debug|Default)\b.* for "),
    ("4b", "equality, conversion or digits by hand", r"fn (same|is_word|call_of|mark_of|digit|text|capped|word)\("),
    ("4c", "casts", r" as (u8|u16|u32|u64|usize)\b"),
    ("6a", "arrays and Vecs in fields", r"^\s*(pub(\(\w+\))? )?\w+: (\[|Vec<)"),
    ("6b", "fixed buffers", r"let mut \w+ = \[0[;,]|\bput\("),
    ("7a", "steps chosen by a match on an own enum", r"match \w+(\.(call|mark|kind))\b"),
    ("7b", "closures and their parameters", r"\|[\w(), &]*\| |impl Fn|dyn |\bF: Fn"),
]

SIGNATURE = re.compile(r"\bfn (\w+)[^(]*\((.*?)\)\s*(?:->[^{;]*?)?\s*(?:where|requires|ensures|\{|;)", re.S)


def sources(root):
    """The files of src/ with their text."""
    for path in sorted(pathlib.Path(root, "crates").glob("*/src/**/*.rt")):
        yield path.relative_to(root), path.read_text()


def lines_found(root, pattern):
    for path, text in sources(root):
        for number, line in enumerate(text.splitlines(), 1):
            if re.search(pattern, line):
                yield f"{path}:{number}: {line.strip()}"


def travelling(root):
    """Pairs of parameters that three or more functions take, with those functions."""
    pairs = collections.defaultdict(list)
    for path, text in sources(root):
        for name, inside in SIGNATURE.findall(text):
            taken = sorted(set(re.findall(r"(\w+: [&\w][^,()]*)", inside)))
            for i, first in enumerate(taken):
                for second in taken[i + 1:]:
                    pairs[first, second].append(f"{path.parts[1]}::{name}")
    for (first, second), functions in sorted(pairs.items()):
        if len(functions) >= 3 and "rt: " not in first + second and "heap: " not in first + second:
            yield f"{first}, {second}: {' '.join(functions)}"


def repeated(root):
    """What two or more functions require, with how often."""
    count = collections.Counter()
    for _, text in sources(root):
        count.update(re.findall(r"requires(?: \w+)? (\{.*\})", text))
    for clause, times in count.most_common():
        if times >= 2:
            yield f"{times} times: {clause}"


def answers(root):
    for path in sorted(pathlib.Path(root, "crates").glob("*/proofs/**/Answers.antt")):
        yield str(path.relative_to(root))


def main():
    quiet = "-q" in sys.argv
    root = next((a for a in sys.argv[1:] if a != "-q"), ".")
    found = [(p, what, list(lines_found(root, pattern))) for p, what, pattern in SEARCHES]
    found += [("5a", "parameters that travel together", list(travelling(root)))]
    found += [("5b", "requires that stand twice or more", list(repeated(root)))]
    found += [("8a", "files of answers", list(answers(root)))]
    for point, what, places in sorted(found):
        print(f"{point} {what}: {len(places)}")
        if not quiet:
            print("".join(f"    {place}\n" for place in places), end="")


main()
