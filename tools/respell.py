#!/usr/bin/env python3
"""Respells this repository's own definitions and lemmas: words in snake case.

usage: python3 tools/respell.py        at the top of the repository, once, right after the kit's port.py

Every name that a file of specs/ or proofs/ declares in camel case (placeFor, sumTo-more) is written in snake case
(place_for, sum_to-more) wherever it stands: in specs/, proofs/, the clauses of src/, and the pages. Types, facts and
modules keep their capitals. Names of src/ have no capitals within and are not touched. Tables of names at the head of
a file of specs/ are lined up again.
"""
import re
import sys
from pathlib import Path

TOKEN = re.compile(r"[A-Za-z_0-9'\-]+")
CAMEL = re.compile(r"(?<=[a-z0-9])[A-Z]")
DECLARED = re.compile(r"^\s*(?:(?:abbrev|unfoldable|pub|record|data) )*([^\s:(){}.=]+)(?:\s[^=]*)?:(?:\s|$)")
ENTRY = re.compile(r"^--   (\S+)( +)(\S.*)$")


def sources(suffix, *folders):
    for folder in folders:
        yield from sorted(Path("crates").glob(f"*/{folder}/**/*{suffix}"))


def declared():
    names = set()
    for path in sources(".antt", "specs", "proofs"):
        for line in path.read_text().splitlines():
            if line.lstrip().startswith(("--", "use ")):
                continue
            found = DECLARED.match(line)
            if found and CAMEL.search(found.group(1)) and not found.group(1)[0].isupper():
                names.add(found.group(1))
    return names


def snake(name):
    return CAMEL.sub(lambda m: "_" + m.group().lower(), name)


def respelled(text, names):
    return TOKEN.sub(lambda m: snake(m.group()) if m.group() in names else m.group(), text)


def lined_up(text):
    """Tables of names in comments, each entry's text in one column."""
    lines = text.split("\n")
    at = 0
    while at < len(lines):
        end = at
        while end < len(lines) and ENTRY.match(lines[end]):
            end += 1
        if end - at > 1:
            entries = [ENTRY.match(line).groups() for line in lines[at:end]]
            width = max(len(name) for name, _, _ in entries) + 2
            lines[at:end] = [f"--   {name:<{width}}{said}" for name, _, said in entries]
        at = max(end, at + 1)
    return "\n".join(lines)


def main():
    names = declared()
    by_new = {}
    for name in names:
        by_new.setdefault(snake(name), []).append(name)
    for new, olds in sorted(by_new.items()):
        if len(olds) > 1:
            sys.exit(f"respell: {' and '.join(olds)} would both be {new}")
    changed = 0
    pages = [Path("README.md"), *sorted(Path("docs").glob("*.md"))]
    for path in [*sources(".antt", "specs", "proofs"), *sources(".rt", "src"), *pages]:
        old = path.read_text()
        new = respelled(old, names)
        if path.suffix == ".antt":
            new = lined_up(new)
        if new != old:
            path.write_text(new)
            changed += 1
    print(f"respell: {len(names)} names, {changed} files changed")


main()
