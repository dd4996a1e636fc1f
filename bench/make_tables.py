"""Writes the tables that are read for measuring.

    python3 bench/make_tables.py OUTDIR

writes the folders OUTDIR/full, OUTDIR/one_line and OUTDIR/many_lines, each with resources.txt and tasks.txt:

full        a good table with texts as long as a good table's can be: 32 resources and 64 tasks, names of
            32 bytes that are all written as entities of 6 bytes, periods of 8 digits and lengths of 7
            (the one length of 8 digits, 10000000, would leave only 0 for the two others)
one_line    a resource text of 32,768 bytes that is one line of very many fields (refused, 2, at line 1)
many_lines  a resource text of 32,768 bytes of short good lines, far more than 32 (refused, 7, at line 33)
"""

import os
import sys

MOST_BYTES = 32768


def quoted(number):
    """A name of 32 bytes, another for each number, as the field that writes it: 192 bytes."""
    return b"".join((b"&apos;", b"&quot;")[number >> bit & 1] for bit in range(32))


def full():
    resources = b"".join(b"resource %s\n" % quoted(number) for number in range(32))
    tasks = b"".join(b"task %s 1000000 %d 1000000 10000000 %s\n" % (quoted(number), 1000000 + number, quoted(number % 32))
                     for number in range(64))
    return resources, tasks


def one_line():
    letters = (MOST_BYTES - len(b"resource")) // 2
    return b"resource" + b"".join(b" %c" % (ord("a") + number % 26) for number in range(letters)), b""


def many_lines():
    lines = []
    size = 0
    while True:
        line = b"resource r%d\n" % len(lines)
        if size + len(line) + 20 > MOST_BYTES:
            break
        lines.append(line)
        size += len(line)
    lines.append(b"resource ".ljust(MOST_BYTES - size - 1, b"z") + b"\n")
    return b"".join(lines), b""


def main():
    if len(sys.argv) != 2:
        sys.exit("usage: make_tables.py OUTDIR")
    for name, make in (("full", full), ("one_line", one_line), ("many_lines", many_lines)):
        folder = os.path.join(sys.argv[1], name)
        os.makedirs(folder, exist_ok=True)
        for file_name, content in zip(("resources.txt", "tasks.txt"), make()):
            with open(os.path.join(folder, file_name), "wb") as file:
                file.write(content)


if __name__ == "__main__":
    main()
