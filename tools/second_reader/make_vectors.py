"""Makes the test vectors of crates/reader_vectors with the second reader.

    python3 tools/second_reader/make_vectors.py [SEED]

writes crates/reader_vectors/data/cases.bin and crates/reader_vectors/stdout, the same for the same seed,
and tells on standard error how many cases came out with each refusal number (0 for a table that is read).

Where a case is built to come out in one way, that is said as `expect`, from how the case was built and
not from the reader: (number, text, line) or, for a bad name, (number, text, line, field, byte); GOOD for
a table that is read. A reader that answers anything else ends the making.
"""

import os
import random
import sys

sys.dont_write_bytecode = True  # leave no compiled copy of the reader behind
import reader

DEFAULT_SEED = 20240611
CASES = 3500
GOOD = (0,)
R, T = reader.RESOURCES, reader.TASKS

SPECIAL = b"&<>'\""
PLAIN = bytes(byte for byte in range(33, 127) if byte not in SPECIAL)
ENTITIES = (b"&amp;", b"&lt;", b"&gt;", b"&apos;", b"&quot;")
NO_ENTITIES = (
    b"&", b"&&", b"&;", b"&amp", b"&lt", b"&gt", b"&apos", b"&quot", b"&AMP;", b"&Amp;", b"&LT;", b"&QUOT;",
    b"&am;", b"&amp:", b"&ampamp;", b"&#38;", b"&#x26;", b"&nbsp;", b"&a", b"&l", b"&lt:", b"&quo;", b"&aposs;",
    b"&amp&lt;", b"&;amp;", b"&-", b"&0",
)
NO_FIGURES = (
    b"00", b"01", b"010", b"000", b"00000000", b"00000001", b"000000001", b"010000000", b"+1", b"+0", b"-1", b"-0",
    b"-", b"--", b"1.", b"1.0", b".5", b"1e3", b"0x10", b"1_000", b"1,000", b"1'000", b"a", b"1a", b"a1", b"O", b"l",
    b"12345678901", b"4294967296", b"4294967297", b"18446744073709551616", b"18446744073709551617",
    b"340282366920938463463374607431768211457", b"&amp;", b"&quot;", b"1&", b"/", b":", b"1/", b"1:", b"~",
)
TOO_LARGE = (b"10000001", b"10000009", b"11000000", b"20000000", b"99999999", b"100000000", b"999999999",
             b"1000000000", b"100000001")


class Made:
    """The cases so far."""

    def __init__(self):
        self.cases = []
        self.seen = set()

    def add(self, resources, tasks=b"", expect=None):
        if (resources, tasks) in self.seen:
            return
        self.seen.add((resources, tasks))
        if expect is not None:
            answer = reader.read(resources, tasks)
            got = GOOD
            if isinstance(answer, reader.Refusal):
                got = (answer.number, answer.text, answer.line)
                if answer.number == reader.NAME:
                    got += (answer.field, answer.byte)
            if got != expect:
                sys.exit("case %d: expected %s, got %s:\n%r\n%r"
                         % (len(self.cases) + 1, expect, got, resources[:600], tasks[:600]))
        self.cases.append((resources, tasks))


# ---- parts of texts

def text(lines, last_lf=True):
    out = b"\n".join(lines)
    return out + b"\n" if lines and last_lf else out


def written(rng, name):
    """A field that decodes to the name; the specials but `&` at times stand as themselves."""
    out = b""
    for byte in name:
        one = bytes([byte])
        if one == b"&" or (one in SPECIAL and rng.random() < 0.5):
            one = reader.written_name(one)
        out += one
    return out


def some_name(rng, most=8):
    length = rng.randint(1, most)
    pool = PLAIN + SPECIAL * 4 if rng.random() < 0.4 else b"abcdefghijklmnopqrstuvwxyz-_0123456789"
    return bytes(rng.choice(pool) for _ in range(length))


def some_names(rng, count, most=8, taken=()):
    names = []
    while len(names) < count:
        name = some_name(rng, most)
        if name != b"-" and name not in names and name not in taken:
            names.append(name)
    return names


def some_numbers(rng, guarded):
    """before, critical, after and period of a good task."""
    period = rng.choice((1, 2, 3, 7, 10, 100, 1000, 9999999, 10000000, rng.randint(1, 10000000), rng.randint(1, 50)))
    critical = rng.choice((1, period, rng.randint(1, period))) if guarded else 0
    rest = period - critical
    before = rng.choice((0, rest, rng.randint(0, rest)))
    after = rng.choice((0, rest - before, rng.randint(0, rest - before)))
    if before + critical + after == 0:
        before = 1
    return before, critical, after, period


def task_line(name, before, critical, after, period, resource=b"-"):
    return b"task %s %d %d %d %d %s" % (name, before, critical, after, period, resource)


def good_lines(rng, resources, tasks, most=8):
    """The lines of both texts of a good table."""
    names = some_names(rng, resources, most)
    rlines = [b"resource " + written(rng, name) for name in names]
    tlines = []
    for name in some_names(rng, tasks, most):
        guarded = bool(names) and rng.random() < 0.7
        resource = written(rng, rng.choice(names)) if guarded else b"-"
        tlines.append(task_line(written(rng, name), *some_numbers(rng, guarded), resource))
    return rlines, tlines


def placed(lines, bad):
    """The text with the bad line first, in the middle and last, and last without LF; with the line's number."""
    middle = len(lines) // 2
    yield text([bad] + lines), 1
    yield text(lines[:middle] + [bad] + lines[middle:]), middle + 1
    yield text(lines + [bad]), len(lines) + 1
    yield text(lines + [bad], False), len(lines) + 1


def one_placed(rng, lines, bad):
    return rng.choice(list(placed(lines, bad)))


SMALL_R = [b"resource vol", b"resource P&amp;L", b"resource book"]
SMALL_T = [b"task fit 10 20 30 1000 vol", b"task mark 1 2 3 40 P&amp;L", b"task beat 1 0 0 40 -"]


# ---- good tables

def good_tables(made, rng):
    made.add(b"", b"", GOOD)
    for last_lf in (True, False):
        made.add(text([b"resource a"], last_lf), b"", GOOD)
        made.add(b"", text([b"task a 1 0 0 1 -"], last_lf), GOOD)
        made.add(text([b"resource a"], last_lf), text([b"task a 0 1 0 1 a"], last_lf), GOOD)
        made.add(text(SMALL_R, last_lf), text(SMALL_T, last_lf), GOOD)
    for name in (b"--", b"-a", b"a-", b"---", b"task", b"resource", b"0", b"10", b"&amp;", b"&amp;amp;", b"&amp;lt;",
                 b"&quot;", b"a;b", b";", b"<", b">", b"'", b'"', b"&lt;&gt;", b"~", b"!", b"&amp;;", b"amp;", b"&lt;-"):
        made.add(b"resource %s\n" % name, b"task %s 0 1 0 3 %s\n" % (name, name), GOOD)
    made.add(b"resource Vol\nresource vol\nresource vo\nresource voll\n",
             b"task A 0 1 0 9 voll\ntask a 0 1 0 9 vo\ntask aa 0 1 0 9 Vol\n", GOOD)
    made.add(b"resource a'b\nresource a&lt;b\n", b"task x 0 1 0 3 a&apos;b\ntask y 0 1 0 3 a<b\n", GOOD)
    for _ in range(250):
        rlines, tlines = good_lines(rng, rng.randint(0, 6), rng.randint(0, 9), rng.choice((3, 8, 16)))
        made.add(text(rlines, rng.random() < 0.7), text(tlines, rng.random() < 0.7), GOOD)
    for resources, tasks in ((32, 64), (32, 0), (0, 64), (1, 64), (32, 1), (31, 63), (32, 64), (32, 64)):
        rlines, tlines = good_lines(rng, resources, tasks, 4)
        made.add(text(rlines), text(tlines, resources == 32), GOOD)
    # Names as long as they come: 32 bytes, each written in 6.
    quotes = [b"".join((b"&apos;", b"&quot;")[number >> bit & 1] for bit in range(32)) for number in range(64)]
    made.add(text([b"resource " + name for name in quotes[:32]]),
             text([task_line(name, 3333333, 3333333, 3333334, 10000000, quotes[place % 32])
                   for place, name in enumerate(quotes)]), GOOD)
    # The order of tasks: equal periods, rising, falling, mixed.
    for count in (2, 3, 5, 8, 16, 33, 64):
        names = [b"t%d" % place for place in range(count)]
        for periods in ([7] * count, list(range(1, count + 1)), list(range(count, 0, -1)),
                        [rng.randint(1, 3) for _ in names], [rng.choice((9, 10, 99, 100, 10000000)) for _ in names]):
            lines = [task_line(name, 0, 1, 0, period, rng.choice((b"a", b"b")))
                     for name, period in zip(names, periods)]
            made.add(b"resource a\nresource b\nresource c\n", text(lines), GOOD)
    # Loads that come out whole or just not.
    for critical, period in ((1, 3), (2, 3), (1, 1), (1, 10000000), (9999999, 10000000), (1, 7), (1, 1000000),
                             (1, 1000001), (1, 999999), (3, 1000000), (10000000, 10000000), (1, 64), (1, 2000000)):
        for users in (1, 2, 5):
            lines = [task_line(b"t%d" % user, 0, critical, 0, period, b"r") for user in range(users)]
            made.add(b"resource q\nresource r\n", text(lines), GOOD)


def good_names(made, rng):
    """Every length, and every entity in every place."""
    def filled(length):
        return [bytes([rng.choice(PLAIN)]) for _ in range(length)]

    for length in range(1, 33):
        for entity in ENTITIES:
            lines = []
            base = filled(length)
            for at in range(length):
                lines.append(b"resource " + b"".join(base[:at] + [entity] + base[at + 1:]))
            rng.shuffle(lines)
            made.add(text(lines), b"", GOOD)
        lines = []
        base = filled(length)
        for at in range(length):
            field = b"".join(base[:at] + [ENTITIES[(at + length) % 5]] + base[at + 1:])
            lines.append(task_line(field, 1, 0, 0, rng.randint(1, 9)))
        made.add(b"", text(lines), GOOD)


def good_figures(made, rng):
    """Figures at their limits; the table is read."""
    top = 10000000
    for before, critical, after, period in (
            (0, 0, 1, 1), (1, 0, 0, 1), (0, 1, 0, 1), (top, 0, 0, top), (0, top, 0, top), (0, 0, top, top),
            (top - 1, 1, 0, top), (1, top - 1, 0, top), (1, 1, top - 2, top), (0, 0, 1, top), (0, 1, 0, top),
            (9, 9, 9, 27), (10, 100, 1000, 10000), (9999999, 0, 1, top), (1, 2, 3, 6), (1, 2, 3, 7)):
        resource = b"vol" if critical else b"-"
        for lines, number in placed(SMALL_T, task_line(b"x", before, critical, after, period, resource)):
            made.add(text(SMALL_R), lines, GOOD)


# ---- refusals, one after another

def long_texts(made, rng):
    filler = b"resource " + b"a" * 30 + b"\n"
    long = (filler * 1000)[:32769]
    made.add(long, b"", (1, R, 0))
    made.add(b"", b"\n" * 32769, (1, T, 0))
    made.add(b"no form\n", b"x" * 32769, (1, T, 0))
    made.add(b"\x00" * 32769, b"y" * 32770, (1, R, 0))
    made.add(text(SMALL_R), text(SMALL_T) + b"task a 1 0 0 1 -\n" * 2000, (1, T, 0))
    # As long as can be.
    made.add(long[:32768], b"", (5, R, 2))
    made.add(b"", b"task a 1 0 0 1 -\n" + b"\n" * (32768 - 17), (2, T, 2))
    made.add(b"resource " + b"a" * (32768 - 9), b"", (4, R, 1, 2, 33))


def bad_forms(made, rng):
    bad_resources = (
        b"", b" ", b"  ", b"resource", b"resource ", b" resource a", b"resource  a", b"resource a ", b"resource a b",
        b"resource a  ", b"resource\ta", b"resource a\t", b"resource a\r", b"\r", b"resource a\x00", b"\x00", b"Resource a",
        b"RESOURCE a", b"resourc a", b"resources a", b"task a", b"a resource", b"- -", b"resource \x7f", b"resource a\x80",
        b"resource \xc3\xa9", b"resource a\xff", b"resource \xa0", b"\xef\xbb\xbfresource a", b"resource a -",
        b"resource a #", b"# resource a", b"resource a\x0b", b"resource a\x0c", b"task a 1 0 0 1 -", b"resource - -",
        b"resource\xa0a", b"resource a\x1f", b"&resource a", b"resource &  ", b"resource & &",
    )
    bad_tasks = (
        b"", b" ", b"   ", b"task", b"task ", b"task a 1 0 0 9", b"task a 1 0 0 9 - -", b"task a 1 0 0 9 ", b"task a 1 0 0 9 - ",
        b" task a 1 0 0 9 -", b"task  a 1 0 0 9 -", b"task a  1 0 0 9 -", b"task a 1 0 0  9 -", b"task a 1 0 0 9  -",
        b"task a 1 0 0 9 -\r", b"task a 1 0 0 9\t-", b"task\ta 1 0 0 9 -", b"task a 1 0 0 9 -\t", b"task a 1 0 0 9 \x00",
        b"Task a 1 0 0 9 -", b"TASK a 1 0 0 9 -", b"tasks a 1 0 0 9 -", b"tas a 1 0 0 9 -", b"resource a 1 0 0 9 -",
        b"task a 1 0 0 9 vol \xff", b"task a\x7f 1 0 0 9 -", b"task a\x80 1 0 0 9 -", b"task a 1\xa0 0 0 9 -", b"resource a",
        b"a task 1 0 0 9 -", b"- - - - - - -", b"task a 1 0 0 9 \xe2\x88\x92", b"task a 1 0 0 9 -\x0c", b"task 1 0 0 9 -",
        b"task a b 1 0 0 9 -", b"task a 1 0 0 9 vol vol", b"task & + + + + & &", b"task a 1 0 0 \x0b9 -",
    )
    for bad in bad_resources:
        for whole, line in placed(SMALL_R, bad):
            if bad == b"" and line == 4 and not whole.endswith(b"\n\n"):
                continue  # without its LF an empty last line is none
            made.add(whole, text(SMALL_T) if rng.random() < 0.3 else b"", (2, R, line))
    for bad in bad_tasks:
        for whole, line in placed(SMALL_T, bad):
            if bad == b"" and line == 4 and not whole.endswith(b"\n\n"):
                continue
            made.add(text(SMALL_R), whole, (2, T, line))
    for whole in (b"\n", b"\n\n", b" ", b"\r\n", b"\r", b"\t", b"\x00"):
        made.add(whole, b"", (2, R, 1))
        made.add(b"", whole, (2, T, 1))
    # CRLF all through.
    made.add(text(SMALL_R).replace(b"\n", b"\r\n"), text(SMALL_T), (2, R, 1))
    made.add(text(SMALL_R), text(SMALL_T).replace(b"\n", b"\r\n"), (2, T, 1))
    made.add(text(SMALL_R).replace(b"\n", b"\r"), b"", (2, R, 1))


def every_byte(made, rng):
    """Each byte value in a name, in a task line and between two fields."""
    for byte in range(256):
        one = bytes([byte])
        whole, _ = one_placed(rng, [b"resource a", b"resource b"], b"resource x" + one + b"y")
        made.add(whole, b"")
        line = bytearray(b"task mark 11 22 33 444 b")
        line[rng.randrange(len(line))] = byte
        whole, _ = one_placed(rng, [b"task t 1 0 0 1 -"], bytes(line))
        made.add(b"resource b\n", whole)


def bad_figures(made, rng):
    fields = [b"task", b"x", b"1", b"2", b"3", b"100", b"vol"]
    for place in (2, 3, 4, 5):
        for bad in NO_FIGURES + TOO_LARGE + ((b"0",) if place == 5 else ()):
            line = fields[:]
            line[place] = bad
            whole, number = one_placed(rng, SMALL_T, b" ".join(line))
            made.add(text(SMALL_R), whole, (3, T, number))


def bad_names(made, rng):
    """Bad names in all three places, with the byte at which each begins to be bad."""
    def everywhere(field, byte, places=("resource", "task", "used")):
        if "resource" in places:
            whole, line = one_placed(rng, SMALL_R, b"resource " + field)
            made.add(whole, b"", (4, R, line, 2, byte))
        if "task" in places:
            whole, line = one_placed(rng, SMALL_T, b"task %s 1 0 0 9 -" % field)
            made.add(text(SMALL_R), whole, (4, T, line, 2, byte))
        if "used" in places:
            whole, line = one_placed(rng, SMALL_T, b"task x 1 2 3 9 " + field)
            made.add(text(SMALL_R), whole, (4, T, line, 7, byte))

    everywhere(b"-", 1, ("resource", "task"))
    for bad in NO_ENTITIES:
        everywhere(bad, 1)
        for start in (b"ab", b"&quot;", b"&amp;amp;"):
            everywhere(start + bad, len(start) + 1, (rng.choice(("resource", "task", "used")),))
    everywhere(b"a&amp;b&", 8)
    everywhere(b"a&b", 2)
    everywhere(b"P&L", 2)
    everywhere(b"a;&;", 3)
    # The 33rd byte: plain, an entity, a bad entity; and faults before and after it.
    for start, width in ((b"a" * 32, 32), (b"&lt;" * 32, 128), (b"&quot;" * 32, 192), (b"&amp;" + b"b" * 31, 36),
                         (b"-" * 32, 32), (b"b" * 31 + b"&apos;", 37)):
        for more in (b"c", b"-", b"&", b"&amp;", b"&quot;", b"&lt;", b"cc", b"c&", b"&amp;&", b"&x", b";"):
            everywhere(start + more, width + 1)
    everywhere(b"a" * 31 + b"&", 32)
    everywhere(b"a" * 31 + b"&amp", 32)
    everywhere(b"a" * 30 + b"&&amp;aaaa", 31)
    everywhere(b"&" + b"a" * 40, 1)
    everywhere(b"&amp;" * 31 + b"&am", 156)
    for _ in range(60):
        name = b"".join(rng.choice(ENTITIES) if rng.random() < 0.4 else bytes([rng.choice(PLAIN)])
                        for _ in range(rng.randint(0, 31)))
        everywhere(name + rng.choice((b"&", b"&;", b"&amp", b"&x;", b"&AMP;")), len(name) + 1,
                   (rng.choice(("resource", "task", "used")),))


def twice(made, rng):
    pairs = ((b"vol", b"vol"), (b"P&amp;L", b"P&amp;L"), (b"a'b", b"a&apos;b"), (b"a&apos;b", b"a'b"), (b"<", b"&lt;"),
             (b"&gt;", b">"), (b"&quot;x", b'"x'), (b"&amp;amp;", b"&amp;amp;"), (b"a" * 32, b"a" * 32),
             (b"'" * 32, b"&apos;" * 32), (b"--", b"--"), (b"<'>\"", b"&lt;&apos;&gt;&quot;"), (b"0", b"0"))
    for one, other in pairs:
        for between in range(4):
            for last_lf in (True, False):
                filler = [b"resource f%d" % number for number in range(between)]
                lines = [b"resource " + one] + filler + [b"resource " + other]
                more = [b"resource z"] if last_lf else []
                made.add(text(lines + more, last_lf), text(SMALL_T) if rng.random() < 0.2 else b"", (5, R, between + 2))
                filler = [b"task f%d 1 0 0 9 -" % number for number in range(between)]
                lines = [b"task %s 1 0 0 9 -" % one] + filler + [b"task %s 2 0 0 8 -" % other]
                more = [b"task z 1 0 0 9 -"] if last_lf else []
                made.add(b"", text(lines + more, last_lf), (5, T, between + 2))


def unknown(made, rng):
    resources = [b"resource vol", b"resource P&amp;L", b"resource a&amp;lt;b", b"resource " + b"q" * 32, b"resource x<y"]
    for name in (b"Vol", b"vo", b"voll", b"VOL", b"v", b"ol", b"P&amp;l", b"P", b"L", b"P&amp;amp;L", b"a&lt;b", b"a&amp;b",
                 b"a<b", b"q" * 31, b"q" * 31 + b"r", b"--", b"-vol", b"vol-", b"x&gt;y", b"x&amp;lt;y", b"none", b"task",
                 b"fit", b"mark", b"0", b"resource", b"&amp;", b"vol;"):
        for whole, line in placed(SMALL_T, b"task x 1 2 3 9 " + name):
            made.add(text(resources), whole, (6, T, line))
    made.add(b"", b"task x 0 1 0 1 x\n", (6, T, 1))
    made.add(b"resource -x\n", b"task x 0 1 0 1 x", (6, T, 1))


def full(made, rng):
    for number in range(55):
        names = [b"r%d" % place for place in range(33)]
        rng.shuffle(names)
        lines = [b"resource " + name for name in names]
        made.add(text(lines + [b"resource z"] * (number % 3), number % 2 == 0), b"", (7, R, 33))
    for number in range(50):
        names = [b"%c%d" % (rng.choice(b"tuv"), place) for place in range(65)]
        rng.shuffle(names)
        lines = [task_line(name, 1, 0, 0, rng.randint(1, 9)) for name in names]
        made.add(b"", text(lines + [b"none"] * (number % 3), number % 2 == 0), (7, T, 65))


def unmatched(made, rng):
    for before, critical, after, period, resource in (
            (1, 0, 0, 9, b"vol"), (0, 0, 1, 9, b"P&amp;L"), (1, 0, 1, 2, b"book"), (10000000, 0, 0, 10000000, b"vol"),
            (1, 1, 1, 9, b"-"), (0, 1, 0, 1, b"-"), (0, 10000000, 0, 10000000, b"-"), (5, 1, 0, 9, b"-"), (0, 9, 0, 9, b"-"),
            # also overfull, which comes after
            (0, 0, 0, 9, b"vol"), (9, 0, 1, 9, b"vol"), (0, 10, 0, 9, b"-"), (9, 9, 9, 9, b"-"),
            (10000000, 10000000, 10000000, 1, b"-"), (10000000, 0, 10000000, 1, b"vol")):
        for name in (b"x", b"x&lt;"):
            for whole, line in placed(SMALL_T, task_line(name, before, critical, after, period, resource)):
                made.add(text(SMALL_R), whole, (8, T, line))


def overfull(made, rng):
    top = 10000000
    for before, critical, after, period, resource in (
            (0, 0, 0, 1, b"-"), (0, 0, 0, top, b"-"), (1, 0, 1, 1, b"-"), (2, 0, 0, 1, b"-"), (0, 0, 10, 9, b"-"),
            (0, 2, 0, 1, b"vol"), (1, 1, 1, 2, b"vol"), (top, 1, 0, top, b"vol"), (top, top, top, top, b"vol"),
            (top, top, top, 1, b"vol"), (top, 0, 1, top, b"-"), (1, top, 0, top, b"book"), (3, 4, 3, 9, b"P&amp;L"),
            (5000000, 5000000, 1, top, b"book"), (0, top, 0, 9999999, b"book")):
        for name in (b"x", b"&gt;x"):
            for whole, line in placed(SMALL_T, task_line(name, before, critical, after, period, resource)):
                made.add(text(SMALL_R), whole, (9, T, line))


# ---- faults that compete

# The faults that a task line can have, in the order in which they are told; with what each alters in the line
# `task x 1 2 3 100 vol`. Two that alter the same field do not go together, nor do the two ways of 8.
COMPETING = (
    ((2,), {0: b"Task"}), ((4, 2), {1: b"y&z"}), ((3,), {2: b"01"}), ((3,), {3: b"+2"}), ((3,), {4: b"10000001"}),
    ((3,), {5: b"0"}), ((4, 7), {6: b"vo&l"}), ((7,), {}), ((5,), {1: b"t0"}), ((6,), {6: b"Vol"}),
    ((8,), {3: b"0"}), ((8,), {6: b"-"}), ((9,), {4: b"99"}),
)


def competing_in_a_line(made, rng):
    for first in range(len(COMPETING)):
        for second in range(first + 1, len(COMPETING)):
            for third in (None, rng.randrange(len(COMPETING))):
                chosen = sorted({first, second} | ({third} if third is not None else set()))
                line = [b"task", b"x", b"1", b"2", b"3", b"100", b"vol"]
                touched = []
                for number in chosen:
                    for place, value in COMPETING[number][1].items():
                        touched.append(place)
                        line[place] = value
                if len(touched) != len(set(touched)) or {10, 11} <= set(chosen):
                    continue
                told = COMPETING[chosen[0]][0]
                count = 64 if any(COMPETING[number][0] == (7,) for number in chosen) else rng.randint(1, 4)
                lines = [task_line(b"t%d" % place, 1, 0, 0, 5) for place in range(count)] + [b" ".join(line)]
                expect = (told[0], T, count + 1)
                if told[0] == 4:
                    expect += (told[1], 2 if told[1] == 2 else 3)
                made.add(b"resource vol\n", text(lines, rng.random() < 0.5), expect)
    # The same for resource lines: the name before full, full before twice.
    lines = [b"resource r%d" % place for place in range(32)]
    made.add(text(lines + [b"resource &"]), b"", (4, R, 33, 2, 1))
    made.add(text(lines + [b"resource -"]), b"", (4, R, 33, 2, 1))
    made.add(text(lines + [b"resource r0"]), b"", (7, R, 33))
    made.add(text(lines + [b"resource  r0"]), b"", (2, R, 33))
    made.add(text(lines + [b""]), b"", (2, R, 33))


def competing_lines(made, rng):
    """Two bad lines in one text, and a bad line in each text."""
    bad_r = ((b"no form", (2,)), (b"resource a&", (4, 2, 2)), (b"resource vol", (5,)), (b"resource -", (4, 2, 1)))
    bad_t = ((b"task  x", (2,)), (b"task x 1 2 3 0 vol", (3,)), (b"task - 1 0 0 1 -", (4, 2, 1)),
             (b"task fit 1 0 0 1 -", (5,)), (b"task x 0 1 0 1 no", (6,)), (b"task x 0 1 0 1 -", (8,)),
             (b"task x 1 0 0 1 vol", (8,)), (b"task x 0 0 0 1 -", (9,)), (b"task x 0 2 0 1 vol", (9,)),
             (b"task x 0 1 0 1 &", (4, 7, 1)))
    for line, told in bad_r:
        expect = (told[0], R, 4) + told[1:]
        for other, _ in bad_r + bad_t:
            made.add(text(SMALL_R + [line, other]), b"", expect)
        for other, _ in bad_t:
            made.add(text(SMALL_R + [line]), text([other] + SMALL_T), expect)
    for line, told in bad_t:
        expect = (told[0], T, 4) + told[1:]
        for other, _ in bad_t:
            made.add(text(SMALL_R), text(SMALL_T + [line, other], rng.random() < 0.5), expect)


# ---- damaged copies

def damaged_bytes(rng, whole):
    if not whole:
        return bytes([rng.randrange(256)])
    at = rng.randrange(len(whole))
    kind = rng.randrange(9)
    if kind == 0:
        return whole[:at] + bytes([rng.randrange(256)]) + whole[at + 1:]
    if kind == 1:
        return whole[:at] + bytes([whole[at] ^ 1 << rng.randrange(8)]) + whole[at + 1:]
    if kind == 2:
        return whole[:at] + whole[at + 1:]
    if kind == 3:
        return whole[:at + 1] + whole[at:]
    if kind == 4:
        return whole[:at] + whole[at + 1:at + 2] + whole[at:at + 1] + whole[at + 2:]
    if kind == 5:
        return whole[:at] + bytes([rng.randrange(256)]) + whole[at:]
    if kind == 6:
        return whole[:at]
    if kind == 7:
        return whole[:at] + rng.choice((b" ", b"\t", b"\r", b"\n", b"\x00", b"&", b";", b"-", b"0")) + whole[at:]
    other = rng.randrange(len(whole))
    first, last = min(at, other), max(at, other)
    return whole[:first] + whole[last:last + 1] + whole[first + 1:last] + whole[first:first + 1] + whole[last + 1:]


def damaged_lines(rng, lines):
    lines = list(lines)
    if not lines:
        return [b""]
    at, other = rng.randrange(len(lines)), rng.randrange(len(lines))
    kind = rng.randrange(10)
    if kind == 0:
        lines[at] = lines[at][:rng.randrange(len(lines[at]) + 1)]
    elif kind == 1:
        lines.insert(other, lines[at])
    elif kind == 2:
        lines[at], lines[other] = lines[other], lines[at]
    elif kind == 3:
        del lines[at]
    elif kind == 4:
        lines.insert(at, b"")
    elif kind == 5:
        lines[at] = rng.choice((b" " + lines[at], lines[at] + b" ", lines[at] + b"\r", lines[at].replace(b" ", b"  ", 1)))
    elif kind == 6:
        lines[at] = rng.choice((lines[at].upper(), lines[at].capitalize(), lines[at].title()))
    else:
        fields = lines[at].split(b" ")
        place = rng.randrange(len(fields))
        mine, theirs = fields[place], rng.choice(lines[other].split(b" "))
        fields[place] = rng.choice((theirs, b"-", b"--", b"0", b"1", mine + b"0", b"0" + mine, mine + b"&amp;",
                                    mine + b"&", mine[1:] or b"x", rng.choice(NO_FIGURES + TOO_LARGE)))
        lines[at] = b" ".join(fields)
    return lines


def damaged(made, rng):
    """Damaged copies of good tables, until there are as many cases as wanted."""
    while len(made.cases) < CASES:
        rlines, tlines = good_lines(rng, rng.randint(1, 4), rng.randint(1, 6), 6)
        for _ in range(4):
            resources, tasks = rlines, tlines
            in_resources = rng.random() < 0.35
            if rng.random() < 0.5:
                if in_resources:
                    resources = damaged_lines(rng, resources)
                else:
                    tasks = damaged_lines(rng, tasks)
            last_lf = rng.random() < 0.7
            resources, tasks = text(resources, last_lf), text(tasks, last_lf)
            for _ in range(rng.choice((0, 1, 1, 2))):
                if in_resources:
                    resources = damaged_bytes(rng, resources)
                else:
                    tasks = damaged_bytes(rng, tasks)
            if rng.random() < 0.01:
                resources, tasks = tasks, resources
            made.add(resources, tasks)


# ---- all of it

def main():
    if len(sys.argv) > 2:
        sys.exit("usage: make_vectors.py [SEED]")
    seed = int(sys.argv[1]) if len(sys.argv) == 2 else DEFAULT_SEED
    rng = random.Random(seed)
    made = Made()
    for group in (good_tables, good_names, good_figures, long_texts, bad_forms, every_byte, bad_figures, bad_names,
                  twice, unknown, full, unmatched, overfull, competing_in_a_line, competing_lines, damaged):
        before = len(made.cases)
        group(made, rng)
        print("%-20s %5d" % (group.__name__, len(made.cases) - before), file=sys.stderr)

    cases, stdout, counts = [], [], [0] * 10
    for number, (resources, tasks) in enumerate(made.cases, 1):
        cases.append(b"case %d %d\n%s%s\n" % (len(resources), len(tasks), resources, tasks))
        stdout.append(b"case %d\n%s" % (number, reader.inventory(resources, tasks)))
        answer = reader.read(resources, tasks)
        counts[answer.number if isinstance(answer, reader.Refusal) else 0] += 1

    top = os.path.join(os.path.dirname(os.path.abspath(__file__)), "..", "..", "crates", "reader_vectors")
    os.makedirs(os.path.join(top, "data"), exist_ok=True)
    for path, parts in ((os.path.join("data", "cases.bin"), cases), ("stdout", stdout)):
        with open(os.path.join(top, path), "wb") as file:
            file.write(b"".join(parts))

    for number, count in enumerate(counts):
        print("%d: %d" % (number, count), file=sys.stderr)
    if counts[1] < 4 or min(counts[2:]) < 100:
        sys.exit("too few cases of some refusal")


if __name__ == "__main__":
    main()
