"""A second reader of tables, written from docs/FORMATS.md and docs/REFUSALS.md alone.

    python3 tools/second_reader/reader.py FOLDER

prints what the program `inventory` prints for FOLDER/resources.txt and FOLDER/tasks.txt.
"""

import os
import sys
from dataclasses import dataclass, field

LF, SPACE, HYPHEN = b"\n", b" ", b"-"

MOST_BYTES = 32768       # of a text
MOST_NAME_BYTES = 32     # of a decoded name
MOST_RESOURCES, MOST_TASKS = 32, 64
MOST_TICKS = 10_000_000  # of a length and of a period
MOST_DIGITS = 8          # of a figure

ENTITIES = ((b"&amp;", b"&"), (b"&lt;", b"<"), (b"&gt;", b">"), (b"&apos;", b"'"), (b"&quot;", b'"'))

# The refusals, by their numbers.
LONG_TEXT, LINE, FIGURE, NAME, TWICE, UNKNOWN, FULL, UNMATCHED, OVERFULL = range(1, 10)

RESOURCES, TASKS = "resources", "tasks"


@dataclass
class Task:
    name: bytes           # decoded
    before: int
    critical: int
    after: int
    period: int
    resource: int | None  # the place of the resource that it names


@dataclass
class Table:
    resources: list[bytes] = field(default_factory=list)  # decoded names, in the order of their lines
    tasks: list[Task] = field(default_factory=list)       # by rank


@dataclass
class Refusal:
    number: int
    text: str             # RESOURCES or TASKS
    line: int             # from 1; 0 for a text that is too long
    content: bytes        # the line as it stands, without its LF
    field: int | None = None  # from 1; only of a bad name
    byte: int | None = None   # from 1; only of a bad name


class Fault(Exception):
    """What is wrong in a line; `read` adds the text and the line."""

    def __init__(self, number, field=None, byte=None):
        super().__init__(number)
        self.number = number
        self.field = field
        self.byte = byte


# ---- lines and fields

def lines_of(text):
    """The lines of a text, without their LFs."""
    lines = text.split(LF)
    if lines[-1] == b"":
        lines.pop()  # what follows the last LF, or an empty text, is no line
    return lines


def fields_of(line, count, word):
    """The fields of a line that is in form: `count` of them, the first being `word`."""
    fields = line.split(SPACE)
    for each in fields:
        if each == b"":
            raise Fault(LINE)
        for byte in each:
            if byte < 33 or byte > 126:
                raise Fault(LINE)
    if len(fields) != count or fields[0] != word:
        raise Fault(LINE)
    return fields


def entity_at(written, at):
    """The entity that begins at `at`, with what it stands for; None where there is none."""
    for entity, meaning in ENTITIES:
        if written[at:at + len(entity)] == entity:
            return entity, meaning
    return None


def name_of(written, number):
    """The decoded name of the field with that number."""
    if written == HYPHEN:
        raise Fault(NAME, number, 1)
    name = b""
    at = 0
    while at < len(written):
        if len(name) == MOST_NAME_BYTES:  # what begins here would stand for the 33rd byte
            raise Fault(NAME, number, at + 1)
        if written[at:at + 1] == b"&":
            found = entity_at(written, at)
            if found is None:
                raise Fault(NAME, number, at + 1)
            entity, meaning = found
            name += meaning
            at += len(entity)
        else:
            name += written[at:at + 1]
            at += 1
    return name


def figure_of(written, least):
    """The value of a figure from `least` to MOST_TICKS."""
    if len(written) < 1 or len(written) > MOST_DIGITS:
        raise Fault(FIGURE)
    value = 0
    for byte in written:
        if byte < ord("0") or byte > ord("9"):
            raise Fault(FIGURE)
        value = value * 10 + (byte - ord("0"))
    if len(written) > 1 and written[0] == ord("0"):
        raise Fault(FIGURE)
    if value < least or value > MOST_TICKS:
        raise Fault(FIGURE)
    return value


# ---- reading

def read_resource(line, table):
    fields = fields_of(line, 2, b"resource")
    name = name_of(fields[1], 2)
    if len(table.resources) == MOST_RESOURCES:
        raise Fault(FULL)
    if name in table.resources:
        raise Fault(TWICE)
    table.resources.append(name)


def read_task(line, table):
    fields = fields_of(line, 7, b"task")
    name = name_of(fields[1], 2)
    before = figure_of(fields[2], 0)
    critical = figure_of(fields[3], 0)
    after = figure_of(fields[4], 0)
    period = figure_of(fields[5], 1)
    wanted = None if fields[6] == HYPHEN else name_of(fields[6], 7)
    if len(table.tasks) == MOST_TASKS:
        raise Fault(FULL)
    for other in table.tasks:
        if other.name == name:
            raise Fault(TWICE)
    resource = None
    if wanted is not None:
        if wanted not in table.resources:
            raise Fault(UNKNOWN)
        resource = table.resources.index(wanted)
    if (resource is not None) != (critical > 0):
        raise Fault(UNMATCHED)
    total = before + critical + after
    if total < 1 or total > period:
        raise Fault(OVERFULL)
    table.tasks.append(Task(name, before, critical, after, period, resource))


def read(resources, tasks):
    """The table of the two texts, or a refusal."""
    for which, text in ((RESOURCES, resources), (TASKS, tasks)):
        if len(text) > MOST_BYTES:
            return Refusal(LONG_TEXT, which, 0, b"")
    table = Table()
    for which, text, read_line in ((RESOURCES, resources, read_resource), (TASKS, tasks, read_task)):
        for number, line in enumerate(lines_of(text), 1):
            try:
                read_line(line, table)
            except Fault as fault:
                return Refusal(fault.number, which, number, line, fault.field, fault.byte)
    table.tasks.sort(key=lambda task: task.period)  # a stable sort: equal periods keep their order
    return table


# ---- writing

def written_name(name):
    """A decoded name, with entities for the five special characters."""
    out = b""
    for at in range(len(name)):
        one = name[at:at + 1]
        for entity, meaning in ENTITIES:
            if one == meaning:
                one = entity
                break
        out += one
    return out


def written_refusal(refusal):
    out = b"refused %d %s %d\n" % (refusal.number, refusal.text.encode(), refusal.line)
    out += b"  " + refusal.content + LF
    if refusal.number == NAME:
        out += b"  field %d byte %d\n" % (refusal.field, refusal.byte)
    return out


def written_table(table):
    out = b""
    for place, name in enumerate(table.resources):
        users = [rank for rank, task in enumerate(table.tasks) if task.resource == place]
        ceiling = b"%d" % min(users) if users else HYPHEN
        load = 0
        for rank in users:
            task = table.tasks[rank]
            load += (1_000_000 * task.critical + task.period - 1) // task.period  # rounded up
        out += b"resource %s %s %d %d\n" % (written_name(name), ceiling, len(users), load)
    for task in table.tasks:
        resource = HYPHEN if task.resource is None else written_name(table.resources[task.resource])
        out += b"task %s %d %d %d %d %s\n" % (
            written_name(task.name), task.before, task.critical, task.after, task.period, resource)
    return out


def inventory(resources, tasks):
    """What the program `inventory` prints for the two texts."""
    answer = read(resources, tasks)
    if isinstance(answer, Refusal):
        return written_refusal(answer)
    return written_table(answer)


def content_of(path):
    """The bytes of a file; none where it is absent."""
    try:
        with open(path, "rb") as file:
            return file.read()
    except FileNotFoundError:
        return b""


def main():
    if len(sys.argv) != 2:
        sys.exit("usage: reader.py FOLDER")
    folder = sys.argv[1]
    resources = content_of(os.path.join(folder, "resources.txt"))
    tasks = content_of(os.path.join(folder, "tasks.txt"))
    sys.stdout.buffer.write(inventory(resources, tasks))


if __name__ == "__main__":
    main()
