"""Writes the tables that seats are sought for when measuring.

    python3 bench/make_desks.py OUTDIR

writes the folders OUTDIR/fits, OUTDIR/late and OUTDIR/mixed, each with resources.txt and tasks.txt: 32 resources and 64
tasks.

fits   periods near 10,000,000; the first attempts fail, and a seating is found
late   the same with longer parts: every attempt fails, so that all 15 are made
mixed  periods from 1,000 to 10,000,000, so that searches for a bound take many steps; a seating is found
"""

import os
import random
import sys

RESOURCES = 32
TASKS = 64


def near(outer, inner):
    """Periods near the longest; outer and inner are the greatest shares of the parts before and after, and of the section."""
    def task(dice):
        period = 10_000_000 - dice.randrange(500_000)
        return (int(period * outer * dice.random()), 1 + int(period * inner * dice.random()),
                int(period * outer * dice.random()), period)
    return task


def mixed(dice):
    period = int(10 ** dice.uniform(3, 7))
    return (int(period * 0.06 * dice.random()), 1 + int(period * 0.04 * dice.random()), int(period * 0.06 * dice.random()), period)


def desk(task, seed):
    dice = random.Random(seed)
    resources = "".join("resource r%d\n" % i for i in range(RESOURCES))
    # neighbours by rank share a resource, so that no short period waits for a long section
    rows = sorted((task(dice) for _ in range(TASKS)), key=lambda row: row[3])
    rows = [row + (i * RESOURCES // TASKS,) for i, row in enumerate(rows)]
    return resources, "".join("task t%d %d %d %d %d r%d\n" % ((i,) + row) for i, row in enumerate(rows))


def main():
    for name, task, seed in (("fits", near(0.05, 0.08), 1), ("late", near(0.09, 0.09), 2), ("mixed", mixed, 3)):
        folder = os.path.join(sys.argv[1], name)
        os.makedirs(folder, exist_ok=True)
        resources, tasks = desk(task, seed)
        with open(os.path.join(folder, "resources.txt"), "w") as out:
            out.write(resources)
        with open(os.path.join(folder, "tasks.txt"), "w") as out:
            out.write(tasks)


main()
