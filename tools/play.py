"""Runs a schedule and prints its trace with each line of the schedule, as a comment, above what it leaves.

usage: play.py SMI TREE SCHEDULE

What stands above the first of them is the start of all stations. tools/draw.py draws such a text.

The simulator runs once. To see where what a line leaves ends, each is followed by an order at a station that the tree
is given for it, by an operator who has nothing to drop: it changes and sends nothing, and leaves one line. So the tree
has to have room for one more station and operator.
"""

import os
import re
import subprocess
import sys
import tempfile

import hierarchy


def numbered_items(text):
    """The lines of a schedule that let something happen, each with its number."""
    return [(number, line.strip()) for number, line in enumerate(text.splitlines(), 1)
            if line.split() and not line.split()[0].startswith("#")]


def items_of(text):
    """The lines of a schedule that let something happen."""
    return [item for _, item in numbered_items(text)]


def trace_of(program, tree, path, items):
    """The lines of the trace of so many items."""
    with open(path, "w", encoding="ascii") as file:
        file.write("".join(item + "\n" for item in items))
    done = subprocess.run([program, "sim", tree, path], stdout=subprocess.PIPE, stderr=subprocess.PIPE, check=True)
    return done.stdout.decode().splitlines()


def mark_of(tree):
    """A name that the tree has not."""
    taken = {*tree.stations, *tree.operators, *tree.domains, *tree.devices}
    return next(name for name in ("MARK%d" % place for place in range(len(taken) + 1)) if name not in taken)


def marked_tree(text, mark):
    """The tree file with a station and an operator of that name after all others."""
    return "%s\nstation %s 127.0.0.1:1\noperator %s %s\n" % (text, mark, mark, mark)


def parts_of(lines, end):
    """The lines up to each that marks an end, and at last those after it."""
    part = []
    for line in lines:
        if line == end:
            yield part
            part = []
        else:
            part.append(line)
    yield part


def play(program, tree, items):
    """Each item, nothing for the start, with the lines that it leaves."""
    with open(tree, encoding="ascii") as file:
        text = file.read()
    declared = hierarchy.of_lines(text.splitlines())
    mark = mark_of(declared)
    order = "%s drop %s" % (mark, next(iter(declared.domains)))
    with tempfile.TemporaryDirectory() as folder:
        path = os.path.join(folder, "tree")
        with open(path, "w", encoding="ascii") as file:
            file.write(marked_tree(text, mark))
        marked = [line for item in [None, *items] for line in ([item] if item else []) + ["order " + order]]
        trace = trace_of(program, path, os.path.join(folder, "schedule"), marked)
    trace.remove("booted %s 1" % mark)
    # what comes after the last end is nothing
    for item, lines in zip([None, *items], parts_of(trace, "told %s 21" % order)):
        yield item, lines


def told_of(fault, numbers):
    """What the simulator told of a fault, with the line's own number: every second line that it read is an item."""
    return re.sub(r"(?<=schedule line )\d+", lambda line: str(numbers[int(line[0]) // 2 - 1]), fault.stderr.decode())


def main():
    if len(sys.argv) != 4:
        sys.exit(__doc__.split("\n\n")[1])
    program, tree, schedule = sys.argv[1:]
    with open(schedule, encoding="ascii") as file:
        found = numbered_items(file.read())
    numbers, items = [number for number, _ in found], [item for _, item in found]
    try:
        for item, lines in play(os.path.abspath(program), tree, items):
            print("\n".join(([] if item is None else ["# " + item]) + lines))
    except subprocess.CalledProcessError as fault:
        sys.stderr.write(told_of(fault, numbers))
        sys.exit(fault.returncode)


if __name__ == "__main__":
    main()
