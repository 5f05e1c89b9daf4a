"""The pictures of docs/pictures/, drawn from the examples.

usage: pictures.py SMI --write: draws them again (`make pictures`). tests/pictures_test.py compares them.
"""

import os
import subprocess
import sys
import tempfile

from running import ROOT, example, text_of

# these are in tools/, which running.py puts on the path
import draw
import hierarchy
import play

PICTURES = os.path.join(ROOT, "docs", "pictures")
# Where in the shift the picture of the detector is taken.
MOMENT = "# place the tracker runs alone"


def played(program, tree, schedule):
    """Returns the lines of tools/play.py."""
    words = [sys.executable, os.path.join(ROOT, "tools", "play.py"), program, tree, schedule]
    return subprocess.run(words, stdout=subprocess.PIPE, check=True).stdout.decode().splitlines()


def trace_until(program, tree, lines, folder):
    """Returns the trace of the first lines of a schedule."""
    return play.trace_of(program, tree, os.path.join(folder, "schedule"), play.items_of("\n".join(lines)))


def pictures(program, folder):
    """Returns the pictures of docs/pictures/ as they are drawn now, by their names."""
    shift = text_of(example("shift.schedule")).splitlines()
    trace = trace_until(program, example("detector.tree"), shift[:shift.index(MOMENT)], folder)
    worked = hierarchy.read(example("worked.tree"))
    detector = hierarchy.read(example("detector.tree"))
    story = played(program, example("worked.tree"), example("worked.schedule"))
    return {
        "worked-tree.svg": str(draw.draw_tree(worked, 8)) + "\n",
        "worked-trace.svg": str(draw.draw_trace(story)) + "\n",
        "detector.svg": str(draw.draw_tree(detector, 3, draw.Standing(trace))) + "\n",
    }


def write(program, folder):
    os.makedirs(PICTURES, exist_ok=True)
    for name, text in pictures(program, folder).items():
        with open(os.path.join(PICTURES, name), "w", encoding="ascii") as file:
            file.write(text)


def main():
    if sys.argv[2:] != ["--write"]:
        sys.exit(__doc__)
    with tempfile.TemporaryDirectory() as folder:
        write(os.path.abspath(sys.argv[1]), folder)


if __name__ == "__main__":
    main()
