"""What becomes of bits that a disk forgets of a store: how many are told, and how many change its state unseen.

usage: rot.py [--flips N] [--seed N] PROGRAM

A node takes and drops a domain sixty times and is killed, so that all is in its log. Then one bit of the log is flipped
at a time, anywhere in it, and the node started again; and the same of the file of a store that was closed. A line is
printed for each of the two: how many flips were told, how many left all rows as they were, and how many led to other
rows unseen, as sqlite3 finds them before the start. Boots do not count, because each start makes one.
"""

import argparse
import os
import random
import shutil
import sqlite3
import struct
import subprocess
import tempfile

import nodes
import stores
from running import read, write

HEADER, FRAME_HEADER = 32, 24
# How often the domain is taken and dropped.
ROUNDS = 60
BOOT = (1, 0, 0)


def sum_of(big, before, data):
    """Returns the sum of a log that goes on over some bytes from the sum before."""
    first, second = before
    for one, other in struct.iter_unpack(">II" if big else "<II", data):
        first = (first + one + second) & 0xFFFFFFFF
        second = (second + other + first) & 0xFFFFFFFF
    return first, second


def frames_of(log):
    """Returns of each frame of a log where it begins and whether a save ends with it, as far as the log is whole, and
    how many bytes a frame has: by the layout of SQLite's write-ahead log (its fileformat2, section 4)."""
    big, size = log[3] & 1, FRAME_HEADER + struct.unpack(">I", log[8:12])[0]
    before, found = struct.unpack(">II", log[24:32]), []
    for at in range(HEADER, len(log) - size + 1, size):
        frame = log[at:at + size]
        page, pages = struct.unpack(">II", frame[:8])
        before = sum_of(big, sum_of(big, before, frame[:8]), frame[FRAME_HEADER:])
        if page == 0 or frame[8:16] != log[16:24] or frame[16:24] != struct.pack(">II", *before):
            break
        found.append((at, pages != 0))
    return found, size


def flipped(data, at, bit):
    """Returns bytes in which one bit is another."""
    return data[:at] + bytes([data[at] ^ 1 << bit]) + data[at + 1:]


def rows_of(store):
    """Returns the rows of a store but its boot, from a copy of its files, because sqlite3 would empty the log."""
    with tempfile.TemporaryDirectory() as there:
        for end in ("", "-wal"):
            shutil.copy(store + end, os.path.join(there, "store" + end))
        try:
            rows = dict(stores.rows_in(os.path.join(there, "store")))
        except (sqlite3.Error, AssertionError, ValueError) as fault:
            return {"fault": str(fault)}
    return {key: row for key, row in rows.items() if key != BOOT}


def started(program, tree, store):
    """Returns the status with which a node ends that is run on a store for some turns."""
    return subprocess.run([program, "node", tree, "A", store, "--turns", str(nodes.FEW)], stdin=subprocess.DEVNULL,
                          stdout=subprocess.DEVNULL, stderr=subprocess.DEVNULL, check=False).returncode


def figures(program, tree, store, ends, flips, numbers):
    """Flips bits of one of a store's files, which is put back each time, and counts what becomes of them."""
    whole, rows = {end: read(store + end) for end in ("", "-wal", "-tree", "-sum")}, rows_of(store)
    frames, size = frames_of(whole["-wal"])
    length = frames[-1][0] + size if ends == "-wal" else len(whole[ends])
    told = same = unseen = 0

    def put_back():
        for end, data in whole.items():
            write(store + end, data)

    for _ in range(flips):
        put_back()
        write(store + ends, flipped(whole[ends], numbers.randrange(length), numbers.randrange(8)))
        # before the start: a node that runs may save again what was lost
        is_kept = rows_of(store) == rows
        if started(program, tree, store) != 0:
            told += 1
        elif is_kept:
            same += 1
        else:
            unseen += 1
    put_back()
    return told, same, unseen


def main():
    words = argparse.ArgumentParser(usage=__doc__)
    words.add_argument("--flips", type=int, default=300)
    words.add_argument("--seed", type=int, default=20261130)
    words.add_argument("program")
    given = words.parse_args()
    program, numbers = os.path.abspath(given.program), random.Random(given.seed)
    with tempfile.TemporaryDirectory() as folder:
        tree, store = nodes.write_tree(folder, nodes.free_ports(3)), os.path.join(folder, "store")
        one = nodes.Node(program, [tree, "A", store, "--endless"])
        for _ in range(ROUNDS):
            assert one.ask("order ANN take DCS") and one.ask("order ANN drop DCS")
        one.kill()
        for name, end in [("log", "-wal"), ("file", "")]:
            if name == "file":
                assert started(program, tree, store) == 0
            print("%s: %d told, %d with all rows as they were, %d with other rows unseen" % (
                name, *figures(program, tree, store, end, given.flips, numbers)), flush=True)


if __name__ == "__main__":
    main()
