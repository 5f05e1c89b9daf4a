"""What others do to a store: second nodes by other names, sqlite3 of another program, and stale files beside it."""

import os
import random
import shutil
import subprocess
import sys
import types

import pytest

import consoles
import nodes
from ledgers import Crew, Place, Saved

SEED = 20261201
STORE_FAULT, LINK_FAULT, WELL = ([], ["store fault"], 3), ([], ["link fault"], 3), ([], [], 0)
# How often another program tries to read, and to write.
LOOKS = 20
# The first bytes of a journal that SQLite would play back (its fileformat2, section 3).
MAGIC = bytes.fromhex("d9d505f920a163d7")


@pytest.fixture
def place(program, folder):
    return Place(program, folder)


def worked(place):
    """Returns a node that goes on, and ANN, who has worked with it."""
    node, console = place.start()
    crew = Crew(console, random.Random(SEED), Saved())
    assert crew.work(20, 30) is None and crew.told >= 30
    return node, crew


def test_a_second_node_by_another_name(place, folder, program, subtests):
    """No second node runs on a store, whatever name it has, nor beside the first one on a copy."""
    node, crew = worked(place)
    os.link(place.store, place.store + "2")
    os.symlink(place.store, place.store + "3")
    for end in ("", "-wal", "-tree"):
        shutil.copy(place.store + end, os.path.join(folder, "copy.store" + end))
    other = os.path.join(folder, "other")
    os.mkdir(other)
    tree = nodes.write_tree(other, [nodes.free_ports(1)[0], place.ports[1]])
    for name, words, wanted in [("a hard link", [tree, "A", place.store + "2"], STORE_FAULT),
                                ("a link", [tree, "A", place.store + "3"], STORE_FAULT),
                                ("the same path", [tree, "A", place.store], STORE_FAULT),
                                ("a copy, at the same address", [place.tree, "A", folder + "/copy.store"], LINK_FAULT)]:
        with subtests.test(name):
            assert nodes.ran(program, [*words, "--turns", nodes.FEW]) == wanted
    with subtests.test("the first node goes on"):
        assert crew.work(20, 60) is None and crew.told >= 60
    node.kill()
    with subtests.test("and has lost nothing"):
        assert crew.fault(place.saved()) == ""


# (in a process of its own: locks of one process do not keep out itself)
LOOK = """import sqlite3, sys
for line in sys.stdin:
    file = sqlite3.connect(sys.argv[1], timeout=0.01)
    try:
        file.execute(line)
        file.commit()
        print("done", flush=True)
    except sqlite3.Error as fault:
        print(fault, flush=True)
    file.close()
"""


def test_sqlite_of_another_program(place, subtests):
    """Another program that opens the store of a running node reads nothing, writes nothing, and holds up nothing."""
    node, crew = worked(place)
    other = subprocess.Popen([sys.executable, "-c", LOOK, place.store], stdin=subprocess.PIPE, stdout=subprocess.PIPE,
                             text=True)
    said = set()
    for line in ["SELECT * FROM stable_rows", "DELETE FROM stable_rows", "PRAGMA wal_checkpoint(TRUNCATE)"] * LOOKS:
        other.stdin.write(line + "\n")
        other.stdin.flush()
        said.add(other.stdout.readline().strip())
        assert crew.work(20, crew.told + 1) is None
    other.communicate()
    with subtests.test("it is kept out"):
        assert said == {"database is locked"}
    with subtests.test("the node goes on"):
        assert node.child.poll() is None and crew.told > 3 * LOOKS
    node.kill()
    with subtests.test("and has lost nothing"):
        assert crew.fault(place.saved()) == ""


def test_stale_files(place, subtests):
    """Files that a store never has change nothing, but for a journal that was to be played back."""
    node, crew = worked(place)
    node.kill()
    whole, saved, draw = place.files(), place.saved(), random.Random(SEED)
    for name, more, wanted in [
            ("nothing", {}, WELL),
            ("a shared index of noise", {"-shm": draw.randbytes(32_768)}, WELL),
            ("an unfinished label", {"-tree-new": b"x" * 34}, WELL),
            ("an unfinished sum", {"-sum-new": b"x" * 34}, WELL),
            ("a journal that was to be played back", {"-journal": MAGIC + bytes(4096)}, STORE_FAULT)]:
        place.put({**whole, **more})
        came = place.begun()
        with subtests.test("beside the store: " + name):
            assert came == wanted
        with subtests.test("and all is there: " + name):
            now = place.saved()
            assert crew.fault(now) == "" and now.boot == saved.boot + (wanted == WELL)


def test_no_reader(place, program, folder):
    """A node whose output nobody reads any more goes on for its consoles."""
    there, here = os.pipe()
    node = subprocess.Popen([program, "node", place.tree, "A", place.store, "--endless", "--console", place.where],
                            stdin=subprocess.PIPE, stdout=here, stderr=subprocess.PIPE)
    os.close(there)
    os.close(here)
    try:
        consoles.wait_for(place.where, types.SimpleNamespace(child=node))
        node.stdin.write(b"show DCS\n" * 10)
        node.stdin.flush()
        assert node.stderr.readline() == b"write fault\n"
        crew = Crew(consoles.Console(place.where), random.Random(SEED), Saved())
        assert crew.work(20, 30) is None and crew.told >= 30 and node.poll() is None
    finally:
        node.kill()
        node.communicate()
