"""How long the pages of a node's store are: short ones in a new file, and in any other file those that it has."""

import os
import sqlite3

import pytest

import running
import stores
from nodes import FEW

WELL = ([], [], 0)
# The boot of station 1, once it has begun and once it has begun again.
FIRST, SECOND = [((1, 0, 0), "0200000000000001")], [((1, 0, 0), "0200000000000002")]
SHORT = 512
# How many bytes a store has that is far longer than usual.
LONG = 2_000_000


def pages_of(path):
    """Returns how long the pages of a store are, and how it keeps its log, as Python's own SQLite reads it."""
    with sqlite3.connect(path) as file:
        said = [file.execute("PRAGMA " + name).fetchone()[0] for name in ("page_size", "journal_mode")]
    file.close()
    return said


@pytest.fixture
def path(folder):
    return os.path.join(folder, "store")


@pytest.fixture
def begun(run_node, tree, path):
    """Returns a function that runs a node on the store, and returns how it ended, the rows, and the pages."""
    return lambda: (run_node(tree, "A", path, "--turns", FEW), stores.rows_in(path), pages_of(path))


def test_a_new_store(path, begun, subtests):
    with subtests.test("short pages"):
        assert begun() == (WELL, FIRST, [SHORT, "wal"])
    # The schema, the rows, and the index of their keys.
    with subtests.test("three pages"):
        assert os.path.getsize(path) == 3 * SHORT
    with subtests.test("begun again"):
        assert begun() == (WELL, SECOND, [SHORT, "wal"])


@pytest.mark.parametrize("length", [0, SHORT, 100])
def test_a_file_with_nothing_but_zeros(path, begun, length):
    running.write(path, bytes(length))
    assert begun() == (WELL, FIRST, [SHORT, "wal"])


@pytest.mark.parametrize("size", [SHORT, 1024, 4096, 65536])
def test_a_store_with_pages_of(path, begun, size):
    with sqlite3.connect(path) as file:
        file.execute("PRAGMA page_size = %d" % size)
        file.execute(stores.TABLE)
    file.close()
    assert begun() == (WELL, FIRST, [size, "wal"])


def test_a_long_store(path, begun):
    """A store of some megabytes, nearly all of them free pages, is begun again on its rows."""
    begun()
    with sqlite3.connect(path) as file:
        file.execute("INSERT INTO stable_rows VALUES (2, 1, 0, zeroblob(%d))" % LONG)
        file.commit()
        file.execute("DELETE FROM stable_rows WHERE station = 2")
    file.close()
    assert os.path.getsize(path) > LONG
    assert begun() == (WELL, SECOND, [SHORT, "wal"])
    assert os.path.getsize(path) > LONG
