"""Each growth of a node refused in turn, on a new store and on one that it has left.

tests/growths.py says what a node may do then. These tests take minutes, so they have a file of their own, which runs
beside the others.
"""

import concurrent.futures
import os

import pytest

import growths
import stores
from growths import MANY, ORDERS

# The program is run once for each of some ten thousand allocations, which takes minutes on a busy machine.
pytestmark = pytest.mark.timeout(3600)
# How many nodes run side by side: nearly all of their time they wait.
NODES = 12


def check_node(made, orders, answers, saves, subtests):
    """Refuses each growth of a node in turn: it does what it should, and leaves the rows of some moment."""
    found = growths.moments(stores.rows_in(made.kept) if made.kept else [], saves)
    whole = made.run("whole", orders, MANY)
    with subtests.test("what it does"):
        assert whole == (("".join("told ANN %s\n" % it for it in answers).encode(), b"", 0), found[-1])
    without = [made.run("without%d" % it, orders[:it] + orders[it + 1:], MANY) for it in range(len(orders))]
    refused, count = list(growths.with_refused(orders, without)), made.count(orders)
    with concurrent.futures.ThreadPoolExecutor(NODES) as pool:
        ends = list(pool.map(lambda it: growths.tried(made, it, orders, whole, refused, found), range(1, count + 1)))
    for growth, came in enumerate(ends, 1):
        with subtests.test("growth %d" % growth):
            assert growths.is_sound(came, whole, refused, found), came
    needed = sum(came != whole for came in ends)
    with subtests.test("all %d, %d of them needed" % (count, needed)):
        assert needed > 0


def test_node(program, folder, refusing, subtests):
    """A node on a new store."""
    made = growths.Nodes(program, folder, refusing)
    check_node(made, ORDERS, ["%s 0" % it for it in ORDERS], growths.saved(), subtests)


def test_node_that_starts_again(program, folder, refusing, subtests):
    """A node on the store that the orders have left."""
    growths.Nodes(program, folder, refusing).run("first", ORDERS, MANY)
    made = growths.Nodes(program, folder, refusing, os.path.join(folder, "first-%d" % MANY, "store"))
    check_node(made, ["ask DCS"], ["ask DCS free 2 0 settled 0"], [((1, 0, 0), "0200000000000002")], subtests)
