"""Lines of a journal that wait for those of the next step: a node is killed again and again while its own station does
all the work, and what its starts find is all that was lost."""

import glob
import os
import random
import re
import time

import pytest

import nodes
import running

# How many times the node is killed, how long it works at most before, in seconds, and how many orders it has then.
KILLS, WORK, ORDERS = 30, 0.04, 300
# One station keeps three levels of domains, and two people work there.
LEVELS = """tree 17
state OFF
state ON
action GO
action STOP
station A 127.0.0.1:%d
operator ANN A
operator BOB A
devclass DEV OFF
move DEV OFF GO ON
move DEV ON STOP OFF
unitclass UNIT OFF
accept UNIT GO
accept UNIT STOP
all UNIT ON ON
all UNIT OFF OFF
domain TOP A UNIT -
domain MID A UNIT TOP
domain LOW A UNIT MID
device HV LOW DEV
"""


def any_order(rng):
    """Returns an order that somebody may give at any time, though it may be refused."""
    who, (above, below) = rng.choice(["ANN", "BOB"]), rng.choice([("TOP", "MID"), ("MID", "LOW")])
    which = rng.choice(["TOP", "MID", "LOW"])
    return "order %s %s" % (who, rng.choice([
        "take " + which, "take " + which, "drop " + which, "drop " + which, "do %s GO" % which, "do %s STOP" % which,
        "include %s %s" % (above, below), "exclude %s %s" % (above, below)]))


class Killed:
    """A node that is killed again and again, and the night that it leaves."""

    def __init__(self, program, folder, lines):
        self.program, self.folder = program, folder
        self.tree = running.write(os.path.join(folder, "tree"), lines)
        self.night = os.path.join(folder, "night")

    def work(self, rng, seconds):
        """Starts the node, has it do orders for a time, and kills it."""
        words = [self.tree, "A", os.path.join(self.folder, "store"), "--journal", self.night]
        node = nodes.Node(self.program, words)
        assert node.ask("order ANN ask TOP") is not None
        node.say("\n".join(any_order(rng) for _ in range(ORDERS)))
        time.sleep(seconds)
        node.kill()

    def audit(self):
        """Returns what an audit of the night prints, and its status."""
        files = sorted(glob.glob(os.path.join(self.night, "*.journal")))
        out, err, status = running.run([self.program, "audit", self.tree, *files])
        return (out + err).decode(), status


@pytest.mark.parametrize("seed", [1, 2])
def test_kills_between_steps(program, folder, seed):
    killed, rng = Killed(program, folder, LEVELS % nodes.free_ports(1)[0]), random.Random(seed)
    for _ in range(KILLS):
        killed.work(rng, rng.uniform(0, WORK))
    out, status = killed.audit()
    assert (out.split(":")[0], status) == ("safe", 0), out


# What the last two steps of an order leave, before it is told.
LAST = [("take TOP", ["granted TOP 1 ANN", "learned ANN TOP 1"]), ("drop TOP", ["letgo ANN TOP 1", "freed TOP 2"])]


@pytest.mark.parametrize("order, lines", LAST, ids=[order for order, _ in LAST])
def test_a_start_finds_two_steps(program, folder, order, lines):
    """The lines of two steps are taken away, as a kill does when the first of them waits."""
    killed = Killed(program, folder, LEVELS % nodes.free_ports(1)[0])
    words = [killed.tree, "A", os.path.join(folder, "store"), "--journal", killed.night]
    node = nodes.Node(program, words)
    for it in ["take TOP", "drop TOP"][:1 + (order == "drop TOP")]:
        assert node.ask("order ANN " + it) == "told ANN %s 0" % it
    node.kill()
    path, = glob.glob(os.path.join(killed.night, "*.journal"))
    text = running.text_of(path)
    said = [line.split(" ", 3)[3] for line in text.splitlines()[1:]]
    place = said.index(lines[0])
    assert [it for it in said[place:] if not it.startswith("showed ")] == [*lines, "told ANN %s 0" % order]
    running.write(path, "".join(text.splitlines(keepends=True)[:1 + place]))
    node = nodes.Node(program, words)
    assert node.ask("order ANN ask TOP") is not None
    node.kill()
    out, status = killed.audit()
    assert (out.split(":")[0], status) == ("safe", 0), out
    assert re.findall(r"(?m)^told by a start: \S+ line 2: (.*)$", out) == lines
