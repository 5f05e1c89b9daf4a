"""Kills, disks that fail, damaged stores, clocks that jump, signals and little memory: nothing that was told is lost.

The parts are those of tests/disk_faults.py.
"""

import random

import pytest

import disk_faults
import ledgers
from disk_faults import PARTS
from ledgers import Crew, Place, Saved

SEED = 20261201
# How much is done of each part.
AMOUNTS = {"kills": 20, "faults": 6, "damages": 15, "clocks": 1, "signals": 1, "limits": 1}


@pytest.mark.parametrize("name", PARTS)
def test_part(program, folder, name, subtests):
    for case, is_so, came in PARTS[name][0](program, folder, random.Random(SEED), AMOUNTS[name]):
        with subtests.test(case):
            assert is_so, came


@pytest.mark.alone
def test_a_clock_that_jumped_costs_nothing(program, folder):
    """A node whose clock was far ahead and is right again leaves the processor alone."""
    place, faults = Place(program, folder), disk_faults.Faults(folder)
    node, console = place.start(env=faults.env)
    try:
        for ahead in (disk_faults.YEARS, 0):
            faults.set(monotonic=ahead)
            assert console.ask("order ANN ask DCS")
        assert disk_faults.share_of_processor(node.child, 2) < 0.25
    finally:
        node.kill()
        console.close()


def test_each_kind_of_fault_is_made(program, folder, subtests):
    """A node whose disk refuses every write, sync or read ends with a line, and one whose cuts fail may go on."""
    place, faults = Place(program, folder), disk_faults.Faults(folder)
    for name, of in disk_faults.KINDS.items():
        place.put({})
        disk_faults.live(place, random.Random(SEED), 10)
        faults.set(calls=0, made=0, first=1, many=-1, error=5, what=of, done=0)
        node, console = place.start(env=faults.env)
        if console:
            Crew(console, random.Random(SEED), place.saved()).work(10, 40)
            console.close()
        is_ended = ledgers.has_ended(node, 0.5)
        node.kill()
        with subtests.test(name + ": seen"):
            assert faults.get("calls") > 0
        with subtests.test(name + ": faults are made"):
            assert faults.get("made") > 0 or name == "cuts"
        with subtests.test(name + ": the node ends"):
            assert is_ended or name in ("cuts", "half writes")


def test_what_is_lost_is_seen(program, folder, subtests):
    """An older store, a lost command, and more than was ordered: each is told."""
    place, draw = Place(program, folder), random.Random(SEED)
    node, console = place.start()
    crew = Crew(console, draw, Saved())
    assert crew.work(10, 20) is None
    older = place.files()
    assert crew.work(10, 60) is None and crew.told >= 60
    while not (crew.holds and crew.last > 0):
        assert (crew.command() if crew.holds else crew.change())[1] is None
    node.kill()
    console.close()
    now = place.saved()
    with subtests.test("what is there is well"):
        assert crew.fault(now) == ""
    place.put(older)
    with subtests.test("an older store"):
        assert "is lost" in crew.fault(place.saved())
    for name, changes, wanted in [
            ("a lost command", {"last": now.last - 1}, "an answered command is lost"),
            ("a lost change of hands", {"epoch": now.epoch - 1}, "an answered change of hands is lost"),
            ("a lost answer", {"known": (now.known[0], now.known[1] - 1)}, "an answer is lost"),
            ("too many commands", {"last": now.last + 99}, "more commands than were ordered"),
            ("too many changes", {"epoch": now.epoch + 9}, "more changes of hands than were ordered")]:
        with subtests.test(name):
            assert crew.fault(now._replace(**changes)).startswith(wanted)
