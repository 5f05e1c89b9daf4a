"""A link that a forged datagram has shut for good, and `tools/rows.py --settle`, which opens it again."""

import os
import sys

import pytest

import layout
import running
from forgery_test import A, B, TPC, Night
from layout import datagram
from running import at_last

TOOL = os.path.join(running.ROOT, "tools", "rows.py")
# For how long it is watched that an order is not answered, in seconds, and the last epoch that there is.
WAITS, LAST_EPOCH = 1.5, 1 << 62


@pytest.fixture
def night(program, folder, ports, start_node):
    return Night(program, folder, ports, start_node)


def settle(night, *words):
    """Runs the tool over the store of A, and returns what it prints, its faults and its status."""
    out, err, status = running.run([sys.executable, TOOL, night.store("A"), night.tree, *words])
    return out.decode(), err.decode(), status


def forged(night, order):
    """Gives an order that has A take TPC, of which a forged record says that no epoch is left. Returns its answer."""
    node = night.running["A"]
    node.say("order ANN " + order)
    tell = datagram(layout.TELL, **{"from": B}, to=A, subject=TPC, epoch=LAST_EPOCH)

    def is_told():
        night.forge(A, tell)
        return node.next(0.2)
    return is_told() or is_told() or is_told()


@pytest.mark.parametrize("holder, order", [("DCS", "include DCS TPC"), ("ANN", "take TPC")])
def test_settle(night, subtests, holder, order):
    """It is answered 9 and then never again, over starts of all nodes; and as ever, once it is settled."""
    night.start("A")
    assert night.running["A"].ask("order ANN take DCS") == "told ANN take DCS 0"
    assert forged(night, order) == "told ANN %s 9" % order
    night.start("B")
    for start in range(2):
        if start:
            for station in "AB":
                night.start(station)
        with subtests.test("it waits for ever, after %d further starts" % start):
            # (a take is told that one is under way)
            assert night.running["A"].ask("order ANN " + order, WAITS) in (None, "told ANN take TPC 23")
        with subtests.test("a store in use is left as it is"):
            assert settle(night, "--settle", holder, "TPC")[1:] == ("%s: database is locked\n" % night.store("A"), 1)
        for station in "AB":
            night.kill(station)
    before = settle(night)[0]
    for words, told in [(["--settle", "EVE", "TPC"], "no such holder, or no such domain\n"),
                        (["--settle", holder, "MUON"], "no such holder, or no such domain\n"),
                        (["--settle", "BOB", "TPC"], "BOB has no row in this store\n"),
                        (["--settle", holder, "DCS"], "%s knows nothing of DCS\n" % holder)]:
        if (holder, words[2]) == ("ANN", "DCS"):
            continue
        with subtests.test(" ".join(words)):
            assert settle(night, *words)[1:] == (told, 1)
    assert settle(night)[0] == before and "TPC" in before
    out, err, status = settle(night, "--settle", holder, "TPC")
    with subtests.test("the link is gone"):
        assert (err, status, "TPC: " in out) == ("", 0, False)
    with subtests.test("a copy is left"):
        assert os.path.getsize(night.store("A") + ".before-settle") > 0
    for station in "AB":
        night.start(station)
    node = night.running["A"]
    if holder == "ANN":
        with subtests.test("it is answered again"):
            assert node.ask("order ANN " + order) == "told ANN %s 0" % order
    # (the commands that had waited run by themselves)
    held = "told ANN ask TPC %s 1 0 settled 0" % holder
    with subtests.test("the domain is held"):
        assert at_last(lambda: node.ask("order ANN ask TPC"), held) == held
    with subtests.test("nothing is at work"):
        assert " settled " in node.ask("order ANN ask DCS")
