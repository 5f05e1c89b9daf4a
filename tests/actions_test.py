"""Actions and reports as a node tells them: each once, and how many were left out if there is no room."""

import os
import statistics
import subprocess
import sys
import threading
import types

import pytest

import lunskaf
import threads
from consoles import LATEST, SOON, TREE, Console, Place, other_asked, timed, wait_for
from running import DEADLINE

# How many actions are told one after the other, and how many reports are given while no client reads what is told.
ACTIONS, UNREAD, TOO_MANY = 1_000, 4_000, 12_000
# How many actions may wait for the front desk, by docs/FORMATS.md; how many devices a domain has at most; and how many
# commands are given while the front desk is stopped, so that actions of some of them are left out.
WAITING, DEVICES, COMMANDS = 8_192, 16, 600
# How many states are recorded at once while memory is refused, how many allocations are refused, each in a run of its
# own, and more of them than any run has.
CHANGES, GROWTHS, NEVER = 60, 8, 1 << 40


@pytest.fixture
def place(folder, start_node):
    """Returns a node with a console."""
    return Place(folder, start_node)


def test_actions(place, subtests):
    """Each action is told once at each device of its domain, moved or not, and nothing that was not done."""
    ann, told = Console(place.where), Console(place.where)
    ann.ask("order ANN take LEFT")
    with subtests.test("actions of one device"):
        assert told.ask("actions L") == "actions 1"
    for order, code, wanted in [("do LEFT GO", 0, "acted L GO 1.1 READY"), ("do LEFT GO", 0, "acted L GO 1.1 READY"),
                                ("do LEFT SLEEP", 1, None), ("do LEFT FALL", 0, "acted L FALL 1.2 OFF")]:
        with subtests.test(order):
            assert ann.ask("order ANN " + order) == "told ANN %s %d" % (order, code)
        if wanted is not None:
            with subtests.test("is told: " + wanted):
                assert told.line() == wanted
    with subtests.test("a report is no action"):
        assert ann.ask("report L READY") == "told report L READY 0"
    with subtests.test("of all devices"):
        assert told.ask("@a actions") == "@a actions 3"
    ann.ask("order ANN take RIGHT")
    ann.ask("order ANN do RIGHT GO")
    with subtests.test("another device is told too"):
        assert told.line() == "@a acted R GO 1.1 READY"
    ann.ask("order ANN do LEFT FALL")
    with subtests.test("and what a report had moved"):
        assert told.line() == "@a acted L FALL 1.4 OFF"
    wanted, found = [], []
    for number in range(ACTIONS):
        action, state = (("GO", "READY"), ("FALL", "OFF"))[number % 2]
        ann.ask("order ANN do LEFT " + action)
        wanted.append("@a acted L %s 1.%d %s" % (action, number + 5, state))
        found.append(told.line())
    with subtests.test("%d actions are told, each once and in their order" % ACTIONS):
        assert found == wanted
    many, found = Console(place.where), []
    reader = threading.Thread(target=lambda: found.extend(iter(told.line, "@a acted R GO 1.1 READY")))
    reader.start()
    many.say("".join("@%d order ANN do LEFT GO\n" % number for number in range(ACTIONS)))
    done = sum(many.line().endswith(" 0") for _ in range(ACTIONS))
    ann.ask("order ANN do RIGHT GO")
    reader.join(DEADLINE)
    with subtests.test("as many are told as were done of orders given at once"):
        assert [done > 0, found] == [True, ["@a acted L GO 1.%d READY" % (ACTIONS + 5)] * done]
    with subtests.test("and no more"):
        assert told.ask("show L") == "board L none"
    standard = place.node.ask("@s actions R")
    with subtests.test("standard input is told behind a tag"):
        assert standard == "@s actions 1"


def with_many_devices(text):
    """Returns the tree with as many devices in a domain of HERE as one may have, and an operator elsewhere."""
    more = "".join("device L%d LEFT DEV\n" % number for number in range(2, DEVICES + 1))
    return text.replace("operator EVE HERE\n", "operator EVE HERE\noperator FAY AWAY\n") + more


def test_missed(folder, start_node, subtests):
    """Actions for which there is no room are counted. The count is told before any later action."""
    place = Place(folder, start_node, tree=with_many_devices(TREE))
    there = os.path.join(folder, "there")
    away = place.start_away("--console", there)
    wait_for(there, away)
    console = Console(place.where)
    devices = ["L"] + ["L%d" % number for number in range(2, DEVICES + 1)]
    with lunskaf.Node(there, patience=DEADLINE) as fay:
        fay.take("FAY", "LEFT")
        with subtests.test("actions of all devices"):
            assert console.ask("actions " + " ".join(devices)) == "actions %d" % DEVICES
        for device in devices:
            place.node.ask("report %s READY" % device)
        fay.do("FAY", "LEFT", "GO")
        told = {console.line() for _ in devices}
        # no action moves a device that is READY already, so none of these is shown in a new state
        lines = ["acted %s GO 1.1 READY" % device for device in devices]
        with subtests.test("each is told"):
            assert told == set(lines)
        with threads.held(place.node.child.pid):
            for _ in range(COMMANDS):
                fay.do("FAY", "LEFT", "GO")
        told = [console.line() for _ in range(WAITING)]
        with subtests.test("as many as may wait are told, in their order"):
            assert told == lines * (WAITING // DEVICES)
        left_out = COMMANDS * DEVICES - WAITING
        with subtests.test("and then how many were left out"):
            assert console.line() == "missed %d" % left_out
        fay.do("FAY", "LEFT", "GO")
        with subtests.test("and then all later ones"):
            assert [console.line() for _ in lines] == lines
    console.close()


@pytest.mark.alone
def test_unread(program, place, subtests):
    """A standard output that is not read delays no client: what is told waits, and at last the standard input ends."""
    place.node.kill()
    child = subprocess.Popen([program, "node"] + [str(word) for word in place.words], stdin=subprocess.PIPE,
                             stdout=subprocess.PIPE, stderr=subprocess.PIPE)
    wait_for(place.where, types.SimpleNamespace(child=child))
    child.stdin.write(b"@f follow L\n")
    child.stdin.flush()
    first = child.stdout.readline().decode()
    with subtests.test("standard input follows"):
        assert first.startswith("@f board L ")
    boot = first.split()[3].split(".")[0]
    steady = Console(place.where)
    lines = ["report L " + ("READY", "OFF")[number % 2] for number in range(UNREAD)]
    told, took = timed(steady.ask, lines)
    with subtests.test("others are answered while nobody reads"):
        assert told == ["told %s 0" % line for line in lines]
    with subtests.test("and soon"):
        assert statistics.median(took) < SOON and max(took) < LATEST
    found = [child.stdout.readline().decode().rstrip() for _ in lines]
    with subtests.test("what was told is there once it is read"):
        assert found == [
            "@f board L %s.%d %s" % (boot, number + 1, ("READY", "OFF")[number % 2]) for number in range(UNREAD)]
    lines = ["report L " + ("READY", "OFF")[number % 2] for number in range(TOO_MANY)]
    told, took = timed(steady.ask, lines)
    with subtests.test("where it is never read they are answered too"):
        assert [told, statistics.median(took) < SOON, max(took) < LATEST] == [
            ["told %s 0" % line for line in lines], True, True]
    with subtests.test("and the standard input ends"):
        assert child.stderr.readline() == b"write fault\n"
    with subtests.test("alone"):
        assert [other_asked(place), child.poll() is None] == ["board L none", True]
    child.kill()
    child.wait()


def told_to(follower, wanted):
    """Returns what one that follows is told up to the last line that is wanted, or None if it is let go before."""
    found = []
    while wanted[-1:] != found[-1:]:
        line = follower.line()
        if line == "":
            return None
        found.append(line)
        if line is None:
            break
    return found


def told_without_memory(start_node, folder, refusing, growth):
    """Refuses one allocation of a node, the first or a later one while it records many states at once.

    Returns these states as they are told, and what each of two connections was told that follow them.
    """
    os.mkdir(folder)
    count = os.path.join(folder, "growths")
    env = {**os.environ, "LD_PRELOAD": refusing, "COUNT": count, "REFUSE": str(NEVER)}
    place = Place(folder, lambda *words: start_node(*words, env=env), tree=with_many_devices(TREE))
    there = os.path.join(folder, "there")
    away = start_node(place.tree, "AWAY", os.path.join(folder, "away"), "--endless", "--console", there)
    wait_for(there, away)
    followers = [Console(place.where) for _ in range(2)]
    assert [it.ask("follow L") for it in followers] == ["board L 1.0 OFF"] * 2
    with lunskaf.Node(there, patience=DEADLINE) as fay:
        fay.take("FAY", "LEFT")
        with threads.held(place.node.child.pid):
            for number in range(CHANGES):
                fay.do("FAY", "LEFT", ("GO", "FALL")[number % 2])
            # the library counts in this file
            with open(count, "r+b") as file:
                file.write((NEVER - growth).to_bytes(8, sys.byteorder))
    wanted = ["board L 1.%d %s" % (number + 1, ("READY", "OFF")[number % 2]) for number in range(CHANGES)]
    told = [told_to(it, wanted) for it in followers]
    for node in (place.node, away):
        node.kill()
    return wanted, told


def test_no_memory(folder, start_node, refusing, subtests):
    """A connection that follows is told all states, or is let go if memory was refused: it never lacks one unseen."""
    ends = set()
    for growth in range(1, GROWTHS + 1):
        wanted, told = told_without_memory(start_node, os.path.join(folder, str(growth)), refusing, growth)
        with subtests.test("allocation %d" % growth):
            assert all(it in (wanted, None) for it in told)
        ends.add(tuple(it is None for it in told))
    with subtests.test("all are let go if a state can't be recorded"):
        assert (True, True) in ends
