"""Trees of trees: tools/gateway.py between two real trees, whose journals are audited and compared with its file.

Above, EXPERIMENT at TOP holds SUB at JOIN, whose one device stands for ROOT below. ROOT at LOW holds PART at DEEP.
"""

import collections
import os
import random
import re
import signal
import sqlite3
import subprocess
import sys
import time

import pytest

import history
import lunskaf
import nodes
import running
from consoles import wait_for
from running import DEADLINE, at_last, is_so

GATEWAY = os.path.join(running.ROOT, "tools", "gateway.py")
# How old an answer may be on which the gateway orders, and what a busy machine adds, in seconds.
WINDOW = 1.0 + 2.0
# How many seconds the play with kills lasts, and the seed of its choices.
SECONDS, SEED = float(os.environ.get("GATEWAY_SECONDS", "25")), int(os.environ.get("GATEWAY_SEED", "7"))

NAMES = """state UNKNOWN
state OFF
state READY
state RUNNING
state LOCAL
action CONFIGURE
action START
action STOP
"""
UNITS = """unitclass UNIT UNKNOWN
accept UNIT CONFIGURE
accept UNIT START
accept UNIT STOP
any UNIT UNKNOWN UNKNOWN
any UNIT LOCAL LOCAL
any UNIT OFF OFF
any UNIT READY READY
any UNIT RUNNING RUNNING
"""
# The class of the device has no moves: what it is in is for the gateway to say.
ABOVE = "tree 70\n" + NAMES + """station TOP 127.0.0.1:%d
station JOIN 127.0.0.1:%d
operator LEADER TOP
operator EXPERT JOIN
operator ASKER JOIN
devclass TREE UNKNOWN
""" + UNITS + """domain EXPERIMENT TOP UNIT -
domain SUB JOIN UNIT EXPERIMENT
device SUB_TREE SUB TREE
"""
BELOW = "tree 71\n" + NAMES + """station LOW 127.0.0.1:%d
station DEEP 127.0.0.1:%d
operator GATE LOW
operator ANN LOW
devclass DEV UNKNOWN
move DEV OFF CONFIGURE READY
move DEV READY START RUNNING
move DEV RUNNING STOP READY
""" + UNITS + """domain ROOT LOW UNIT -
domain PART DEEP UNIT ROOT
device D PART DEV
device R ROOT DEV
"""
# What the file has of an action: its grant and number above, its action, the last number below before it, its end.
Order = collections.namedtuple("Order", "above number action before ended")


class Trees:
    """Two trees, each of two stations, and the gateway between them."""

    def __init__(self, folder, start_node, env=None):
        self.folder, self.start_node, self.env, self.nodes, self.gateway = folder, start_node, env, {}, None
        self.trees, self.file = {}, os.path.join(folder, "gateway")
        for text, stations in ((ABOVE, ("TOP", "JOIN")), (BELOW, ("LOW", "DEEP"))):
            inside = os.path.join(folder, stations[0].lower())
            os.makedirs(inside)
            path = nodes.write_tree(inside, None, (text % tuple(nodes.free_ports(2))).splitlines())
            self.trees.update({station: path for station in stations})
        for station in self.trees:
            self.start(station)
        self.top, self.low = self.client("TOP"), self.client("LOW")

    def where(self, station):
        return os.path.join(self.folder, station + ".c")

    def client(self, station):
        return lunskaf.Node(self.where(station), patience=DEADLINE)

    def night(self, station):
        """Returns the folder of the journals of a station's tree."""
        return os.path.join(os.path.dirname(self.trees[station]), "night")

    def start(self, station):
        """Starts a node, and waits until it listens."""
        words = [self.trees[station], station, os.path.join(self.folder, station), "--endless", "--console",
                 self.where(station), "--journal", self.night(station)]
        self.nodes[station] = self.start_node(*words, env=self.env)
        wait_for(self.where(station), self.nodes[station])
        # devices of this station, as their programs would
        reported = {"LOW": "R", "DEEP": "D"}.get(station)
        if reported:
            with self.client(station) as node:
                node.report(reported, "OFF")

    def kill(self, station):
        self.nodes[station].kill()

    def begin(self):
        """Starts the gateway."""
        words = [self.where("JOIN"), "ASKER", "SUB_TREE", "SUB", self.where("LOW"), "GATE", "ROOT", self.file]
        with open(os.path.join(self.folder, "told"), "ab") as told:
            self.gateway = subprocess.Popen([sys.executable, GATEWAY, *words], stdout=told, stderr=told,
                                            stdin=subprocess.DEVNULL)

    def end(self):
        """Kills the gateway, if it runs."""
        if self.gateway is not None:
            self.gateway.send_signal(signal.SIGKILL)
            self.gateway.wait()
        self.gateway = None

    def told(self):
        return running.text_of(os.path.join(self.folder, "told"))

    def state(self):
        """Returns in which state the device above is."""
        try:
            with lunskaf.Node(self.where("JOIN"), patience=2) as node:
                return {it.object: it.state for it in node.states()}["SUB_TREE"]
        except lunskaf.AWAY:
            return "no answer"

    def is_in(self, state):
        return at_last(self.state, state)

    def orders(self):
        """Returns what the file has of each action. The gateway may not run."""
        base = sqlite3.connect(self.file)
        found = [Order(*it) for it in base.execute("SELECT * FROM orders ORDER BY above, number")]
        base.close()
        return found

    def held(self):
        """Returns which epoch of ROOT belongs to which of SUB. The gateway may not run."""
        base = sqlite3.connect(self.file)
        found = dict(base.execute("SELECT above, below FROM grants"))
        base.close()
        return found


def losing(folder, lost):
    """Returns the environment in which a node loses so many in a hundred of the datagrams that it sends."""
    subprocess.run(["cc", "-shared", "-fPIC", "-O1", "-o", os.path.join(folder, "loses.so"),
                    os.path.join(running.HERE, "loses.c")], check=True)
    # by its name, because a list of paths is split at each space
    return {**os.environ, "LD_PRELOAD": "loses.so", "LD_LIBRARY_PATH": folder, "LOST": str(lost)}


@pytest.fixture
def trees(request, folder, start_node):
    """Returns both trees; a test may say how many datagrams in a hundred are lost."""
    lost = getattr(request, "param", 0)
    made = Trees(folder, start_node, losing(folder, lost) if lost else None)
    with made.client("LOW") as low:
        low.take("ANN", "ROOT")
        low.include("ANN", "ROOT", "PART")
        low.drop("ANN", "ROOT")
    yield made
    made.end()


def test_gateway(trees, subtests):
    """A root below as a device above: taken with its domain, commanded through it, and let go."""
    top, low = trees.top, trees.low
    with subtests.test("UNKNOWN before the gateway runs"):
        assert trees.state() == "UNKNOWN"
    trees.begin()
    with subtests.test("the state of the root"):
        assert trees.is_in("OFF") == "OFF"
    low.take("ANN", "ROOT")
    with subtests.test("LOCAL while somebody holds the root"):
        assert trees.is_in("LOCAL") == "LOCAL"
    for action in ("CONFIGURE", "START"):
        low.do("ANN", "ROOT", action)
    low.drop("ANN", "ROOT")
    time.sleep(1)
    with subtests.test("a run that nobody above has started stays LOCAL"):
        assert trees.state() == "LOCAL"
    top.take("LEADER", "EXPERIMENT")
    top.include("LEADER", "EXPERIMENT", "SUB")
    with subtests.test("the root is held below while its domain is held above"):
        assert at_last(lambda: low.ask("ANN", "ROOT").holder, "GATE") == "GATE"
    with subtests.test("and its run is still not one of the crew above"):
        time.sleep(1)
        assert trees.state() == "LOCAL"
    for action, state in [("STOP", "READY"), ("START", "RUNNING"), ("STOP", "READY"), ("START", "RUNNING")]:
        top.do("LEADER", "EXPERIMENT", action)
        with subtests.test("%s leads to %s" % (action, state)):
            assert trees.is_in(state) == state
    trees.end()
    with subtests.test("UNKNOWN while the gateway is away"):
        assert trees.is_in("UNKNOWN") == "UNKNOWN"
    top.do("LEADER", "EXPERIMENT", "STOP")
    trees.begin()
    with subtests.test("RUNNING goes up again, because it was caused under this grant"):
        assert trees.is_in("RUNNING") == "RUNNING"
    with subtests.test("an action that came meanwhile is told lost"):
        assert is_so(lambda: "number 5 of epoch 1, is lost: it was done while the gateway was away" in trees.told())
    trees.kill("LOW")
    with subtests.test("UNKNOWN while the root can't be asked"):
        assert trees.is_in("UNKNOWN") == "UNKNOWN"
    trees.start("LOW")
    with subtests.test("and then its state again"):
        assert trees.is_in("OFF") in ("OFF", "RUNNING")
    top.exclude("LEADER", "EXPERIMENT", "SUB")
    with subtests.test("the root is let go with its domain"):
        assert at_last(lambda: low.ask("ANN", "ROOT").holder, "free") == "free"
    second = running.run([sys.executable, GATEWAY, trees.where("JOIN"), "ASKER", "SUB_TREE", "SUB", trees.where("LOW"),
                          "GATE", "ROOT", trees.file])
    with subtests.test("a second gateway on the same file ends"):
        assert second[1:] == (("%s: database is locked\n" % trees.file).encode(), 1)
    trees.end()
    with subtests.test("what the file says of each action"):
        assert [(it.number, it.action, it.ended.replace("0, by the record", "0")) for it in trees.orders()] == [
            (1, "STOP", "0"), (2, "START", "0"), (3, "STOP", "0"), (4, "START", "0"),
            (5, "?", "lost: it was done while the gateway was away")]


def test_silent_below(trees, subtests):
    """An action that waits below runs once. What comes later is lost if its grant has ended before its turn."""
    top, low = trees.top, trees.low
    trees.begin()
    with subtests.test("the gateway is there"):
        assert trees.is_in("OFF") == "OFF"
    top.take("LEADER", "EXPERIMENT")
    top.include("LEADER", "EXPERIMENT", "SUB")
    top.do("LEADER", "EXPERIMENT", "CONFIGURE")
    with subtests.test("ready"):
        assert trees.is_in("READY") == "READY"
    trees.kill("DEEP")
    top.do("LEADER", "EXPERIMENT", "START")
    with subtests.test("START waits below"):
        assert at_last(lambda: [it.order for it in low.under_way()], ["do ROOT START"]) == ["do ROOT START"]
    top.do("LEADER", "EXPERIMENT", "STOP")
    top.exclude("LEADER", "EXPERIMENT", "SUB")
    time.sleep(1)
    with subtests.test("the root stays held while something is in work there"):
        assert low.ask("ANN", "ROOT").holder == "GATE"
    trees.start("DEEP")
    with subtests.test("START has ended, and the root is let go"):
        assert at_last(lambda: low.ask("ANN", "ROOT").holder, "free") == "free"
    with subtests.test("STOP is lost"):
        assert is_so(lambda: "STOP, number 3 of epoch 1, is lost: the grant of SUB has ended" in trees.told())
    trees.end()
    with subtests.test("the file says the same"):
        assert [it.ended for it in trees.orders()] == ["0", "0", "lost: the grant of SUB has ended"]
    judge(trees, subtests)


# The judge of both trees

def entries(trees, station):
    """Returns the entries of a tree's journals, by time, without what was typed."""
    night = trees.night(station)
    found = history.lines_of(sorted(os.path.join(night, it) for it in os.listdir(night)))
    return [it for it in found if it.words[0] != "typed"]


def times_of(found, *words):
    """Returns the times of the entries that begin with these words."""
    return [it.time for it in found if it.words[:len(words)] == list(words)]


def grants_of(found, domain):
    """Returns for each odd epoch of a domain when it was granted and when it was freed, or None."""
    granted = {int(it.words[2]): it.time for it in found if it.words[:2] == ["granted", domain]}
    freed = {int(it.words[2]): it.time for it in found if it.words[:2] == ["freed", domain]}
    return {epoch: (at, freed.get(epoch + 1)) for epoch, at in granted.items()}


def faults_between(trees):
    """Returns what is against docs/PROTOCOL.md, "Trees of trees", in the journals of both trees and the file."""
    above, below = entries(trees, "TOP"), entries(trees, "LOW")
    orders, held, faults = trees.orders(), trees.held(), []
    grants = grants_of(above, "SUB")
    ran_above = {(int(it.words[2]), int(it.words[3])): it.words[5] for it in above
                 if it.words[:2] == ["ran", "SUB"] and it.words[4] == "do"}
    given = [it for it in below if it.words[:3] == ["ordered", "GATE", "ROOT"]]
    # each action below is one of the file: at its epoch, in the order of the file
    by_epoch = collections.defaultdict(list)
    for it in given:
        by_epoch[int(it.words[3])].append(it)
    for epoch, its in by_epoch.items():
        belongs = [one for one, other in held.items() if other == epoch]
        wanted = [it for it in orders if it.above in belongs and it.before is not None]
        if len(belongs) != 1:
            faults.append("epoch %d of ROOT belongs to %s" % (epoch, belongs))
            continue
        numbers = [int(it.words[4]) for it in its]
        if numbers != list(range(1, len(its) + 1)):
            faults.append("ROOT has numbers %s at epoch %d" % (numbers, epoch))
        if len(its) > len(wanted):
            faults.append("%d actions were ordered at epoch %d, and the file has %d" % (len(its), epoch, len(wanted)))
        places = {it.before + 1: it for it in wanted}
        for it in its:
            order = places.get(int(it.words[4]))
            if order is None or order.action != it.words[6]:
                faults.append("number %s at epoch %d is %s, of the file %s" % (it.words[4], epoch, it.words[6], order))
            elif ran_above.get((order.above, order.number)) != order.action:
                faults.append("%s has not run above" % (order,))
            else:
                until = grants[order.above][1]
                if until is not None and history.seconds_between(until, it.time) > WINDOW:
                    faults.append("%s was ordered %s, and SUB was freed %s" % (order, it.time, until))
    for it in orders:
        if it.ended and not it.ended.startswith("lost") and it.before is None:
            faults.append("%s has ended and was never ordered" % (it,))
    return faults


def judge(trees, subtests):
    """Audits the journals of both trees, and compares them with each other and with the file."""
    trees.end()
    for station in trees.nodes:
        trees.nodes[station].child.terminate()
        trees.nodes[station].end()
    for station, name in (("TOP", "above"), ("LOW", "below")):
        with subtests.test("the journals %s are safe" % name):
            is_safe, said = nodes.audit(PROGRAM[0], trees.trees[station], trees.night(station))
            assert is_safe or said.startswith("open: "), said
    with subtests.test("both trees fit together"):
        assert faults_between(trees) == []


# The program, for an audit.
PROGRAM = []


@pytest.fixture(autouse=True)
def audited_by(program):
    PROGRAM[:] = [program]


def attempt(call, *words):
    """Gives an order that may fail."""
    try:
        call(*words, patience=1)
    except lunskaf.FAILURES:
        pass


@pytest.mark.alone
@pytest.mark.parametrize("trees", [0, 20], indirect=True, ids="{} in a hundred lost".format)
def test_kills(trees, subtests):
    """Kills of the gateway and of all nodes, while people above and below command: no action is done twice or late."""
    drawn, until = random.Random(SEED), time.monotonic() + SECONDS
    trees.begin()
    people = {station: lunskaf.Node(trees.where(station), patience=1) for station in trees.trees}
    kills = 0
    while time.monotonic() < until:
        what = drawn.random()
        if what < 0.35:
            attempt(people["TOP"].do, "LEADER", "EXPERIMENT", drawn.choice(("CONFIGURE", "START", "STOP")))
        elif what < 0.5:
            attempt(people["TOP"].take, "LEADER", "EXPERIMENT")
            attempt(people["TOP"].include, "LEADER", "EXPERIMENT", "SUB")
        elif what < 0.6:
            attempt(people["TOP"].exclude, "LEADER", "EXPERIMENT", "SUB")
        elif what < 0.7:
            attempt(people["JOIN"].take, "EXPERT", "SUB")
            attempt(people["JOIN"].do, "EXPERT", "SUB", drawn.choice(("START", "STOP")))
            attempt(people["JOIN"].drop, "EXPERT", "SUB")
        elif what < 0.8:
            attempt(people["LOW"].take, "ANN", "ROOT")
            attempt(people["LOW"].do, "ANN", "ROOT", "STOP")
            attempt(people["LOW"].drop, "ANN", "ROOT")
        elif what < 0.9:
            station, kills = drawn.choice(sorted(trees.nodes)), kills + 1
            trees.kill(station)
            trees.start(station)
        else:
            kills += 1
            trees.end()
            trees.begin()
        time.sleep(drawn.random() * 0.3)
    with subtests.test("something was killed"):
        assert kills > 3
    with subtests.test("the gateway runs"):
        assert trees.gateway.poll() is None
    # all comes to rest: what was told has ended
    time.sleep(6)
    judge(trees, subtests)
    orders = trees.orders()
    with subtests.test("actions were ordered, and none is left over"):
        assert [sum(it.ended.startswith("0") for it in orders if it.ended) > 0,
                [it for it in orders if it.ended is None]] == [True, []]
    print("%d kills, %d actions, of which %d are lost" % (
        kills, len(orders), sum(it.ended.startswith("lost") for it in orders)))


@pytest.mark.parametrize("words", [[], ["--state", "A", *"abcdefgh"]], ids=str)
def test_wrong_words(words):
    told = running.run([sys.executable, GATEWAY, *words])
    assert told[0] == b"" and told[2] == 2 and re.match(rb"usage: gateway.py ", told[1])
