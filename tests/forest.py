"""A tree of trees on one machine: what it costs, and how soon a command has gone through all of it.

usage: forest.py SMI [--trees N] [--stations S] [--shape PARTSxSIDESxGROUPSxDEVICES]

N lower trees, 16 if not told otherwise, each of 125 domains and 500 devices at S stations, stand for one device each of
an upper tree, by N gateways (docs/PROTOCOL.md, "Trees of trees"). All nodes are started, all devices are reported and
all domains included. One person takes the experiment, includes all trees, and has them go to a run and back. The shape
of a lower tree is 4x5x5x5 if not told otherwise: parts of the root, sides of a part, groups of a side, devices of each.

Each measure is printed: seconds, memory of all nodes and of all gateways, and at rest datagrams a second and how many
processors all of them take. The last line is 'N passed, M failed'.
"""

import argparse
import concurrent.futures
import math
import os
import subprocess
import sys
import tempfile
import time

# it puts tools on the path, so it comes first
import running
import hierarchy
import lines
import lunskaf
import nodes
from consoles import wait_for

GATEWAY = os.path.join(running.ROOT, "tools", "gateway.py")
# How long anything may take, and how long the traffic at rest is counted, in seconds.
PATIENCE, REST = 600, 10
# How many operators a station may have, and so how many trees a station of the upper tree joins.
JOINED = 8
NAMES = """state UNKNOWN
state OFF
state READY
state RUNNING
state LOCAL
action CONFIGURE
action START
action STOP"""
CLASSES = """unitclass UNIT UNKNOWN
accept UNIT CONFIGURE
accept UNIT START
accept UNIT STOP
any UNIT UNKNOWN UNKNOWN
any UNIT LOCAL LOCAL
any UNIT OFF OFF
any UNIT READY READY
any UNIT RUNNING RUNNING
devclass TREE UNKNOWN
devclass DEV UNKNOWN
move DEV OFF CONFIGURE READY
move DEV READY START RUNNING
move DEV RUNNING STOP READY"""


def stations(names, ports):
    return ["station %s 127.0.0.1:%d" % it for it in zip(names, ports)]


def lower_tree(number, places, shape):
    """Returns the lines of a lower tree of a shape, whose parts are at these stations in turn."""
    parts, sides, groups, devices = shape
    made = ["tree %d" % (100 + number), NAMES, *stations(places, nodes.free_ports(len(places)))]
    made += ["operator GATE %s" % places[0], "operator EXPERT %s" % places[0], CLASSES, "domain ROOT %s UNIT -" % places[0]]
    for part in range(parts):
        home, name = places[part % len(places)], "P%d" % part
        made.append("domain %s %s UNIT ROOT" % (name, home))
        for side in range(sides):
            made.append("domain %s_%d %s UNIT %s" % (name, side, home, name))
            for group in range(groups):
                inner = "%s_%d_%d" % (name, side, group)
                made.append("domain %s %s UNIT %s_%d" % (inner, home, name, side))
                made += ["device %s_%d %s DEV" % (inner, device, inner) for device in range(devices)]
    return made


def upper_tree(count):
    """Returns the lines of the upper tree, with a domain and a device for each lower one."""
    joins = ["JOIN%d" % it for it in range((count + JOINED - 1) // JOINED)]
    made = ["tree 99", NAMES, *stations(["TOP", *joins], nodes.free_ports(len(joins) + 1)), "operator LEADER TOP"]
    made += ["operator ASK%d %s" % (it, joins[it // JOINED]) for it in range(count)]
    made += [CLASSES, "domain EXPERIMENT TOP UNIT -"]
    for it in range(count):
        made += ["domain SUB%d %s UNIT EXPERIMENT" % (it, joins[it // JOINED]), "device SUB%d_TREE SUB%d TREE" % (it, it)]
    return made


def processor_seconds(processes):
    """Returns how long these processes have had a processor up to now."""
    words = [running.text_of("/proc/%d/stat" % it.pid).rpartition(")")[2].split() for it in processes]
    return sum(int(it[11]) + int(it[12]) for it in words) / os.sysconf("SC_CLK_TCK")


class Tree:
    """A tree whose nodes run, each with a console."""

    def __init__(self, program, folder, made):
        os.makedirs(folder)
        self.folder, self.path = folder, nodes.write_tree(folder, None, "\n".join(made).splitlines())
        self.tree = hierarchy.read(self.path)
        self.nodes = {it: nodes.Node(program, [self.path, it, os.path.join(folder, it), "--endless", "--console",
                                               self.where(it)]) for it in self.tree.stations}

    def where(self, station):
        return os.path.join(self.folder, station + ".c")

    def wait(self):
        for station, node in self.nodes.items():
            wait_for(self.where(station), node)

    def say(self, station, texts):
        """Gives lines at a station, and returns how many of their answers do not end with 0."""
        given = "".join(it + "\n" for it in texts).encode()
        done = running.run([sys.executable, os.path.join(running.ROOT, "tools", "console.py"), self.where(station)], given,
                           timeout=PATIENCE)
        answers = done[0].decode().splitlines() if done else []
        return len(texts) - sum(it.endswith(" 0") for it in answers)

    def sent(self):
        """Returns how many datagrams its nodes have sent."""
        found = 0
        for station in self.nodes:
            with lunskaf.Node(self.where(station), patience=PATIENCE) as node:
                found += node.counts()["sent"]
        return found


class Forest:
    """The trees, their gateways, and what was measured."""

    def __init__(self, program, folder, count, places, shape):
        self.folder, self.cases, self.gateways = folder, [], []
        self.upper = Tree(program, os.path.join(folder, "u"), upper_tree(count))
        self.lower = [Tree(program, os.path.join(folder, "l%d" % it),
                           lower_tree(it, ["S%d" % place for place in range(places)], shape)) for it in range(count)]
        self.leader = lunskaf.Node(self.upper.where("TOP"), patience=PATIENCE)

    def trees(self):
        return [self.upper, *self.lower]

    def measure(self, name, deed):
        """Does something, prints how long it took, and notes whether it went well. It returns true if it did."""
        begun = time.monotonic()
        is_well = bool(deed())
        print("%-60s %8.2f s" % (name, time.monotonic() - begun), flush=True)
        self.cases.append((name, is_well, "it did not"))

    def wait(self):
        for tree in self.trees():
            tree.wait()
        return True

    def in_each(self, deed):
        """Does something in all lower trees at once. It returns how much of it did not go well."""
        with concurrent.futures.ThreadPoolExecutor(len(self.lower)) as pool:
            return not sum(pool.map(deed, self.lower))

    def report(self):
        """Reports all devices of the lower trees."""
        return self.in_each(lambda tree: sum(tree.say(it, lines.lines(tree.tree, "report", it, "OFF"))
                                             for it in tree.nodes))

    def include_below(self):
        """Includes all domains of each lower tree."""
        return self.in_each(lambda tree: tree.say("S0", lines.lines(tree.tree, "include", "EXPERT", "ROOT")))

    def join(self):
        """Starts the gateways, and waits until each has told the state of its tree."""
        for number, tree in enumerate(self.lower):
            words = [self.upper.where("JOIN%d" % (number // JOINED)), "ASK%d" % number, "SUB%d_TREE" % number,
                     "SUB%d" % number, tree.where("S0"), "GATE", "ROOT", os.path.join(tree.folder, "gateway")]
            with open(os.path.join(tree.folder, "told"), "wb") as told:
                self.gateways.append(subprocess.Popen([sys.executable, GATEWAY, *words], stdin=subprocess.DEVNULL,
                                                      stdout=told, stderr=told))
        return self.all_in("OFF")

    def all_in(self, state):
        """Waits until all trees are in a state above."""
        wanted = {"SUB%d" % it: state for it in range(len(self.lower))}

        def look():
            shown = {it.object: it.state for it in self.leader.states()}
            return {it: shown.get(it) for it in wanted}
        return running.at_last(look, wanted, PATIENCE, 0.01) == wanted

    def include(self):
        """Has one person hold the experiment with all trees."""
        self.leader.take("LEADER", "EXPERIMENT")
        for number in range(len(self.lower)):
            self.leader.include("LEADER", "EXPERIMENT", "SUB%d" % number)
        return all(running.is_so(lambda it=it: self.holder(it) == "GATE", PATIENCE) for it in self.lower)

    def holder(self, tree):
        with lunskaf.Node(tree.where("S0"), patience=PATIENCE) as node:
            return node.ask("EXPERT", "ROOT").holder

    def do(self, action, state):
        def deed():
            self.leader.do("LEADER", "EXPERIMENT", action)
            return self.all_in(state)
        return deed

    def let_go(self):
        for number in range(len(self.lower)):
            self.leader.exclude("LEADER", "EXPERIMENT", "SUB%d" % number)
        return all(running.is_so(lambda it=it: self.holder(it) == "free", PATIENCE) for it in self.lower)

    def costs(self):
        """Prints memory and traffic at rest."""
        processes = [node.child for tree in self.trees() for node in tree.nodes.values()]
        print("%-60s %8d MiB" % ("memory of %d nodes" % len(processes),
                                 sum(map(running.memory_of, processes)) // 1024))
        print("%-60s %8d MiB" % ("memory of %d gateways" % len(self.gateways),
                                 sum(map(running.memory_of, self.gateways)) // 1024))
        before, begun = sum(tree.sent() for tree in self.trees()), time.monotonic()
        used = processor_seconds(processes + self.gateways)
        time.sleep(REST)
        used = processor_seconds(processes + self.gateways) - used
        sent = sum(tree.sent() for tree in self.trees()) - before
        print("%-60s %8.0f a second" % ("datagrams at rest", sent / (time.monotonic() - begun)))
        print("%-60s %8.2f" % ("processors that all take at rest", used / REST), flush=True)

    def end(self):
        for gateway in self.gateways:
            gateway.kill()
            gateway.wait()
        for tree in self.trees():
            for node in tree.nodes.values():
                node.kill()


def main():
    parser = argparse.ArgumentParser()
    parser.add_argument("program")
    parser.add_argument("--trees", type=int, default=16)
    parser.add_argument("--stations", type=int, default=4)
    parser.add_argument("--shape", type=lambda it: [int(number) for number in it.split("x")], default=[4, 5, 5, 5])
    words = parser.parse_args()
    with tempfile.TemporaryDirectory() as folder:
        forest = Forest(os.path.abspath(words.program), folder, words.trees, words.stations, words.shape)
        try:
            print("%d trees: %d domains and %d devices at %d stations, and %d above" % (
                words.trees, sum(len(it.tree.domains) for it in forest.lower), words.trees * math.prod(words.shape),
                words.trees * words.stations, len(forest.upper.nodes)))
            forest.measure("all nodes listen", forest.wait)
            forest.measure("all devices are reported", forest.report)
            forest.measure("all domains below are included", forest.include_below)
            forest.measure("all gateways have told their trees", forest.join)
            forest.costs()
            forest.measure("one person holds all trees", forest.include)
            for action, state in [("CONFIGURE", "READY"), ("START", "RUNNING"), ("STOP", "READY"), ("START", "RUNNING")]:
                forest.measure("%s until all trees are %s above" % (action, state), forest.do(action, state))
            forest.measure("all trees are let go", forest.let_go)
        finally:
            forest.end()
    running.end(forest.cases)


if __name__ == "__main__":
    main()
