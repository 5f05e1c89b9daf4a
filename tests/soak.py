"""A soak: three nodes behind a proxy that loses, repeats, delays and reorders datagrams, operators that give random
orders, and nodes that are killed and started again on their stores.

usage: soak.py SMI [--seconds S] [--seed N] [--loss P] [--repeat P] [--delay P] [--kills P] [--trace]

The rates are of a datagram's being lost, sent twice, or delayed by up to 300 milliseconds, by which others overtake it;
now and then one of long ago is sent again. --kills is how often a second one of the nodes is killed. All draws come of
the seed, but threads and processes run as they like. At the end it prints what it did and each violation; the last line
is 'N passed, M failed'.

What has to hold: no two operators have a domain at once, by what they were told, from the moment at which one reads
that a take is done to the moment at which the same gives it up; no row goes back, neither a boot, nor the epoch and the
last command of a domain, nor the epoch that an operator knows of; once all nodes are killed, each record's holder knows
of its grant, and each held link's record is that link's, with as many commands as were issued and are not pending; and
no node ends by itself, or tells a fault. At the end an audit of the journals of all nodes says that they were safe.
"""

import argparse
import os
import random
import shutil
import sys
import tempfile
import threading
import time

import nodes
import running
from trials import KILLED, Trial, add_rates, told_of
from verdicts import commanders, unknown_grants

STATIONS = "ABC"
OPERATORS = {"A": ["ANN", "DAN"], "B": ["BOB"], "C": ["CAT"]}
DOMAINS = {"DCS": 1, "TPC": 2, "MUON": 3}
CHILDREN = ["TPC", "MUON"]
ACTIONS = ["CONFIGURE", "START", "STOP"]


def tree_lines(ports):
    """Returns the tree in which the stations have these ports."""
    lines = nodes.tree_lines(ports)
    at = lines.index("operator BOB B")
    middle = ["operator DAN A"] + lines[at:at + 1] + ["operator CAT C"]
    return lines[:at] + middle + lines[at + 1:] + ["device GAS MUON DEV"]


class Soak(Trial):
    """All that runs, and what it was seen to do."""

    def __init__(self, program, folder, said):
        super().__init__(program, folder, said, STATIONS)
        self.orders = self.told = self.kills = 0
        self.write_trees(tree_lines)

    def order(self, draw, operator):
        """Returns a random order of an operator, as it is written."""
        domain = draw.choice(list(DOMAINS))
        kind = draw.choice(["take", "take", "take", "drop", "drop", "do", "do", "do", "include", "exclude", "manual",
                            "ignore", "ask",
                            "watch", "unwatch"])
        more = {"do": ACTIONS, "include": CHILDREN, "exclude": CHILDREN, "manual": CHILDREN,
                "ignore": CHILDREN}.get(kind)
        return " ".join([kind, domain] + ([draw.choice(more)] if more else []))

    def operate(self, name):
        """Gives orders to a node, each after the answer of the one before; where the node is killed, to the next
        one."""
        draw = random.Random("%d %s" % (self.said.seed, name))
        node = self.start(name)
        while not self.is_over.is_set():
            operator = draw.choice(OPERATORS[name])
            order = self.order(draw, operator)
            if draw.random() < 0.1:
                line = draw.choice(["show TPC", "show HV", "report HV READY", "report GAS ERROR", "report HV OFF",
                                    "no line"])
            else:
                line = "order %s %s" % (operator, order)
            self.note("ordered", operator, order) if line.startswith("order") else None
            self.orders += line.startswith("order")
            node = self.answered(name, node, line, operator, order)
            time.sleep(draw.random() * 0.05)
        node.kill()

    def answered(self, name, node, line, operator, order):
        """Waits for the answer to a line, or the end of the node, and gives the node that runs then."""
        try:
            node.say(line)
        except OSError:
            pass
        while not self.is_over.is_set():
            try:
                answer = node.lines.get(timeout=0.05)
            except nodes.queue.Empty:
                if node.child.poll() is None:
                    continue
                return self.begun_again(name, node)
            if line.startswith("order"):
                self.heard(answer, operator, order)
            return node
        return node

    def begun_again(self, name, node):
        """Looks at the end of a node, which may also have served all its turns, and starts it again."""
        self.look_at_end(name, node, (KILLED, 0))
        return self.start(name)

    def heard(self, answer, operator, order):
        head = "told %s %s " % (operator, order)
        if not answer.startswith(head):
            self.violated("`%s` was answered `%s`" % (order, answer))
            return
        self.told += 1
        self.note("told", operator, order, answer[len(head):])
        if self.said.trace:
            print(answer, flush=True)

    def kill(self):
        """Kills a node now and then."""
        draw = random.Random("%d kills" % self.said.seed)
        while not self.is_over.wait(draw.expovariate(self.said.kills) if self.said.kills else 3600):
            name = draw.choice(STATIONS)
            with self.lock:
                node = self.running.get(name)
            if node and node.child.poll() is None:
                node.child.kill()
                self.kills += 1

    def sample(self):
        while not self.is_over.wait(0.2):
            for name in STATIONS:
                self.look_at_rows(name)

    def run(self):
        threads = [threading.Thread(target=self.operate, args=(name,)) for name in STATIONS]
        threads += [threading.Thread(target=it) for it in (self.kill, self.sample)]
        network_is_over = threading.Event()
        network = threading.Thread(target=self.network.run, args=(network_is_over,), daemon=True)
        for thread in [network, *threads]:
            thread.start()
        time.sleep(self.said.seconds)
        self.is_over.set()
        for thread in threads:
            thread.join()
        network_is_over.set()
        self.violations += commanders(self.events) + unknown_grants(self.all_rows())
        self.audit()

    def tell(self):
        """Prints what was done."""
        self.report("soak", "seed %d, %d seconds: %d orders, %d told, %d kills, %d readings of rows; %s" % (
            self.said.seed, self.said.seconds, self.orders, self.told, self.kills, self.samples,
            told_of(self.network.count)))


def cases(soak):
    """Returns what has to hold of a soak: a name, whether it does, and what came."""
    seconds, count = soak.said.seconds, soak.network.count
    found = [("violations", not soak.violations, soak.violations), ("orders were told", soak.told > seconds, soak.told),
             ("nodes were killed", soak.kills > (seconds // 10 if soak.said.kills else -1), soak.kills),
             ("datagrams were passed on", count["passed on"] > seconds, count["passed on"])]
    for what, rate in [("lost", "loss"), ("repeated", "repeat"), ("delayed", "delay")]:
        most = seconds // 10 if soak.network.rates[rate] else -1
        found.append(("datagrams were " + what, count[what] > most, count[what]))
    return [*found, ("rows were read", soak.samples > seconds, soak.samples)]


def arguments(given):
    words = argparse.ArgumentParser(usage=__doc__.split("usage: ")[1].split("\n")[0])
    words.add_argument("program")
    words.add_argument("--seconds", type=int, default=600)
    words.add_argument("--seed", type=int, default=1)
    add_rates(words, 0.2, 0.2, 0.3)
    words.add_argument("--kills", type=float, default=0.5)
    words.add_argument("--trace", action="store_true")
    return words.parse_args(given)


def main():
    said = arguments(sys.argv[1:])
    folder = tempfile.mkdtemp()
    try:
        soak = Soak(os.path.abspath(said.program), folder, said)
        soak.run()
        soak.tell()
    finally:
        shutil.rmtree(folder, ignore_errors=True)
    running.end(cases(soak))


if __name__ == "__main__":
    main()
