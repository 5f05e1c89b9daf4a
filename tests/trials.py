"""A trial of nodes: they run on their stores behind a bad network, and what they tell and save is judged."""

import os
import subprocess
import threading
import time

import nodes
import running
from bad_network import Network
from verdicts import Ranks

# What a node that is killed ends with.
KILLED = -9


class Trial:
    """The nodes of a tree, the network between them, what was seen of them, and what was wrong with that."""

    def __init__(self, program, folder, said, stations, **how):
        self.program, self.folder, self.said = program, folder, said
        self.ports = dict(zip(stations, nodes.free_ports(len(stations))))
        rates = {"loss": said.loss, "repeat": said.repeat, "delay": said.delay}
        self.network = Network(self.ports, rates, said.seed, **how)
        self.lock, self.is_over = threading.Lock(), threading.Event()
        self.running, self.events, self.violations = {}, [], []
        self.ranks, self.samples, self.audited = Ranks(), 0, ""
        self.night = os.path.join(folder, "night")

    def write_trees(self, lines_of):
        """Writes for each station the tree that its node reads: it has its own port, and the network's for all others.
        """
        for own in self.ports:
            seen = [self.network.port_for(name, own, port) for name, port in self.ports.items()]
            running.write(self.path("tree", own), "\n".join(lines_of(seen)) + "\n")

    def path(self, what, name):
        return os.path.join(self.folder, "%s %s" % (what, name))

    def violated(self, text):
        with self.lock:
            self.violations.append(text)

    def note(self, *event):
        """Notes an event with its moment: `ordered` or `told`, the operator, the order, and the answer."""
        with self.lock:
            self.events.append((time.monotonic(), *event))

    def start(self, name, *more):
        node = nodes.Node(self.program, [self.path("tree", name), name, self.path("store", name),
                                         "--journal", self.night, *more])
        with self.lock:
            self.running[name] = node
        return node

    def look_at_end(self, name, node, statuses=(KILLED,)):
        """Waits for the end of a node, which may have told nothing but faults of lines and has one of these statuses.
        """
        ended = node.end()
        _, err, status = ended or (None, [], "that never came")
        faults = [it for it in err if not it.startswith("line ")]
        if faults or status not in statuses:
            self.violated("node %s ended with status %s and told %s" % (name, status, faults))

    def rows(self, name):
        """Returns the rows of a store, by key, as `smi rows` lists them. There are none if it can't be read just then.
        """
        if not os.path.exists(self.path("store", name)):
            return {}
        done = subprocess.run([self.program, "rows", self.path("store", name)], stdout=subprocess.PIPE,
                              stderr=subprocess.DEVNULL, check=False)
        lines = [line.split() for line in done.stdout.decode().splitlines()]
        return {tuple(map(int, line[:3])): bytes.fromhex(line[3]) for line in lines} if done.returncode == 0 else {}

    def look_at_rows(self, name):
        """Looks at the rows of a store, none of which may go back, and returns them."""
        rows = self.rows(name)
        with self.lock:
            self.samples += 1
            self.violations += self.ranks.faults(rows)
        return rows

    def all_rows(self):
        """Looks at the rows of all stores, and returns them."""
        return {key: value for name in self.ports for key, value in self.look_at_rows(name).items()}

    def audit(self):
        """Checks that the journals of all nodes tell a safe trace."""
        is_safe, self.audited = nodes.audit(self.program, self.path("tree", next(iter(self.ports))), self.night)
        if not is_safe:
            self.violated("the audit says: " + self.audited)

    def report(self, name, text):
        """Prints what was done, what the audit said, and each violation."""
        print("%s: %s" % (name, text))
        print("%s: %s" % (name, self.audited))
        for violation in self.violations:
            print("VIOLATION " + violation)
        print("%s: %d violations" % (name, len(self.violations)), flush=True)


def add_rates(words, loss, repeat, delay):
    """Adds the options that say what the network does, with the rates if nothing is said."""
    words.add_argument("--loss", type=float, default=loss)
    words.add_argument("--repeat", type=float, default=repeat)
    words.add_argument("--delay", type=float, default=delay)


def told_of(count):
    """Returns what was counted, in words."""
    return ", ".join("%d %s" % (number, what) for what, number in count.items())
