"""A tree that is full: nine stations, each at an address of its own, eight operators at one of them, and one that keeps
all 128 domains with 512 devices. tests/full_test.py runs its nodes.

The stations are at 127.1.2.3, 127.2.3.4 and so on, so that no two octets of an address can change places unseen, and
the busy ones are the fifth, the seventh and the ninth.
"""

import os
import socket

import nodes

# The stations of the crew, of all domains, and of one more operator.
CREW, KEEPER, LAST = 5, 7, 9
STATIONS, OPERATORS, ROOTS, BELOW, DEVICES = 9, 8, 8, 15, 4
HEAD = """tree 640
state OFF
state READY
state RUNNING
action CONFIGURE
action START"""
CLASSES = """devclass DEV OFF
move DEV OFF CONFIGURE READY
move DEV READY START RUNNING
unitclass UNIT OFF
accept UNIT CONFIGURE
accept UNIT START
all UNIT RUNNING RUNNING
all UNIT READY READY
all UNIT OFF OFF"""
DOMAINS = ROOTS * (BELOW + 1)
# Within how many seconds an order has to be answered, on a machine that others use.
SOON = 20


def address(station):
    return "127.%d.%d.%d" % (station, station + 1, station + 2)


def free_port(station):
    """Returns a port that is free at the address of a station, and that no other station has."""
    while True:
        (port,) = nodes.free_ports(1)
        with socket.socket(socket.AF_INET, socket.SOCK_DGRAM) as one:
            try:
                one.bind((address(station), port))
                return port
            except OSError:
                continue


def root(number):
    return "R%d" % number


def child(number, place):
    return "R%d_%d" % (number, place)


def domains():
    """Yields the domains by number: each root right before those below it."""
    for number in range(1, ROOTS + 1):
        yield root(number), "-"
        for place in range(1, BELOW + 1):
            yield child(number, place), root(number)


def tree_lines(ports):
    lines = HEAD.splitlines()
    lines += ["station S%d %s:%d" % (it, address(it), ports[it]) for it in range(1, STATIONS + 1)]
    lines += ["operator OP%d S%d" % (it, CREW) for it in range(1, OPERATORS + 1)]
    lines += ["operator FIRST S1", "operator ALONE S%d" % LAST]
    lines += CLASSES.splitlines()
    lines += ["domain %s S%d UNIT %s" % (name, KEEPER, above) for name, above in domains()]
    lines += ["device %s_D%d %s DEV" % (name, place, name) for name, _ in domains()
              for place in range(1, DEVICES + 1)]
    return lines


class Detector:
    """The nodes of the tree, at their addresses."""

    def __init__(self, folder, start_node):
        self.folder, self.start_node = folder, start_node
        ports = {station: free_port(station) for station in range(1, STATIONS + 1)}
        self.tree = nodes.write_tree(folder, None, tree_lines(ports))
        self.nodes, self.mute = {}, set()

    def store(self, station):
        return os.path.join(self.folder, "S%d.store" % station)

    def start(self, station):
        self.nodes[station] = self.start_node(self.tree, "S%d" % station, self.store(station), "--endless")
        self.mute.discard(station)

    def ask(self, station, line):
        """Returns what a node answers, or None if it is late, and then always, because lines wait for earlier ones."""
        try:
            answer = None if station in self.mute else self.nodes[station].ask(line, SOON)
        except BrokenPipeError:
            answer = None
        if answer is None:
            self.mute.add(station)
        return answer

    def end(self):
        for node in self.nodes.values():
            node.kill()
