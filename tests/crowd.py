"""A crowd of nodes: what they cost at rest, how soon they answer, and that they do, whatever is lost, killed or sent.

usage: crowd.py SMI [--stations N] [--fan-out F] [--devices D] [--loss P] [--rounds R] [--seed N] [--patience S]
                [--slack F]

N stations, each a process with a domain and D devices, stand in a tree in which a domain has up to F children; one
operator works at the root's station. First they speak to each other directly, then through a proxy that loses a share P
of all datagrams. At both times random stations are killed and started again while a command goes through all of them.

Then an order is given for a station that is not there yet, at a node that five, sixteen and sixty other stations watch
(or as many as --watchers says), each every ten milliseconds, and at one that is sent a flood: bytes that every station
refuses, and watches of sixty stations. The station comes up, and the order has to be answered.

Each measure is printed with its limit; of several times the one in the middle and the longest. An order that is not
answered for S seconds counts as not answered, and nothing more is asked of that node. On a machine that others use
the limits may be F times as wide, as they are in the gate. With --only crowd or --only late one half is run. The last
line is 'N passed, M failed'.
"""

import argparse
import glob
import os
import random
import shutil
import statistics
import sys
import tempfile
import time

import layout
import nodes
import running
import stores
import verdicts
import wires

TREE = 17
HEAD = """state OFF
state READY
state RUNNING
state ERROR
action CONFIGURE
action START
action STOP"""
CLASSES = """devclass DEV OFF
move DEV OFF CONFIGURE READY
move DEV READY START RUNNING
move DEV RUNNING STOP READY
unitclass UNIT OFF
accept UNIT CONFIGURE
accept UNIT START
accept UNIT STOP
any UNIT ERROR ERROR
all UNIT RUNNING RUNNING
all UNIT READY READY
all UNIT OFF OFF"""
# What a tree file may have at most, and what one domain has (docs/FORMATS.md, "Limits of a tree file").
MOST_STATIONS, MOST_DEEP, MOST_CHILDREN, MOST_DEVICES = 128, 8, 16, 512
# An order is to be answered within this many seconds of the moment from which it can be; of many orders one after the
# other each takes so long in the middle.
SOON, EACH = 0.5, 0.1
# How long all stations may take to come up, how much of a second each may keep a processor busy at rest, and how many
# MiB of memory it may take.
UP, BUSY, LARGE = 10, 0.02, 16
# How many datagrams a second there may be for each child: a station that ticks a hundred times a second repeats its
# watch as often, and each is answered; and a tenth more.
REPEATS = 220
# How long a station is away, and how long a crowd at rest is looked at.
AWAY, REST = 0.3, 3
# How many stations watch, how often each sends its watch, in seconds, and how many do in a flood of watches.
WATCHERS, PERIOD, MANY = (5, 16, 60), 0.01, 60
# How many datagrams a second a flood has, and what share of what is to be sent counts as sent.
FLOOD, SHARE = 100_000, 0.25


class Table:
    """The measures, each with its figure and its limit, and whether it keeps it."""

    def __init__(self, slack):
        self.cases, self.slack = [], slack

    def add(self, name, figure, limit, held):
        self.cases.append((name, held, figure))
        print("%-64s %-30s %-24s %s" % (name, figure, limit, "passed" if held else "FAILED"), flush=True)

    def add_count(self, name, found, most, unit=""):
        """A figure that may be so large at most."""
        written = "%.0f%s" if most > 1000 else "%.3g%s"
        self.add(name, written % (found, unit), written % (most, unit), found <= most)

    def add_times(self, name, took, limit=SOON):
        """How long some orders took, each None where it was not answered, or not so."""
        found, limit = [it for it in took if it is not None], limit * self.slack
        if len(found) < len(took) or not took:
            self.add(name, "%d of %d in time" % (len(found), len(took)), "%g s" % limit, False)
            return
        middle, worst = 1e3 * statistics.median(found), 1e3 * max(found)
        figure = "%.1f ms" % worst if len(found) == 1 else "%.1f ms, at most %.1f ms" % (middle, worst)
        self.add(name, figure, "%g s" % limit, max(found) <= limit)


class Console:
    """Whoever types at a node: one order after the other, and none after one that was not answered."""

    def __init__(self, node, patience):
        self.node, self.patience, self.given, self.answered = node, patience, 0, 0

    def say(self, line):
        if self.given == self.answered:
            self.given += 1
            self.type(line)

    def type(self, line):
        """Types a line; a node that has ended hears nothing."""
        try:
            self.node.say(line)
        except OSError:
            pass

    def answer(self):
        """Returns the next line that the node prints, or an empty one if none comes in time."""
        try:
            return self.node.lines.get(timeout=self.patience)
        except nodes.queue.Empty:
            return ""

    def hears(self, wanted):
        """Returns true if the order that was typed is answered so."""
        told = self.answer() if self.given > self.answered else ""
        self.answered += bool(told)
        return told == wanted

    def shows(self, name):
        """Returns the state that the node shows of an object."""
        self.type("show " + name)
        return self.answer().split(" ")[-1]

    def order(self, order):
        """Returns how long an order took that is answered with 0."""
        begun = time.monotonic()
        self.say("order ANN " + order)
        return time.monotonic() - begun if self.hears("told ANN %s 0" % order) else None


def processor_seconds(node):
    """Returns how long a process has had a processor."""
    total = 0
    for path in glob.glob("/proc/%d/task/*/schedstat" % node.child.pid):
        total += int(running.text_of(path).split()[0])
    return total / 1e9


def memory(node):
    """Returns how much memory a process holds, in MiB."""
    return running.memory_of(node.child) / 1024


# A crowd

def parent_of(place, fan_out):
    """Returns the domain above one, both by their numbers, 0 for the root."""
    return (place - 2) // fan_out + 1 if place > 1 else 0


def depth_of(place, fan_out):
    return 1 + depth_of(parent_of(place, fan_out), fan_out) if place else 0


def crowd_lines(said, ports):
    """Returns a tree file in which station K has the K-th port, domain K and its devices."""
    places = range(1, said.stations + 1)
    lines = ["tree %d" % TREE, HEAD]
    lines += ["station S%d 127.0.0.1:%d" % it for it in zip(places, ports)]
    lines += ["operator ANN S1", CLASSES]
    for place in places:
        above = parent_of(place, said.fan_out)
        lines.append("domain D%d S%d UNIT %s" % (place, place, "D%d" % above if above else "-"))
    return lines + ["device V%d_%d D%d DEV" % (place, number, place) for place in places
                    for number in range(1, said.devices + 1)]


class Crowd:
    """All nodes, each on a store of its own."""

    def __init__(self, program, folder, said):
        self.program, self.folder, self.said = program, folder, said
        self.places = range(1, said.stations + 1)
        self.ports = nodes.free_ports(said.stations)
        self.running, self.consoles, self.trees = {}, [], {}
        self.draw, self.ended = random.Random(said.seed), 0
        self.night = os.path.join(folder, "night")

    def store(self, place):
        return os.path.join(self.folder, "store %d" % place)

    def write_trees(self, ports):
        """Writes for each station the tree in which the others have these ports, and it its own."""
        for place, own in zip(self.places, self.ports):
            room = os.path.join(self.folder, "tree %d" % place)
            os.makedirs(room, exist_ok=True)
            seen = list(ports[:place - 1]) + [own] + list(ports[place:])
            self.trees[place] = nodes.write_tree(room, seen, crowd_lines(self.said, seen))

    def start(self, place):
        words = [self.trees[place], "S%d" % place, self.store(place), "--endless", "--journal", self.night]
        self.running[place] = nodes.Node(self.program, words)

    def start_all(self):
        """Starts all nodes, with somebody at the first: how long they take to come up."""
        begun = time.monotonic()
        for place in self.places:
            self.start(place)
        up = max(wires.when_bound(port, UP) for port in self.ports)
        self.consoles.append(Console(self.running[1], self.said.patience))
        return up - begun

    def kill(self, place):
        node = self.running.pop(place)
        self.ended += node.child.poll() is not None
        node.kill()

    def kill_all(self):
        for place in list(self.running):
            self.kill(place)

    def order(self, order):
        return self.consoles[-1].order(order)

    def orders_to_include(self):
        """Yields all orders by which one operator includes every domain, from below.

        Each parent is taken, includes its children, which bring theirs along, and is given back, but for the root.
        """
        children = {}
        for place in self.places[1:]:
            children.setdefault(parent_of(place, self.said.fan_out), []).append(place)
        for above in sorted(children, reverse=True):
            yield from [] if above == 1 else ["take D%d" % above]
            yield from ["include D%d D%d" % (above, place) for place in children[above]]
            yield from [] if above == 1 else ["drop D%d" % above]

    def state_seconds(self, state):
        """Returns how long it takes until the root's station is shown the units of all its children in a state."""
        begun, console = time.monotonic(), self.consoles[-1]
        for place in self.places[1:self.said.fan_out + 1]:
            while console.shows("D%d" % place) != state:
                if time.monotonic() - begun > self.said.patience:
                    return None
        return time.monotonic() - begun

    def command_with_kill(self, action, is_before):
        """A command during which a random station that is not the root's is killed and started again: how long it takes
        from then on."""
        place, console = self.draw.choice(self.places[1:]), self.consoles[-1]
        if is_before:
            self.kill(place)
        console.say("order ANN do D1 " + action)
        if not is_before:
            self.kill(place)
        time.sleep(AWAY)
        self.start(place)
        up = wires.when_bound(self.ports[place - 1], UP)
        told = console.hears("told ANN do D1 %s 0" % action)
        return max(0, time.monotonic() - up) if told else None

    def rows(self):
        """Returns the rows of all stores, by key."""
        return {key: bytes.fromhex(text) for place in self.places for key, text in stores.rows_in(self.store(place))}


def commands(table, crowd, what):
    """Commands through all domains, and the states that they lead to; then commands while stations are killed."""
    rounds = crowd.said.rounds
    took, seen = [], []
    for action, state in [("START", "RUNNING"), ("STOP", "READY")] * rounds:
        took.append(crowd.order("do D1 " + action))
        seen.append(crowd.state_seconds(state) if took[-1] is not None else None)
    table.add_times("commands through all%s" % what, took)
    table.add_times("the states after each, at the root%s" % what, seen)
    for is_before in (True, False):
        took = [crowd.command_with_kill("STOP", is_before) for _ in range(rounds)]
        table.add_times("from the return of a station killed %s a command%s"
                        % ("before" if is_before else "after", what), took)


def rest(table, crowd):
    """Measures what the nodes cost at rest."""
    before = sum(map(processor_seconds, crowd.running.values()))
    begun = time.monotonic()
    time.sleep(REST)
    took = time.monotonic() - begun
    busy = (sum(map(processor_seconds, crowd.running.values())) - before) / took
    table.add_count("at rest: processor seconds a second, of all nodes", busy,
                    BUSY * crowd.said.stations * table.slack)
    middle = statistics.median(map(memory, crowd.running.values()))
    table.add_count("at rest: memory of a node", middle, LARGE, " MiB")


def directly(table, crowd):
    """Measures the crowd without a proxy, from empty stores on."""
    crowd.write_trees(crowd.ports)
    table.add_times("all stations started on empty stores, until they are up", [crowd.start_all()], UP)
    table.add_times("the root taken", [crowd.order("take D1")])
    begun, orders = time.monotonic(), list(crowd.orders_to_include())
    took = [crowd.order(order) for order in orders]
    table.add_times("each of %d orders that include all" % len(orders), took)
    table.add_times("all of these orders together", [time.monotonic() - begun], EACH * len(orders))
    table.add_times("the first command through all", [crowd.order("do D1 CONFIGURE")])
    table.add_times("the states after it, at the root", [crowd.state_seconds("READY")])
    rest(table, crowd)
    commands(table, crowd, "")
    crowd.kill_all()


def behind_proxy(table, crowd):
    """Measures the crowd behind a proxy, on the stores that it has left."""
    ports = nodes.free_ports(crowd.said.stations)
    proxy = wires.Proxy(zip(ports, crowd.ports))
    try:
        crowd.write_trees(ports)
        table.add_times("all stations started on these stores, until they are up", [crowd.start_all()], UP)
        table.add_times("the first command through all after this", [crowd.order("do D1 CONFIGURE")])
        begun, before = time.monotonic(), sum(proxy.lose(0))
        time.sleep(REST)
        found = (sum(proxy.lose(0)) - before) / (time.monotonic() - begun)
        table.add_count("at rest: datagrams a second between all nodes", found, REPEATS * (crowd.said.stations - 1))
        before = proxy.lose(crowd.said.loss)
        commands(table, crowd, ", %g %% lost" % (100 * crowd.said.loss))
        handed_on, lost = (now - then for now, then in zip(proxy.lose(0), before))
        table.add("datagrams lost among these", "%d of %d" % (lost, handed_on + lost), "about %g" % crowd.said.loss,
                  abs(lost / (handed_on + lost) - crowd.said.loss) < 0.05)
    finally:
        proxy.end()
    crowd.kill_all()


def afterwards(table, crowd):
    """Checks what has to hold of all that was done."""
    given, answered = (sum(getattr(it, what) for it in crowd.consoles) for what in ("given", "answered"))
    table.add("orders answered", "%d of %d" % (answered, given), "all", 0 < given == answered)
    table.add_count("nodes that ended by themselves", crowd.ended, 0)
    table.add_count("grants and links that do not fit each other", len(verdicts.unknown_grants(crowd.rows())), 0)
    is_safe, said = nodes.audit(crowd.program, crowd.trees[1], crowd.night)
    table.add("the audit of all journals", said.split(":", maxsplit=1)[0], "safe", is_safe)


# A late station

def late_lines(ports):
    """Returns a tree file with a hub, a station that comes up late, and stations that watch the hub."""
    names = ["HUB", "FAR"] + ["W%d" % number for number in range(1, len(ports) - 1)]
    lines = ["tree %d" % TREE, HEAD] + ["station %s 127.0.0.1:%d" % it for it in zip(names, ports)]
    return lines + ["operator ANN HUB", CLASSES, "domain TOP HUB UNIT -", "domain END FAR UNIT TOP"]


def watch_of(station):
    """Returns a WATCH of the hub's unit by a station in its first boot."""
    data = bytearray(44)
    data[:4] = b"SM" + bytes([1, layout.WATCH])
    for name, value in [("from", station), ("to", 1), ("subject", 1), ("tree", TREE), ("echo", 1)]:
        at, size, _ = layout.FIELDS[name]
        data[at:at + size] = value.to_bytes(size, "big")
    return bytes(data)


def late_order(program, folder, ports, sender, patience):
    """Returns how long an order takes from the moment at which the station comes up that it is for."""
    tree = nodes.write_tree(folder, ports, late_lines(ports))
    begun = [nodes.Node(program, [tree, "HUB", os.path.join(folder, "hub"), "--endless"])]
    try:
        wires.when_bound(ports[0], UP)
        beside, console = sender(ports), Console(begun[0], patience)
        console.say("order ANN take END")
        time.sleep(AWAY)
        begun.append(nodes.Node(program, [tree, "FAR", os.path.join(folder, "far"), "--endless"]))
        up = wires.when_bound(ports[1], UP)
        took = max(0, time.monotonic() - up) if console.hears("told ANN take END 0") else None
        is_whole = beside.is_running() and all(node.child.poll() is None for node in begun)
        return took if is_whole else None, beside.end()
    finally:
        for node in begun:
            node.kill()


def late_orders(table, program, folder, said, name, count, rate, datagrams):
    """Such orders at a hub that so many stations may watch, with a sender beside it of so many datagrams a second."""
    took, counts = [], []
    for place in range(said.rounds):
        room = os.path.join(folder, "%s %d" % (name, place))
        os.mkdir(room)
        one, sent = late_order(program, room, nodes.free_ports(count + 2),
                               lambda ports: wires.Sender(ports[0], rate, datagrams(ports)), said.patience)
        took.append(one)
        counts.append(sent)
    table.add_times("an order for a late station, %s" % name, took)
    speed, answered = min(it[2] for it in counts), min(it[1] / it[0] for it in counts)
    table.add("what was sent to it, %s" % name, "%.0f a second, %.0f %% answered" % (speed, 100 * answered),
              "%d a second at least" % (SHARE * rate / table.slack),
              speed >= SHARE * rate / table.slack and (answered > 0) == (datagrams is watches))


def watches(ports):
    """Returns a WATCH of each watching station, from its port."""
    return [(port, watch_of(station)) for station, port in enumerate(ports[2:], 3)]


def single_bytes(_ports):
    return [(0, b"x")]


def late(table, program, folder, said):
    """Measures orders for a late station beside watchers, and beside floods."""
    for count in said.watchers:
        late_orders(table, program, folder, said, "%d stations watch" % count, count, int(count / PERIOD), watches)
    late_orders(table, program, folder, said, "a flood of single bytes", 1, FLOOD, single_bytes)
    late_orders(table, program, folder, said, "a flood of watches", MANY, FLOOD, watches)


def arguments(given):
    words = argparse.ArgumentParser(usage=__doc__.split("usage: ")[1].split("\n")[0])
    words.add_argument("program")
    words.add_argument("--stations", type=int, default=16)
    words.add_argument("--fan-out", type=int, default=4)
    words.add_argument("--devices", type=int, default=4)
    words.add_argument("--loss", type=float, default=0.2)
    words.add_argument("--rounds", type=int, default=3)
    words.add_argument("--seed", type=int, default=1)
    words.add_argument("--patience", type=float, default=3)
    words.add_argument("--slack", type=float, default=1)
    words.add_argument("--watchers", type=int, nargs="+", default=WATCHERS)
    words.add_argument("--only", choices=["crowd", "late"])
    said = words.parse_args(given)
    if not 2 <= said.stations <= MOST_STATIONS or not 1 <= said.fan_out <= MOST_CHILDREN \
            or depth_of(said.stations, said.fan_out) > MOST_DEEP \
            or not 1 <= said.devices <= min(16, MOST_DEVICES // said.stations):
        words.error("no tree file has so many stations or devices, or goes so deep")
    return said


def crowd_cases(table, program, folder, said):
    """Measures the crowd, directly and then behind a proxy."""
    print("%d stations, %d levels, up to %d children, %d devices each"
          % (said.stations, depth_of(said.stations, said.fan_out), said.fan_out, said.devices))
    crowd = Crowd(program, folder, said)
    try:
        directly(table, crowd)
        behind_proxy(table, crowd)
        afterwards(table, crowd)
    finally:
        crowd.kill_all()


def main():
    said = arguments(sys.argv[1:])
    program, table, folder = os.path.abspath(said.program), Table(said.slack), tempfile.mkdtemp()
    print("%d processors, load %.1f" % (os.cpu_count(), os.getloadavg()[0]))
    try:
        if said.only != "late":
            crowd_cases(table, program, folder, said)
        if said.only != "crowd":
            late(table, program, folder, said)
    finally:
        shutil.rmtree(folder, ignore_errors=True)
    print("load %.1f at the end" % os.getloadavg()[0])
    running.end(table.cases)


if __name__ == "__main__":
    main()
