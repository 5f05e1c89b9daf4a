"""Chaos at the size of an experiment: thirty stations behind a network that does its worst, while operators order and
devices report, and nodes are killed, stopped, kept away and sent garbage.

usage: chaos.py SMI [--seconds S] [--seed N] [--loss P] [--repeat P] [--delay P] [--kills P] [--stops P] [--parts P]
                [--pause S] [--patience S]

Stations, operators and device programs are those of tests/experiment.py. The rates are of a datagram's being lost,
repeated, or delayed by up to six seconds, so that others overtake it. Some of long ago are sent again, and four of five
watches never come. --kills, --stops and --parts are how often a second a node is killed, a node is stopped for some
seconds, and stations are parted from all others for some seconds. A killed node is started again on its store, soon or
after a longer time. --pause is how long an operator waits between two orders, and a device program between two reports,
in the middle.

What has to hold: no two operators have a domain at once, by what they were told; no row goes back; no node ends by
itself or tells a fault; each order is answered by a code that it may have; of no object do the states that a node shows
go back within a boot, and a version has one state everywhere; each command is done at a device once. Then the network
is healed. Within --patience seconds each order that waits is answered. Within as many again nothing is under way in any
store, and the station of each domain shows the newest states of the domains below. At the end records and links know of
one another, and an audit of all journals says that they were safe. The last line is 'N passed, M failed'.
"""

import argparse
import heapq
import itertools
import multiprocessing
import os
import random
import resource
import select
import shutil
import signal
import socket
import sys
import tempfile
import threading
import time

import mutations
import running
from experiment import DOMAINS, NUMBER, OPERATORS, STATIONS, Operator, Watcher, tree_lines
from trials import KILLED, Trial, add_rates, told_of
from verdicts import Done, Shown, commanders, under_way, unanswered, unknown_grants
from wires import HOST

# By how much a datagram is late at most, in seconds, and which share of watches never comes. Thirty stations send some
# 6,000 watches a second, and one program in Python could not pass on all of them and their answers in time.
LATEST, THINNED = 6, 0.8
# How soon a killed node is started again, how long one of this many is away, and how long one is stopped or parted, in
# seconds: each at most.
SOON, AWAY, ONE_OF, STOPPED, PARTED = 1, 30, 8, 4, 5
# How often garbage is sent, in seconds, and how many datagrams at once at most.
GARBAGE, AT_ONCE = 0.1, 20
# How long a look at the consoles is, in seconds.
LOOK = 0.02
# A disk in memory.
MEMORY = "/dev/shm"


class Chaos(Trial):
    """All that runs, what is done to it, and what it was seen to do."""

    def __init__(self, program, folder, said):
        super().__init__(program, folder, said, STATIONS, latest=LATEST, thinned=THINNED)
        self.write_trees(tree_lines)
        names = ("ordered", "answered", "without an answer", "lines followed", "actions", "actions left out", "reports",
                 "kills", "long absences", "stops", "partitions", "garbage")
        self.boots, self.count, self.datagrams = dict.fromkeys(STATIONS, 0), dict.fromkeys(names, 0), {}
        self.shown, self.done, self.due, self.order, self.healed = Shown(), Done(), [], 0, (0, 0)
        self.draw, self.out = random.Random("%d chaos" % said.seed), socket.socket(socket.AF_INET, socket.SOCK_DGRAM)
        self.operators = [Operator(self, name) for name in OPERATORS]
        self.watchers = {station: Watcher(self, station) for station in STATIONS}
        # forked before there is any thread
        self.pipe, other = multiprocessing.Pipe()
        self.process = multiprocessing.get_context("fork").Process(
            target=self.network.serve, args=(other, self.pipe), daemon=True)
        self.process.start()
        other.close()

    def ask_network(self, *words):
        """Has the process of the network call one of its methods, and returns what that returns."""
        self.pipe.send(words)
        return self.pipe.recv()

    # What is done to the nodes, by one thread.

    def after(self, seconds, call, *words, mends=False):
        """Has something done after some seconds. What mends is done in any case, and at once if all is over."""
        self.order += 1
        heapq.heappush(self.due, (time.monotonic() + seconds, self.order, mends, call, words))

    def again_and_again(self, rate, call):
        """Does something now, and then this often a second in the middle."""
        call()
        self.after(self.draw.expovariate(rate), self.again_and_again, rate, call)

    def begin(self, station):
        """Starts a node."""
        self.boots[station] += 1
        self.start(station, "--endless", "--console", self.path("console", station))

    def take_down(self, station):
        """Kills a node, which has to run up to now."""
        node = self.running.pop(station)
        is_own_end = node.child.poll() is not None
        node.child.kill()
        self.look_at_end(station, node, () if is_own_end else (KILLED,))

    def kill(self):
        """Kills a node, which begins again soon or after a longer time."""
        if not self.running:
            return
        station, is_long = self.draw.choice(list(self.running)), self.draw.randrange(ONE_OF) == 0
        self.take_down(station)
        self.count["kills"] += 1
        self.count["long absences"] += is_long
        away = min(AWAY, self.said.seconds / 4) * (1 + self.draw.random()) / 2 if is_long else SOON * self.draw.random()
        self.after(away, self.begin, station, mends=True)

    def stop(self):
        """Stops a node for a time."""
        if self.running:
            child = self.draw.choice(list(self.running.values())).child
            child.send_signal(signal.SIGSTOP)
            self.count["stops"] += 1
            self.after(STOPPED * self.draw.random(), child.send_signal, signal.SIGCONT, mends=True)

    def part(self):
        """Parts some stations from all others for a time."""
        count = self.draw.randrange(1, len(STATIONS) // 2)
        self.ask_network("part", self.draw.sample(range(1, len(STATIONS) + 1), count), PARTED * self.draw.random())
        self.count["partitions"] += 1

    def send_garbage(self):
        """Sends a node what no station of this tree sends."""
        port = self.draw.choice(list(self.ports.values()))
        for _ in range(self.draw.randrange(1, AT_ONCE)):
            self.out.sendto(garbage(self.draw), (HOST, port))
            self.count["garbage"] += 1

    def look_at_nodes(self):
        """Looks for nodes that ended by themselves, and starts them again."""
        for station in [name for name, node in self.running.items() if node.child.poll() is not None]:
            self.take_down(station)
            self.begin(station)

    def disturb(self):
        """Disturbs the nodes and the network until it is over, and then has all of them run and the network heal."""
        said = self.said
        for rate, call in [(said.kills, self.kill), (said.stops, self.stop), (said.parts, self.part),
                           (1 / GARBAGE, self.send_garbage), (1, self.look_at_nodes)]:
            if rate:
                self.after(1 / rate, self.again_and_again, rate, call)
        while self.due:
            until, _, mends, call, words = heapq.heappop(self.due)
            if not self.is_over.wait(max(0, until - time.monotonic())) or mends:
                call(*words)
        self.look_at_nodes()
        self.ask_network("heal")

    def sample(self):
        """Looks at one store after the other."""
        for station in itertools.cycle(STATIONS):
            if self.is_over.wait(LOOK):
                return
            self.look_at_rows(station)

    # What is heard of them, by the main thread.

    def turn(self):
        """Hears what has been said, and has operators and device programs say what they will."""
        guests = [*self.operators, *self.watchers.values()]
        for guest in guests:
            if guest.socket is None and time.monotonic() > guest.again:
                guest.connect()
        there = {guest.socket: guest for guest in guests if guest.socket is not None}
        ready, _, _ = select.select(list(there), [], [], LOOK)
        for it in ready:
            there[it].read()
        for guest in guests:
            guest.act()

    def turn_until(self, is_so, seconds):
        """Goes on until something is so, or the time is over. Returns whether it is so."""
        until = time.monotonic() + seconds
        while not is_so() and time.monotonic() < until:
            self.turn()
        return is_so()

    def waiting(self):
        """Returns the orders that wait, each with its operator and since when."""
        return [(it.name, *waiting) for it in self.operators for waiting in it.waiting.values()]

    def unlike(self):
        """Returns what the station of a domain shows of the domains below, if it is not what their stations show."""
        found = []
        for name, (station, above) in DOMAINS.items():
            own = self.watchers[station].newest.get(name)
            seen = self.watchers[DOMAINS[above][0]].newest.get(name) if above else own
            if own is None or seen != own:
                found.append("%s is %s, and is shown as %s" % (name, own, seen))
        return found

    def settle(self):
        """Waits until all orders are answered, and then until all is at rest, and notes what is not in time."""
        begun, patience = time.monotonic(), self.said.patience
        self.turn_until(lambda: not self.waiting(), patience)
        self.violations += unanswered(self.waiting(), time.monotonic())
        answered = time.monotonic()
        rows = self.all_rows()
        while (under_way(rows) or self.unlike()) and time.monotonic() < answered + patience:
            self.turn_until(lambda: False, SOON)
            rows = self.all_rows()
        self.violations += under_way(rows) + self.unlike()
        self.healed = (answered - begun, time.monotonic() - answered)

    def run(self):
        for station in STATIONS:
            self.begin(station)
        threads = [threading.Thread(target=it, daemon=True) for it in (self.disturb, self.sample)]
        for thread in threads:
            thread.start()
        self.turn_until(lambda: False, self.said.seconds)
        self.is_over.set()
        self.turn_until(lambda: not any(it.is_alive() for it in threads), self.said.patience)
        self.settle()
        for station in list(self.running):
            self.take_down(station)
        self.violations += commanders(self.events) + unknown_grants(self.all_rows())
        self.audit()

    def end(self):
        """Ends all that still runs."""
        self.is_over.set()
        for node in self.running.values():
            node.kill()
        self.process.terminate()
        self.process.join()

    def tell(self):
        """Prints what was done."""
        self.datagrams = self.ask_network("counts")
        figures = told_of(self.count), self.samples, told_of(self.datagrams), *self.healed
        self.report("chaos", "seed %d, %d seconds: %s, %d readings of rows; datagrams: %s; answered %.1f seconds later,"
                    " at rest %.1f after that" % (self.said.seed, self.said.seconds, *figures))


def garbage(draw):
    """Returns bytes that no station takes: drawn ones, or a datagram of another tree that was spoiled."""
    data = draw.randbytes(draw.randrange(100)) if draw.random() < 0.5 else mutations.refused(draw)
    return garbage(draw) if data[30:32] == NUMBER.to_bytes(2, "big") else data


def cases(chaos):
    """Returns what has to hold of a chaos: a name, whether it does, and what came."""
    said, count = chaos.said, {**chaos.count, **chaos.datagrams}
    least = {"answered": said.seconds, "kills": said.seconds * said.kills / 4, "stops": said.seconds * said.stops / 4,
             "partitions": said.seconds * said.parts / 4, "garbage": said.seconds, "lines followed": said.seconds,
             "actions": said.seconds / 4, "passed on": said.seconds, "lost": said.seconds * said.loss,
             "repeated": said.seconds * said.repeat, "delayed": said.seconds * said.delay}
    found = [("violations", not chaos.violations, chaos.violations)]
    found += [(name, count[name] >= most, count[name]) for name, most in least.items()]
    return [*found, ("rows were read", chaos.samples > said.seconds, chaos.samples)]


def arguments(given):
    words = argparse.ArgumentParser(usage=__doc__.split("usage: ")[1].split("\n\n")[0])
    words.add_argument("program")
    words.add_argument("--seconds", type=int, default=240)
    words.add_argument("--seed", type=int, default=1)
    add_rates(words, 0.25, 0.15, 0.35)
    words.add_argument("--kills", type=float, default=0.5)
    words.add_argument("--stops", type=float, default=0.25)
    words.add_argument("--parts", type=float, default=0.2)
    words.add_argument("--pause", type=float, default=0.25)
    words.add_argument("--patience", type=float, default=90)
    return words.parse_args(given)


def main():
    said = arguments(sys.argv[1:])
    # an audit has all journals open at once
    most = resource.getrlimit(resource.RLIMIT_NOFILE)[1]
    resource.setrlimit(resource.RLIMIT_NOFILE, (most, most))
    signal.signal(signal.SIGTERM, lambda *_: sys.exit(1))
    # thirty machines have thirty disks, so none of them waits here for the disk of another one
    folder = tempfile.mkdtemp(dir=MEMORY if os.path.isdir(MEMORY) else None)
    chaos = Chaos(os.path.abspath(said.program), folder, said)
    try:
        chaos.run()
        chaos.tell()
    finally:
        chaos.end()
        shutil.rmtree(folder, ignore_errors=True)
    running.end(cases(chaos))


if __name__ == "__main__":
    main()
