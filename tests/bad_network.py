"""A bad network between stations: it loses, repeats, delays and reorders datagrams, sends ones of long ago again, and
parts stations from each other.
"""

import collections
import heapq
import random
import selectors
import socket
import time

import layout
from wires import HOST, socket_at

# For how many seconds a datagram is delayed at most, if nothing else is said, and how long a look at the sockets is.
LATEST, LOOK = 0.3, 0.05
# How many datagrams of long ago are kept, and which share of all; and how many of a socket are taken at once.
OLD, KEPT, AT_ONCE = 2000, 0.02, 32
# How many bytes a socket may hold that are not taken yet: few, so that nothing waits there for long.
ROOM = 1 << 18
WATCH = bytes([layout.WATCH])


class Network:
    """Passes on what comes to a port of its own to the port of a station, or does worse."""

    def __init__(self, stations, rates, seed, latest=LATEST, thinned=0):
        """Binds a port for each station. The stations are ports by their names, in the order of the tree file.

        The rates are those of a datagram's being lost, repeated and delayed: `loss`, `repeat`, `delay`. Of watches,
        which are sent again at each tick, a share can be left out before that, which costs little time.
        """
        self.thinned = thinned
        self.random, self.rates, self.latest = random.Random(seed), dict(rates), latest
        self.count = collections.Counter({"passed on": 0, "lost": 0, "repeated": 0, "delayed": 0, "parted": 0,
                                          "thinned": 0})
        self.late, self.old, self.order = [], [], 0
        # those that are parted from all others up to a moment, by their numbers
        self.island, self.parted_until = frozenset(), 0
        self.out, self.looks, self.ports = socket_at(0), selectors.DefaultSelector(), {}
        for number, (name, port) in enumerate(stations.items(), 1):
            way = socket_at(0)
            way.setsockopt(socket.SOL_SOCKET, socket.SO_RCVBUF, ROOM)
            self.ports[name] = way.getsockname()[1]
            self.looks.register(way, selectors.EVENT_READ, (number, port))

    def port_for(self, name, own, port):
        """Returns the port at which a station sees another one, or its own."""
        return port if name == own else self.ports[name]

    def part(self, numbers, seconds):
        """Parts these stations from all others for some seconds."""
        self.island, self.parted_until = frozenset(numbers), time.monotonic() + seconds

    def heal(self):
        """Loses, repeats and delays nothing from now on. What is late still comes."""
        self.rates, self.parted_until = dict.fromkeys(self.rates, 0), 0

    def counts(self):
        """Returns what was done, and how many datagrams the system had no room for."""
        own = {"%04X" % port for port in self.ports.values()}
        with open("/proc/net/udp", encoding="ascii") as file:
            lines = [line.split() for line in file.readlines()[1:]]
        return {**self.count, "unseen": sum(int(line[-1]) for line in lines if line[1].split(":")[1] in own)}

    def later(self, data, port):
        self.order += 1
        heapq.heappush(self.late, (time.monotonic() + self.latest * self.random.random(), self.order, data, port))

    def pass_on(self, data, port):
        try:
            self.out.sendto(data, (HOST, port))
            self.count["passed on"] += 1
        except OSError:
            self.count["lost"] += 1

    def keep(self, data, port):
        """Keeps some datagrams, each in the place of another one, so that they are of any age."""
        if len(self.old) < OLD:
            self.old.append((data, port))
        elif self.random.random() < KEPT:
            self.old[self.random.randrange(OLD)] = (data, port)

    def is_parted(self, data, receiver):
        if time.monotonic() > self.parted_until:
            self.island = frozenset()
        return (int.from_bytes(data[4:6], "big") in self.island) != (receiver in self.island)

    def take(self, data, receiver, port):
        """Does to a datagram what is drawn for it."""
        draw, rates = self.random.random, self.rates
        if self.thinned and data[3:4] == WATCH and draw() < self.thinned:
            self.count["thinned"] += 1
            return
        self.keep(data, port)
        if self.island and self.is_parted(data, receiver):
            self.count["parted"] += 1
            return
        if draw() < rates["loss"]:
            self.count["lost"] += 1
            return
        if draw() < rates["repeat"]:
            self.count["repeated"] += 1
            self.later(data, port)
        if draw() < rates["repeat"] / 10:
            self.count["repeated"] += 1
            self.later(*self.random.choice(self.old))
        if draw() < rates["delay"]:
            self.count["delayed"] += 1
            self.later(data, port)
        else:
            self.pass_on(data, port)

    def take_some(self, way, receiver, port):
        """Takes what waits in a socket, up to some datagrams."""
        for _ in range(AT_ONCE):
            try:
                data = way.recv(2048)
            except OSError:
                return
            self.take(data, receiver, port)

    def turn(self):
        """Waits for what comes, and passes on what is due."""
        wait = self.late[0][0] - time.monotonic() if self.late else LOOK
        for key, _ in self.looks.select(min(max(wait, 0), LOOK)):
            self.take_some(key.fileobj, *key.data)
        now = time.monotonic()
        while self.late and self.late[0][0] <= now:
            _, _, data, port = heapq.heappop(self.late)
            self.pass_on(data, port)

    def run(self, is_over):
        """Goes on until it is over."""
        while not is_over.is_set():
            self.turn()

    def serve(self, pipe, other):
        """Goes on in a process of its own until the other end of a pipe is closed, of which this process has a copy.

        What comes through the pipe is the name of a method and what it is given; what it returns goes back.
        """
        other.close()
        while True:
            self.turn()
            try:
                while pipe.poll():
                    name, *words = pipe.recv()
                    pipe.send(getattr(self, name)(*words))
            except (EOFError, BrokenPipeError):
                return
