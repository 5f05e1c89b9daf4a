"""An experiment of thirty stations: its tree, operators who order at random, and device programs that report at random.

Twenty stations keep sixty domains, none at the station of the domain above it, with two hundred devices. At the other
ten are three operators each.
"""

import itertools
import random
import socket
import time

KEEPERS, CREWS = (["%s%d" % (name, it) for it in range(1, count + 1)] for name, count in (("K", 20), ("C", 10)))
STATIONS = KEEPERS + CREWS
OPERATORS = {"O%d" % it: CREWS[(it - 1) % len(CREWS)] for it in range(1, 31)}
DEVICES = 200
NUMBER = 530
HEAD = """state OFF
state READY
state RUNNING
state BAD
action STEP
action BACK
action WILD"""
CLASSES = """devclass DEV OFF
move DEV OFF STEP READY
move DEV READY STEP RUNNING
move DEV RUNNING STEP OFF
move DEV READY BACK OFF
move DEV RUNNING BACK READY
move DEV OFF BACK RUNNING
unitclass UNIT OFF
accept UNIT STEP
accept UNIT BACK
any UNIT BAD BAD
all UNIT OFF OFF
all UNIT READY READY
all UNIT RUNNING RUNNING
any UNIT READY OFF"""
STATES, ACTIONS = ["OFF", "READY", "RUNNING", "BAD"], ["STEP", "STEP", "BACK", "WILD"]
# What is ordered, each as often as it is here.
KINDS = [*4 * ["take"], *2 * ["drop"], *5 * ["do"], *5 * ["include"], "exclude", "manual", "ignore", "ask", "watch",
         "unwatch"]
# The codes with which an order may end here (docs/NUMBERS.md): no grant has a million commands, no store fails.
CODES = {"0", "1", "2", "3", "4", "5", "6", "8", "21", "22", "23", "25"}
# How many orders of an operator wait at most, how many objects an operator watches, and how soon a connection is made
# again, in seconds.
LANES, WATCHES, AGAIN = 3, 2, 0.2


def tree_of_domains():
    """Returns the station of each domain, and the domain above it or None: four roots, each with fourteen below."""
    found = {}

    def add(name, above=None):
        free = (KEEPERS[(len(found) + it) % len(KEEPERS)] for it in range(len(KEEPERS)))
        found[name] = (next(it for it in free if above is None or it != found[above][0]), above)
        return name

    for root in range(4):
        top = add("R%d" % root)
        second = [add("%s_%d" % (top, it), top) for it in range(3)]
        third = [add("%s_%d" % (above, it), above) for above in second for it in range(2)]
        fourth = [add("%s_X%d" % (top, it), above) for it, above in enumerate(third[:4])]
        add("%s_Y" % top, fourth[0])
    return found


DOMAINS = tree_of_domains()
DEVICE_OF = {"V%d" % it: list(DOMAINS)[it % len(DOMAINS)] for it in range(DEVICES)}


def tree_lines(ports):
    """Returns the lines of the tree file in which the stations have these ports."""
    lines = ["tree %d" % NUMBER, HEAD, *("station %s 127.0.0.1:%d" % it for it in zip(STATIONS, ports))]
    lines += ["operator %s %s" % it for it in OPERATORS.items()] + [CLASSES]
    lines += ["domain %s %s UNIT %s" % (name, station, above or "-") for name, (station, above) in DOMAINS.items()]
    return lines + ["device %s %s DEV" % it for it in DEVICE_OF.items()]


def below(domain):
    """Returns all domains below one."""
    children = [name for name, (_, above) in DOMAINS.items() if above == domain]
    return children + [it for child in children for it in below(child)]


BELOW = {name: below(name) for name in DOMAINS}


class Guest:
    """A connection to the console of a node, which is made again once the node is back."""

    def __init__(self, chaos, station, name):
        self.chaos, self.station, self.draw = chaos, station, random.Random("%d %s" % (chaos.said.seed, name))
        self.socket, self.rest, self.boot, self.again, self.due = None, b"", 0, 0, 0
        self.tags = itertools.count(1)

    def connect(self):
        """Tries to connect, and greets the node."""
        boot, made = self.chaos.boots[self.station], socket.socket(socket.AF_UNIX)
        made.setblocking(False)
        try:
            made.connect(self.chaos.path("console", self.station))
        except OSError:
            made.close()
            self.again = time.monotonic() + AGAIN
            return
        self.socket, self.rest, self.boot = made, b"", boot
        self.greet()

    def greet(self):
        """Says what is said first on each connection."""

    def say(self, line):
        try:
            self.socket.sendall(line.encode("ascii") + b"\n")
        except OSError:
            # the end of the connection is read too
            pass

    def read(self):
        """Reads what the node has said, or that the connection has ended."""
        try:
            data = self.socket.recv(1 << 16)
        except BlockingIOError:
            return
        except OSError:
            data = b""
        if not data:
            self.lose()
            return
        *lines, self.rest = (self.rest + data).split(b"\n")
        for line in lines:
            self.hear(line.decode("ascii", "replace").split(" "))

    def lose(self):
        self.socket.close()
        self.socket = None

    def is_due(self):
        """Returns true if it is time for the next line, and draws when the one after it is."""
        now = time.monotonic()
        if self.socket is None or self.chaos.is_over.is_set() or now < self.due:
            return False
        self.due = now + self.draw.expovariate(1 / self.chaos.said.pause)
        return True


class Operator(Guest):
    """An operator, who orders at random: about some domains at once, and about each one order after the other."""

    def __init__(self, chaos, name):
        super().__init__(chaos, OPERATORS[name], name)
        self.name, self.waiting, self.holds = name, {}, []
        # few, because what is watched is asked for at each tick
        self.watches = self.draw.sample(list(DOMAINS), WATCHES)

    def drawn(self):
        """Returns a random order, mostly about a domain that the operator holds and one below it."""
        kind, names = self.draw.choice(KINDS), list(DOMAINS)
        is_known = self.holds and kind != "take" and self.draw.random() < 0.8
        domain = self.draw.choice(self.holds if is_known else names)
        if kind == "do":
            return "do %s %s" % (domain, self.draw.choice(ACTIONS))
        if kind in ("watch", "unwatch"):
            return "%s %s" % (kind, self.draw.choice(self.watches))
        if kind not in ("include", "exclude", "manual", "ignore"):
            return "%s %s" % (kind, domain)
        return "%s %s %s" % (kind, domain, self.draw.choice(BELOW[domain] or names))

    def act(self):
        """Gives an order, if it is time for one and none about its domain waits."""
        if not self.is_due() or len(self.waiting) >= LANES:
            return
        order = self.drawn()
        if order.split()[1] in {waiting.split()[1] for waiting, _ in self.waiting.values()}:
            return
        tag = "@%d" % next(self.tags)
        self.waiting[tag] = (order, time.monotonic())
        self.chaos.note("ordered", self.name, order)
        self.chaos.count["ordered"] += 1
        self.say("%s order %s %s" % (tag, self.name, order))

    def hear(self, words):
        """Takes the answer to an order that waits."""
        order, _ = self.waiting.pop(words[0], ("", 0))
        head, rest = ["told", self.name, *order.split()], words[1:]
        answer, is_asked = rest[len(head):], order.startswith("ask ")
        is_record = is_asked and (len(answer) == 5 or rest == ["replaced", *head[1:]])
        if not order or not (is_record or rest[:len(head)] == head and len(answer) == 1 and answer[0] in CODES):
            self.chaos.violated("`%s` of %s was answered `%s`" % (order, self.name, " ".join(words)))
            return
        self.chaos.count["answered"] += 1
        if is_asked:
            return
        self.chaos.note("told", self.name, order, answer[0])
        kind, domain = order.split()[:2]
        if (kind, answer[0]) == ("take", "0"):
            self.holds.append(domain)
        if (kind, answer[0]) in (("drop", "0"), ("drop", "21")) and domain in self.holds:
            self.holds.remove(domain)

    def lose(self):
        """Gives up the answers that wait, because they are printed nowhere."""
        super().lose()
        self.chaos.count["without an answer"] += len(self.waiting)
        self.waiting.clear()


class Watcher(Guest):
    """Follows all states and actions that a node tells, and reports its devices at random."""

    def __init__(self, chaos, station):
        super().__init__(chaos, station, station)
        self.devices = [name for name, domain in DEVICE_OF.items() if DOMAINS[domain][0] == station]
        self.newest = {}

    def greet(self):
        self.newest = {}
        self.say("@f follow\n@a actions --with numbers")

    def act(self):
        if self.is_due() and self.devices:
            self.say("@r report %s %s" % (self.draw.choice(self.devices), self.draw.choice(STATES)))

    def hear(self, words):
        """Looks at a line."""
        chaos, rest = self.chaos, words[1:]
        if words[:2] == ["@f", "board"] and len(rest) == 4:
            chaos.count["lines followed"] += 1
            self.newest[rest[1]] = rest[2:]
            self.judge(chaos.shown.fault((self.station, self.boot), rest[1], version_of(rest[2]), rest[3]))
        elif words[:2] == ["@a", "acted"] and len(rest) == 8:
            chaos.count["actions"] += 1
            self.judge(chaos.done.fault(rest[1], rest[2], *rest[5:]))
            self.judge(chaos.shown.fault((self.station, self.boot, "acted"), rest[1], version_of(rest[3]), rest[4]))
        elif words[:2] == ["@a", "missed"]:
            chaos.count["actions left out"] += int(rest[1])
        elif words[:3] == ["@r", "told", "report"] and rest[-1] == "0":
            chaos.count["reports"] += 1
        elif words != ["@a", "actions", str(DEVICES)]:
            chaos.violated("%s said `%s`" % (self.station, " ".join(words)))

    def judge(self, fault):
        if fault:
            self.chaos.violated(fault)


def version_of(text):
    """Returns a version as its boot and its sequence."""
    return tuple(map(int, text.split(".")))
