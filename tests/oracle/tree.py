"""Tree files: what one says, the first fault of one that is refused, and what `smi check` prints."""

import collections
import dataclasses
import re

from . import text
from .text import Fault

MOST = {"state": 64, "action": 64, "station": 128, "operator": 32, "class": 32, "domain": 128, "device": 512}
MOST_OPERATORS_OF_STATION, MOST_RULES, MOST_CHILDREN, MOST_DEVICES_OF_DOMAIN, MOST_LEVELS = 8, 32, 16, 16, 8
ADDRESS = re.compile(rb"([^.:]*)\.([^.:]*)\.([^.:]*)\.([^.:]*):([^.:]*)")
# Which words come after the first one: a name that is declared, with its set of names, or one that is known.
FORMS = {
    b"tree": ["number"],
    b"state": ["new state"],
    b"action": ["new action"],
    b"station": ["new station", "address"],
    b"operator": ["new operator", "station"],
    b"devclass": ["new class", "state"],
    b"move": ["class", "state", "action", "state"],
    b"unitclass": ["new class", "state"],
    b"accept": ["class", "action"],
    b"any": ["class", "state", "state"],
    b"all": ["class", "state", "state"],
    b"domain": ["new domain", "station", "class", "parent"],
    b"device": ["new device", "domain", "class"]}
# Lines whose class is one of devices, and lines whose class is one of units.
OF_DEVICES, OF_UNITS = (b"move", b"device"), (b"accept", b"any", b"all", b"domain")
# Operators, domains and devices share one set of names.
SHARED = ("operator", "domain", "device")


@dataclasses.dataclass
class DeviceClass:
    """The state in which devices begin, and by a state and an action the state to which they move."""
    first: int
    moves: dict = dataclasses.field(default_factory=dict)


@dataclasses.dataclass
class UnitClass:
    """The state in which units begin, the actions that they accept, and their rules in order."""
    first: int
    accepted: set = dataclasses.field(default_factory=set)
    rules: list = dataclasses.field(default_factory=list)

    def state_after(self, state, members):
        """Returns the state of a unit that was in a state, over the states of its members."""
        for kind, wanted, target in self.rules:
            if wanted in members if kind == b"any" else members and set(members) == {wanted}:
                return target
        return state


@dataclasses.dataclass
class Station:
    name: str


@dataclasses.dataclass
class Operator:
    name: str
    station: int


@dataclasses.dataclass
class Domain:
    """A domain: who keeps it, the class of its unit, the domain above it or 0, and how deep it is; a root is at 1."""
    name: str
    station: int
    unit: UnitClass
    parent: int
    level: int


@dataclasses.dataclass
class Device:
    name: str
    domain: int
    kind: DeviceClass


class Tree:
    """What a tree file says. All numbers are from 1, so lists have nothing at their first place."""

    def __init__(self):
        self.number = 0
        self.states, self.actions, self.stations = [None], [None], [None]
        self.operators, self.domains, self.devices = [None], [None], [None]
        self.classes = {}
        # the children of each domain, and the places of its devices among all devices
        self.child_lists, self.device_lists = collections.defaultdict(list), collections.defaultdict(list)
        # the number of each name, by the set of names
        self.numbers = {kind: {} for kind in MOST}

    def count(self, kind):
        return len(self.numbers[kind])

    def objects(self):
        """Returns how many units and devices there are."""
        return self.count("domain") + self.count("device")

    def device(self, thing):
        """Returns the device that an object is, or None for a unit."""
        return self.devices[thing - self.count("domain")] if thing > self.count("domain") else None

    def domain_of(self, thing):
        """Returns the domain of an object."""
        return self.device(thing).domain if thing > self.count("domain") else thing

    def keeper(self, domain):
        return self.domains[domain].station

    def first_state(self, thing):
        return self.device(thing).kind.first if thing > self.count("domain") else self.domains[thing].unit.first

    def object_name(self, thing):
        return (self.device(thing) or self.domains[thing]).name

    def children(self, domain):
        return self.child_lists[domain]

    def devices_of(self, domain):
        """Returns the objects that are devices of a domain, by number."""
        return [self.count("domain") + it for it in self.device_lists[domain]]

    def way(self, domain, target):
        """Returns the child of a domain that a target is or is below, or None if the target is not below the domain."""
        while target:
            above = self.domains[target].parent
            if above == domain:
                return target
            target = above
        return None

    def station_of(self, holder):
        """Returns the station at which a holder is."""
        return self.operators[holder.number].station if holder.is_operator() else self.keeper(holder.number)


class Reader:
    """Reads one tree file."""

    def __init__(self):
        self.tree, self.is_begun = Tree(), False

    def read_line(self, line):
        """Takes a line. Returns the number of its first fault, or 0."""
        if len(line) > text.LONGEST_LINE:
            return 10
        words = text.words_of(line)
        if not words:
            return 0
        # only the first line that says something is a `tree` line
        if (words[0] == b"tree") == self.is_begun:
            return 7
        self.is_begun = True
        if words[0] not in FORMS:
            return 1
        form = FORMS[words[0]]
        if len(words) != len(form) + 1:
            return 2
        given = list(zip(form, words[1:]))
        return (next((fault_of(*it) for it in given if fault_of(*it)), 0)
                or 5 * any(not self.is_known(*it) for it in given)
                or self.declare(words[0], dict(zip(form, words[1:])), words[1:]))

    def is_known(self, kind, word):
        """Returns true if a word is not the name of something, or the name of something that is declared."""
        if kind == "parent":
            return word == b"-" or word in self.tree.numbers["domain"]
        return kind not in MOST or word in self.tree.numbers[kind]

    def number(self, kind, word):
        return self.tree.numbers[kind][word]

    def declare(self, first, given, words):
        """Takes what a line declares, whose words are well formed and known. Returns its fault, or 0."""
        if self.is_there(first, words):
            return 4
        found = self.tree.classes.get(given.get("class"))
        if isinstance(found, UnitClass) and first in OF_DEVICES or isinstance(found, DeviceClass) and first in OF_UNITS:
            return 9
        if first == b"tree":
            self.tree.number = int(words[0])
            return 0
        return self.add_to_class(first, found, words) if first in (b"move", b"accept", b"any", b"all") else self.add(
            first.decode(), found, words)

    def is_there(self, first, words):
        """Returns true if what a line declares is declared already."""
        kind = FORMS[first][0].removeprefix("new ")
        if FORMS[first][0].startswith("new "):
            sets = SHARED if kind in SHARED else (kind,)
            return any(words[0] in self.tree.numbers[it] for it in sets)
        found = self.tree.classes.get(words[0])
        if first == b"move" and isinstance(found, DeviceClass):
            return (self.number("state", words[1]), self.number("action", words[2])) in found.moves
        return first == b"accept" and isinstance(found, UnitClass) and self.number("action", words[1]) in found.accepted

    def add_to_class(self, first, found, words):
        """Adds a move, an accepted action or a rule to a class. Returns the fault, or 0."""
        if first == b"move":
            before, action, after = (self.number(*it) for it in zip(["state", "action", "state"], words[1:]))
            found.moves[before, action] = after
        elif first == b"accept":
            found.accepted.add(self.number("action", words[1]))
        elif len(found.rules) == MOST_RULES:
            return 6
        else:
            found.rules.append((first, *(self.number("state", it) for it in words[1:])))
        return 0

    def add(self, kind, found, words):
        """Adds something that has a name. Returns the fault, or 0."""
        of, tree, name = kind if kind in MOST else "class", self.tree, words[0].decode()
        made, is_full = None, False
        if kind == "station":
            made = Station(name)
        elif kind == "operator":
            made = Operator(name, self.number("station", words[1]))
            is_full = sum(it.station == made.station for it in tree.operators[1:]) == MOST_OPERATORS_OF_STATION
        elif kind == "domain":
            parent = 0 if words[3] == b"-" else self.number("domain", words[3])
            level = tree.domains[parent].level + 1 if parent else 1
            made = Domain(name, self.number("station", words[1]), found, parent, level)
            is_full = level > MOST_LEVELS or (parent and len(tree.children(parent)) == MOST_CHILDREN)
        elif kind == "device":
            made = Device(name, self.number("domain", words[1]), found)
            is_full = len(tree.device_lists[made.domain]) == MOST_DEVICES_OF_DOMAIN
        if is_full or tree.count(of) == MOST[of]:
            return 6
        tree.numbers[of][words[0]] = tree.count(of) + 1
        if of == "class":
            first = self.number("state", words[1])
            tree.classes[words[0]] = DeviceClass(first) if kind == "devclass" else UnitClass(first)
        else:
            getattr(tree, of + "s").append(made or name)
        if kind == "domain":
            tree.child_lists[made.parent].append(tree.count(kind))
        elif kind == "device":
            tree.device_lists[made.domain].append(tree.count(kind))
        return 0


def fault_of(kind, word):
    """Returns the fault of a word that is not well formed as what its line wants there, or 0."""
    if kind == "number":
        return 0 if text.number_in(word, 1, 65_535) is not None else 3
    if kind == "address":
        return 0 if is_address(word) else 8
    return 0 if text.is_name(word) or (kind == "parent" and word == b"-") else 3


def is_address(word):
    """Returns true for four numbers up to 255 with dots between them, a colon and a port."""
    found = ADDRESS.fullmatch(word)
    return found is not None and text.number_in(found[5], 1, 65_535) is not None and all(
        text.number_in(it, 0, 255) is not None for it in found.groups()[:4])


def read_tree(data):
    """Returns the tree that a file says. Raises a Fault if it is refused."""
    if len(data) > text.LONGEST_FILE:
        raise Fault(0, 11)
    reader = Reader()
    for number, line in enumerate(text.lines_of(data), 1):
        code = reader.read_line(line)
        if code:
            raise Fault(number, code)
    if not all(reader.tree.count(it) for it in ("station", "operator", "state", "action", "domain")):
        raise Fault(0, 12)
    return reader.tree


def check(data):
    """Returns what `smi check` prints of a file, what it tells on standard error, and its status."""
    try:
        tree = read_tree(data)
    except Fault as fault:
        return b"", b"tree line %d fault %d\n" % (fault.line, fault.code), 1
    counts = (tree.number, *(tree.count(it) for it in ("station", "operator", "domain", "device")))
    return b"tree %d stations %d operators %d domains %d devices %d\n" % counts, b"", 0
