"""Checks the lines of a tree file and says in words what is wrong with one (docs/FORMATS.md, "The tree file").

`smi check` is what judges a tree file. This refuses the same files, and names the line of the source that is wrong.
"""

import collections
import re

# A line of a tree file as its words, and the place in a source that it comes from.
Line = collections.namedtuple("Line", "words place")

NAME, NUMBER = re.compile(r"[A-Z][A-Z0-9_]*"), re.compile(r"[0-9]{1,10}")
LONGEST_NAME, LONGEST_LINE, LONGEST_FILE = 16, 200, 262144
MOST_TREES, MOST_PORTS, LEVELS = 65535, 65535, 8
# How many of a kind a tree may have, and how many of a kind may belong to one of another.
MOST = {"state": 64, "action": 64, "station": 128, "operator": 32, "class": 32, "domain": 128, "device": 512}
MOST_OF = {"operators of the station": 8, "rules of the class": 32, "children of the domain": 16,
           "devices of the domain": 16}
# What comes after the first word of a line: for people, and as what each word is. A plus is a name that is declared.
FORMS = {
    "tree": ("N", ("number",)),
    "state": ("NAME", ("+state",)),
    "action": ("NAME", ("+action",)),
    "station": ("NAME ADDRESS", ("+station", "address")),
    "operator": ("NAME STATION", ("+operator", "station")),
    "devclass": ("NAME STATE", ("+device class", "state")),
    "move": ("CLASS STATE ACTION STATE", ("device class", "state", "action", "state")),
    "unitclass": ("NAME STATE", ("+unit class", "state")),
    "accept": ("CLASS ACTION", ("unit class", "action")),
    "any": ("CLASS S T", ("unit class", "state", "state")),
    "all": ("CLASS S T", ("unit class", "state", "state")),
    "domain": ("NAME STATION CLASS PARENT", ("+domain", "station", "unit class", "parent")),
    "device": ("NAME DOMAIN CLASS", ("+device", "domain", "device class")),
}
# Kinds that share a set of names.
SETS = {"device class": "class", "unit class": "class", "operator": "object", "domain": "object", "device": "object"}
NEEDED = ("station", "operator", "state", "action", "domain")


class Wrong(Exception):
    """A source that makes no tree file, with the place in it and what is wrong there."""

    def __init__(self, place, text):
        super().__init__("%s: %s" % (place, text))


def with_article(kind):
    """Returns what a kind is called, after its article."""
    return ("an " if kind[0] in "aeio" else "a ") + kind


def fault_of_name(word):
    """Returns what is wrong with a name, or None."""
    if not NAME.fullmatch(word):
        return "%s is no name: A to Z, 0 to 9 and _, the first a letter" % word
    if len(word) > LONGEST_NAME:
        return "%s is longer than %d" % (word, LONGEST_NAME)
    return None


def is_address(word):
    """Returns true if a word is `A.B.C.D:PORT`."""
    numbers = re.split(r"[.:]", word)
    if not re.fullmatch(r"\d+\.\d+\.\d+\.\d+:\d+", word, flags=re.ASCII) or any(len(it) > 10 for it in numbers):
        return False
    return all(int(it) <= 255 for it in numbers[:4]) and 1 <= int(numbers[4]) <= MOST_PORTS


def fault_of_form(kind, word):
    """Returns what is wrong with a word that has to be of this kind, or None."""
    if kind == "number":
        is_right = NUMBER.fullmatch(word) and 1 <= int(word) <= MOST_TREES
        return None if is_right else "%s is no number from 1 to %d" % (word, MOST_TREES)
    if kind == "address":
        return None if is_address(word) else "%s is no address A.B.C.D:PORT" % word
    return None if kind == "parent" and word == "-" else fault_of_name(word)


class Checker:
    """What the lines so far have declared."""

    def __init__(self):
        self.bytes, self.first = 0, True
        # (set of names, name): (kind, place); what a move or an accept is of: its place
        self.names, self.pairs = {}, {}
        self.counts, self.levels = collections.Counter(), {}

    def take(self, line):
        """Checks one line, and takes what it declares."""
        word, *more = line.words
        size = len(" ".join(line.words).encode("utf-8", "surrogateescape"))
        self.bytes += size + 1
        if size > LONGEST_LINE:
            raise Wrong(line.place, "the line that it makes has %d bytes, and may have %d" % (size, LONGEST_LINE))
        if self.first != (word == "tree"):
            raise Wrong(line.place, "the first line has to be `tree N`" if self.first else "a second tree line")
        self.first = False
        if word not in FORMS:
            raise Wrong(line.place, "there is no line %s" % word)
        form, kinds = FORMS[word]
        if len(more) != len(kinds):
            raise Wrong(line.place, "too few or too many words: %s %s" % (word, form))
        for fault in filter(None, map(fault_of_form, kinds, more)):
            raise Wrong(line.place, fault)
        for kind, it in zip(kinds, more):
            self.resolve(kind, it, line.place)
        self.declare(word, more, kinds, line.place)

    def resolve(self, kind, word, place):
        """Checks that a name is declared above as what the line wants."""
        if kind[0] == "+" or kind in ("number", "address") or (kind, word) == ("parent", "-"):
            return
        kind = "domain" if kind == "parent" else kind
        found = self.names.get((SETS.get(kind, kind), word))
        if found is None:
            raise Wrong(place, "there is no %s %s above" % (kind, word))
        if found[0] != kind:
            raise Wrong(place, "%s is %s, and %s is wanted" % (word, with_article(found[0]), with_article(kind)))

    def declare(self, word, more, kinds, place):
        """Takes what a line declares, if that is new and there is room for it."""
        kind = kinds[0].removeprefix("+")
        if kinds[0][0] == "+":
            self.add(self.names, (SETS.get(kind, kind), more[0]), (kind, place), place, more[0])
            self.count("class" if kind.endswith("class") else kind, None, place)
        elif word == "move":
            self.add(self.pairs, tuple(more[:3]), (None, place), place, "a move of " + " ".join(more[:3]))
        elif word == "accept":
            self.add(self.pairs, tuple(more), (None, place), place, "accept " + " ".join(more))
        elif word in ("any", "all"):
            self.count("rules of the class", more[0], place)
        if word == "operator":
            self.count("operators of the station", more[1], place)
        elif word == "device":
            self.count("devices of the domain", more[1], place)
        elif word == "domain":
            self.put_below(more[0], more[3], place)

    def add(self, where, key, value, place, name):
        """Adds what may be declared once."""
        if key in where:
            raise Wrong(place, "%s is there already: %s" % (name, where[key][1]))
        where[key] = value

    def count(self, what, of, place):
        """Counts one more, of a whole tree or of one name in it."""
        self.counts[what, of] += 1
        most = MOST[what] if of is None else MOST_OF[what]
        if self.counts[what, of] > most:
            whose = {"class": "classes"}.get(what, what + "s") if of is None else "%s %s" % (what, of)
            raise Wrong(place, "more than %d %s" % (most, whose))

    def put_below(self, name, parent, place):
        """Takes the level of a domain, and counts the children of its parent."""
        self.levels[name] = self.levels.get(parent, 0) + 1
        if self.levels[name] > LEVELS:
            raise Wrong(place, "%s is more than %d levels down" % (name, LEVELS))
        if parent != "-":
            self.count("children of the domain", parent, place)


def checked(lines, path):
    """Returns the lines, which come from the source at the path, if they make a tree file."""
    checker, taken = Checker(), []
    for line in lines:
        checker.take(line)
        taken.append(line)
        if checker.bytes > LONGEST_FILE:
            raise Wrong(line.place, "the tree file has more than %d bytes" % LONGEST_FILE)
    missing = [it for it in NEEDED if not checker.counts[it, None]]
    if missing:
        raise Wrong(path, "there is no " + ", no ".join(missing))
    return taken
