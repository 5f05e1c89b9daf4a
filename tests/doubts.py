"""What is lawful in a tree file and surely not meant, worked out from its lines (docs/FORMATS.md, "Doubts").

It goes by classes and rules, where the program goes by look-ups of domains and devices.
"""

SAME = "doubt: station %s has the address of station %s\n"
IDLE = "doubt: domain %s accepts %s, by which no device moves below a domain of its class\n"
REFUSED = ("doubt: domain %s does not accept %s, which its parent accepts, so each such order from above ends with "
           "code 1\n")
UNRULED = "doubt: domain %s keeps its old state if all its members are in %s\n"
MIXED = "doubt: domain %s keeps its old state if its members are in two or more of %s\n"
OBEDIENT = "doubt: device %s is moved by %s though nobody has reported it\n"
UNREACHED = "doubt: nothing begins in state %s, and no rule or move leads to it\n"


class Declared:
    """The words behind the first of each line, by that first word."""

    def __init__(self, text):
        words = [line.split() for line in text.replace("\r\n", "\n").split("\n")]
        self.lines = [line for line in words if line and not line[0].startswith("#")]

    def of(self, word, class_=None):
        return [line[1:] for line in self.lines if line[0] == word and class_ in (None, line[1])]

    def names(self, word):
        return [line[0] for line in self.of(word)]


def place_of(address):
    """Returns an address by its numbers."""
    host, port = address.split(":")
    return tuple(map(int, host.split("."))), int(port)


def same(tree):
    """Stations with the address of an earlier one."""
    seen = {}
    for name, address in tree.of("station"):
        first = seen.setdefault(place_of(address), name)
        if first != name:
            yield SAME % (name, first)


def with_all_above(tree):
    """Returns each domain, with its class and those of all above it."""
    found = {}
    for name, _, class_, parent in tree.of("domain"):
        found[name] = {class_} | found.get(parent, set())
    return found


def actions(tree):
    """What is told of actions, by domain and then by action."""
    found = {}
    for pairs in (idle(tree), refused(tree)):
        for (domain, action), line in pairs:
            found.setdefault((domain, action), []).append(line)
    for domain in tree.names("domain"):
        for action in tree.names("action"):
            yield from found.get((domain, action), [])


def refused(tree):
    """Actions that a class of units does not accept, and one above it does."""
    class_of, seen = {line[0]: line[2] for line in tree.of("domain")}, set()
    accepted = {(class_, action) for class_, action in tree.of("accept")}
    for name, _, class_, parent in tree.of("domain"):
        above = class_of.get(parent)
        for action in tree.names("action") if above and (class_, above) not in seen else []:
            if (above, action) in accepted and (class_, action) not in accepted:
                yield (name, action), REFUSED % (name, action)
        seen.add((class_, above))


def idle(tree):
    """Actions that a class of units accepts, and that no device below moves by."""
    above = with_all_above(tree)
    stirred = {(class_, action) for class_, start, action, end in tree.of("move") if start != end}
    moved = {(class_, action) for _, domain, kind in tree.of("device") for class_ in above[domain]
             for action in tree.names("action") if (kind, action) in stirred}
    seen = set()
    for name, _, class_, _ in tree.of("domain"):
        accepted = [] if class_ in seen else [action for _, action in tree.of("accept", class_)]
        seen.add(class_)
        for action in tree.names("action"):
            if action in accepted and (class_, action) not in moved:
                yield (name, action), IDLE % (name, action)


def rules_of(tree, class_):
    """Returns the rules of a class of units, in their order."""
    return [[line[0], *line[2:]] for line in tree.lines if line[0] in ("any", "all") and line[1] == class_]


def member_states(tree):
    """Returns by class of units in which states members of its domains can be, and the classes with two members."""
    class_of = {line[0]: line[2] for line in tree.of("domain")}
    first = {line[0]: line[1] for word in ("devclass", "unitclass") for line in tree.of(word)}
    states, members = {}, {}
    for name, _, class_, parent in tree.of("domain"):
        if parent != "-":
            states.setdefault(class_of[parent], set()).update([first[class_], *led_to(rules_of(tree, class_))])
            members.setdefault(parent, []).append(name)
    for name, domain, kind in tree.of("device"):
        ends = {end for line in tree.of("move", kind) if line[1] != line[3] for end in (line[1], line[3])}
        states.setdefault(class_of[domain], set()).update([first[kind], *ends])
        members.setdefault(domain, []).append(name)
    return states, {class_of[domain] for domain, names in members.items() if len(names) > 1}


def unruled(tree):
    """Sets of states of members over which no rule of a class holds."""
    states, shared = member_states(tree)
    seen = set()
    for name, _, class_, _ in tree.of("domain"):
        ruled = {(how, state) for how, state, _ in rules_of(tree, class_)}
        can_be = [] if class_ in seen else [it for it in tree.names("state") if it in states.get(class_, ())]
        seen.add(class_)
        loose = [state for state in can_be if ("any", state) not in ruled]
        for state in loose:
            if ("all", state) not in ruled:
                yield UNRULED % (name, state)
        if len(loose) > 1 and class_ in shared:
            yield MIXED % (name, " ".join(loose))


def obedient(tree):
    """Actions that move a device out of the state in which it begins."""
    first, seen = dict(line[:2] for line in tree.of("devclass")), set()
    for name, _, kind in tree.of("device"):
        moved = {action for _, start, action, end in tree.of("move", kind) if start == first[kind] and end != start}
        for action in tree.names("action") if kind not in seen else []:
            if action in moved:
                yield OBEDIENT % (name, action)
        seen.add(kind)


def led_to(rules):
    """Yields the targets of rules that can be the first that holds."""
    before = set()
    for how, state, target in rules:
        # over members in this state alone, or beside one that was not shown yet, which no rule names
        if ("any", state) not in before and (how == "any" or ("all", state) not in before):
            yield target
        before.add((how, state))


def reached(tree):
    """Returns the states in which something begins, or to which a move or a rule of a class that is used leads."""
    kinds, units = {line[2] for line in tree.of("device")}, {line[2] for line in tree.of("domain")}
    found = {first for word, used in (("devclass", kinds), ("unitclass", units))
             for class_, first in tree.of(word) if class_ in used}
    found |= {end for class_, start, _, end in tree.of("move") if class_ in kinds and start != end}
    for class_ in units:
        found |= set(led_to(rules_of(tree, class_)))
    return found


def told(text):
    """Returns what is told of a lawful tree file."""
    tree = Declared(text)
    there = reached(tree)
    unreached = [UNREACHED % state for state in tree.names("state") if state not in there]
    return "".join([*same(tree), *actions(tree), *unruled(tree), *unreached, *obedient(tree)])
