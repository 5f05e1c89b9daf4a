"""Says which numbers move between two tree files, and whose stores that breaks.

Rows of a store have numbers of stations, operators, domains and actions (docs/FORMATS.md, "Stable rows"). A store
breaks if one of its rows can have a number that now means something else: then it is refused, or grants pass to
somebody else. No row has the number of a state, a class or a device (docs/TREES.md, "Numbers that must not move").
"""

import hierarchy

KINDS = ("station", "operator", "state", "action", "class", "domain", "device")


def names_of(tree, kind):
    """Returns the names of a kind, in the order of their numbers."""
    return list({"station": tree.stations, "operator": tree.operators, "state": tree.states, "action": tree.actions,
                 "class": tree.classes, "domain": tree.domains, "device": tree.devices}[kind])


def moves(old, new, kind):
    """Yields each name of the old tree whose number is no longer its own, and what is said of it."""
    before, after = names_of(old, kind), names_of(new, kind)
    numbers = {name: number for number, name in enumerate(after, 1)}
    for number, name in enumerate(before, 1):
        if name in numbers and numbers[name] != number:
            yield name, "%s %s moves from %d to %d" % (kind, name, number, numbers[name])
        elif name not in numbers and number <= len(after):
            yield name, "%s %s is gone, and %d is %s" % (kind, name, number, after[number - 1])
        elif name not in numbers:
            yield name, "%s %s is gone, and so is the number %d" % (kind, name, number)


def changed_homes(old, new):
    """Yields each operator and domain that is at another station or below another domain, and what is said of it."""
    for name, station in old.operators.items():
        if name in new.operators and new.operators[name] != station:
            yield "operator", name, "operator %s goes from %s to %s" % (name, station, new.operators[name])
    for name, (station, _, parent) in old.domains.items():
        if name in new.domains:
            now, _, above = new.domains[name]
            if now != station:
                yield "domain", name, "domain %s goes from %s to %s" % (name, station, now)
            if above != parent:
                yield "domain", name, "domain %s goes from below %s to below %s" % (name, parent, above)


def stores_with(tree, kind, name):
    """Returns the stations whose stores can have the number of a name: keys, holders, links and pending commands."""
    keepers = {domain: station for domain, (station, _, _) in tree.domains.items()}
    parents = {parent for _, _, parent in tree.domains.values()} - {"-"}
    if kind == "station":
        return {name}
    if kind == "operator":
        return {tree.operators[name], *keepers.values()}
    if kind == "action":
        return {*tree.operators.values(), *(keepers[it] for it in parents)}
    if kind == "domain":
        near = {name, tree.domains[name][2], *tree.children(name)} - {"-"}
        return {*tree.operators.values(), *(keepers[it] for it in near)}
    return set()


def told(old_lines, new_lines):
    """Returns what is said of two tree files, and 1 if a store breaks, or else 0."""
    old, new = hierarchy.of_lines(old_lines), hierarchy.of_lines(new_lines)
    found = [(kind, name, text) for kind in KINDS for name, text in moves(old, new, kind)]
    found += changed_homes(old, new)
    broken = set().union(*(stores_with(old, kind, name) for kind, name, _ in found))
    said = [text for _, _, text in found]
    if old.number != new.number:
        said.append("tree %d is now %d: no node starts on an older store" % (old.number, new.number))
        broken = set(old.stations)
    if broken:
        names = [name for name in old.stations if name in broken]
        return [*said, "stores that break: " + " ".join(names)], 1
    return [*said, "every store goes on"], 0
