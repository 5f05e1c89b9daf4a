"""Lines for a node's console that say one thing of many domains or devices (docs/FORMATS.md, "A node's lines").

usage: lines.py TREE report NAME STATE
       lines.py TREE include OPERATOR DOMAIN
       lines.py TREE exclude OPERATOR DOMAIN

`report` has a line for each device of a station, or of a domain and all below it: the device is in that state.
`include` has the operator take the domain, include all domains below it, from the top, and give it back.
`exclude` has the operator exclude every domain directly below it, and give it back.
"""

import sys

import hierarchy


def below(tree, domain):
    """The domains below this one, each after its parent."""
    for child in tree.children(domain):
        yield child
        yield from below(tree, child)


def domains_of(tree, name):
    """The domains of a station, or a domain and all below it."""
    if name in tree.stations:
        return [domain for domain in tree.domains if tree.station_of(domain) == name]
    return [name, *below(tree, name)]


def reports(tree, name, state):
    for domain in domains_of(tree, name):
        for device in tree.devices_of(domain):
            yield "report %s %s" % (device, state)


def orders(tree, verb, operator, domain):
    """What the operator orders: the domain is held already where its children are to be excluded."""
    if verb == "include":
        inner = ["include %s %s" % (domain, it) for it in below(tree, domain)]
        said = ["take " + domain, *inner, "drop " + domain]
    else:
        said = ["exclude %s %s" % (domain, it) for it in tree.children(domain)] + ["drop " + domain]
    return ["order %s %s" % (operator, it) for it in said]


def lines(tree, what, first, second):
    """The lines of a command line, or nothing where a word of it is no name of the tree."""
    if what == "report" and second in tree.states and (first in tree.stations or first in tree.domains):
        return list(reports(tree, first, second))
    if what in ("include", "exclude") and first in tree.operators and second in tree.domains:
        return orders(tree, what, first, second)
    return []


def main():
    if len(sys.argv) != 5:
        sys.exit(__doc__.split("\n\n")[1])
    found = lines(hierarchy.read(sys.argv[1]), *sys.argv[2:])
    if not found:
        sys.exit("nothing of that name: %s" % " ".join(sys.argv[2:]))
    print("\n".join(found))


if __name__ == "__main__":
    main()
