"""A tree file as the tools see it: what stands on its lines, by name. `smi check` tells whether it is right."""


class Hierarchy:
    """The names of a tree file in the order of their lines, so that a thing's number is its place, from 1."""

    def __init__(self):
        self.number, self.states, self.actions, self.classes = 0, [], [], []
        # station: address; operator: station; domain: (station, class, parent); device: (domain, class)
        self.stations, self.operators, self.domains, self.devices = {}, {}, {}, {}

    def children(self, parent):
        """The domains below this one, or the roots where there is no parent."""
        return [name for name, (_, _, above) in self.domains.items() if above == (parent or "-")]

    def devices_of(self, domain):
        return [name for name, (of, _) in self.devices.items() if of == domain]

    def station_of(self, name):
        """The station of an operator, a domain or a device."""
        if name in self.operators:
            return self.operators[name]
        return self.domains[self.devices[name][0] if name in self.devices else name][0]


def of_lines(lines):
    """The hierarchy that the lines of a tree file declare."""
    made = Hierarchy()
    for line in lines:
        word, *more = line.split() or ["#"]
        if word == "tree":
            made.number = int(more[0])
        elif word == "state":
            made.states += more
        elif word == "action":
            made.actions += more
        elif word == "station":
            made.stations[more[0]] = more[1]
        elif word == "operator":
            made.operators[more[0]] = more[1]
        elif word in ("devclass", "unitclass"):
            made.classes.append(more[0])
        elif word == "domain":
            made.domains[more[0]] = tuple(more[1:])
        elif word == "device":
            made.devices[more[0]] = tuple(more[1:])
    return made


def read(path):
    """The hierarchy of a tree file."""
    with open(path, encoding="ascii") as file:
        return of_lines(file)
