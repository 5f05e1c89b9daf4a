"""The stations of a tree and all datagrams ever sent, what items make of them, and the trace of it as text."""

import copy
import itertools

from . import grants, schedule
from .datagrams import KINDS
from .station import Outcome, Station
from .text import Fault

DISK_REFUSED = 31


class World:
    """The stations by number, and the datagrams in the order in which they were sent."""

    def __init__(self, tree):
        self.tree = tree
        self.stations = {it: Station(tree, it) for it in range(1, tree.count("station") + 1)}
        self.sent = []

    def opening(self):
        """Yields the lines of the start of every station."""
        for station in self.stations.values():
            yield from self.started(station)

    def started(self, station):
        """Yields the lines of a start."""
        yield "booted %s %d" % (self.tree.stations[station.number].name, station.stable.boot)
        for thing, seen in station.states.items():
            yield self.line(("passed", thing, seen))

    def make(self, item):
        """Makes an item, and yields the lines that it leaves."""
        if item.word == "restart":
            yield from self.restart(item.numbers[0])
        elif item.word in ("stop", "fail"):
            yield from (self.stop if item.word == "stop" else self.fail)(item)
        else:
            _, step = self.step_of(item)
            out = step()
            yield from map(self.line, out.in_order())
            yield from self.send(out)

    def restart(self, number):
        self.stations[number].start()
        return self.started(self.stations[number])

    def send(self, out):
        """Takes the datagrams that a step sends, and yields their lines."""
        for datagram in out.sent:
            self.sent.append(datagram)
            yield self.sent_line(len(self.sent), datagram)

    def step_of(self, item):
        """Returns the number of the station at which an item is made, or 0, and the step."""
        if item.word in ("deliver", "recent"):
            place = item.numbers[0] - 1 if item.word == "deliver" else len(self.sent) - 1 - item.numbers[0]
            if not 0 <= place < len(self.sent):
                return 0, Outcome
            datagram = self.sent[place]
            return datagram.receiver, lambda: self.stations[datagram.receiver].receive(datagram)
        if item.word == "order":
            operator = item.numbers[0]
            number = self.tree.operators[operator].station
            return number, lambda: self.stations[number].order(operator, item.order)
        if item.word == "report":
            device, state = item.numbers
            number = self.tree.keeper(self.tree.devices[device].domain)
            return number, lambda: self.stations[number].report(self.tree.count("domain") + device, state)
        return item.numbers[0], self.stations[item.numbers[0]].tick

    def stop(self, item):
        """Makes an item up to its save at a station, which is started again."""
        number = item.numbers[0]
        at, step = self.step_of(item.inner)
        if at == number:
            station = self.stations[number]
            before = kept(station)
            out = step()
            if item.how == "after":
                yield from map(self.line, out.saved())
            else:
                station.stable = before
        yield from self.restart(number)

    def fail(self, item):
        """Makes an item at a station so that its save fails."""
        at, step = self.step_of(item.inner)
        station = self.stations[item.numbers[0]]
        if at != station.number:
            return
        before, stable = copy.copy(station), kept(station)
        # a step changes these in place
        for name in ("states", "shown", "watched", "asks", "watchers", "echoes"):
            setattr(before, name, copy.deepcopy(getattr(station, name)))
        before.stable = stable
        out = step()
        if not out.has_saved:
            yield from map(self.line, out.in_order())
            yield from self.send(out)
        elif item.how == "device":
            self.stations[at] = before
            if item.inner.word == "order":
                yield self.line(("told", item.inner.numbers[0], item.inner.order, DISK_REFUSED))
        else:
            if item.how == "after":
                yield from map(self.line, out.saved())
            self.stations[at] = before
            before.stable, before.is_stopped = station.stable if item.how == "after" else stable, True

    # The text of a trace.

    def holder(self, holder):
        if holder == grants.FREE:
            return "free"
        return (self.tree.operators if holder.is_operator() else self.tree.domains)[holder.number].name

    def domain(self, number):
        return self.tree.domains[number].name

    def command(self, command):
        return "%s %s" % (command.verb.name.lower(), self.argument(command))

    def argument(self, command):
        is_action = command.verb == grants.Verb.DO
        return self.tree.actions[command.argument] if is_action else self.domain(command.argument)

    def order(self, order):
        words = [order.word, self.tree.object_name(order.subject)]
        return " ".join([*words, self.argument(order.command())] if order.command() else words)

    def seen(self, thing, seen):
        return "%s %d.%d %s" % (self.tree.object_name(thing), *seen.version, self.tree.states[seen.state])

    def line(self, entry):
        """Returns the line of an entry."""
        kind, *parts = entry
        if kind == "passed":
            return "passed " + self.seen(*parts)
        if kind == "showed":
            return "showed %s %s" % (self.tree.stations[parts[0]].name, self.seen(*parts[1:]))
        if kind == "told":
            return "told %s %s %s" % (self.tree.operators[parts[0]].name, self.order(parts[1]), self.ending(parts[2]))
        if kind == "mode":
            return "mode %s %s" % (self.domain(parts[0]), parts[1].name.lower())
        if kind in ("learned", "letgo"):
            return "%s %s %s %d" % (kind, self.holder(parts[0]), self.domain(parts[1]), parts[2])
        if kind == "ordered":
            operator, domain, epoch, number, command = parts
            return "ordered %s %s %d %d %s" % (self.tree.operators[operator].name, self.domain(domain), epoch, number,
                                               self.command(command))
        text = {"granted": self.holder, "ran": self.command}.get(kind, str)
        return " ".join([kind, self.domain(parts[0]), *map(str, parts[1:-1]), text(parts[-1])])

    def ending(self, end):
        """Returns how an order ended: its code, or the record that was asked for."""
        if isinstance(end, int):
            return str(end)
        phase = "busy" if end.is_busy else "settled"
        return "%s %d %d %s %d" % (self.holder(end.holder), end.epoch, end.last, phase, end.outcome)

    def sent_line(self, number, datagram):
        stations = (self.tree.stations[it].name for it in (datagram.sender, datagram.receiver))
        name = self.tree.object_name(datagram.subject)
        return "sent %d %s %s %s %s" % (number, KINDS[datagram.kind], *stations, name)


def kept(station):
    """Returns a copy of what a station keeps over a stop. Rows and links are never changed in place."""
    stable = copy.copy(station.stable)
    stable.domains, stable.operators = dict(stable.domains), dict(stable.operators)
    return stable


def trace(tree, items):
    """Yields the lines of the opening and of each item. Raises the fault of items that are read on the way."""
    world = World(tree)
    yield from world.opening()
    for item in items:
        yield from world.make(item)


def simulated(tree, items):
    """Returns what `smi sim` prints of items, what it tells on standard error, and its status."""
    lines, told, status = [], b"", 0
    try:
        for line in trace(tree, items):
            lines.append(line + "\n")
    except Fault as fault:
        told, status = b"schedule line %d fault %d\n" % (fault.line, fault.code), 1
    return "".join(lines).encode(), told, status


def by_schedule(tree, data):
    """Returns what `smi sim TREE SCHEDULE` leaves."""
    return simulated(tree, schedule.read_items(tree, data))


def by_seed(tree, seed, steps):
    """Returns what `smi sim TREE --seed N --steps M` leaves."""
    words = itertools.islice(schedule.drawn_words(seed), steps)
    return simulated(tree, (schedule.drawn_item(tree, it) for it in words))
