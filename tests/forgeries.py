"""Datagrams to a node as others may forge them, and what the oracle says that the node makes of them.

A node of the first station runs on rows that have none of its own operators' links, over a tree in which it keeps no
child of its own domains. So it hears nothing from itself that matters, and what it saves and answers does not depend
on when it ticks.
"""

import os
import socket
import tempfile
import time

# it puts tools on the path, so it comes first
import running
import cases
import layout
import nodes
import stores
from consoles import wait_for
from oracle import datagrams, grants, refusals, rows
from oracle.datagrams import ASK, DROP, LENGTH, RUN, STATE, TAKE, TELL, UNWATCH, WATCH, Datagram
from oracle.grants import Command, Record, Verb
from oracle.station import Station

# What a tick never sends, and how many datagrams are sent before the answers are awaited.
ANSWERS, AT_ONCE = (TELL, STATE, UNWATCH), 40
HERE, OTHERS = 1, (2, 3)
# How long answers may take, in seconds, and the share of nodes whose rows are near their limits.
LONGEST, NEAR_LIMITS = 5, 0.3


def is_usable(tree):
    """Returns true if the first station keeps a domain, and no domain of it has a child there."""
    kept = [it for it in range(1, tree.count("domain") + 1) if tree.keeper(it) == HERE]
    return bool(kept) and not any(tree.keeper(child) == HERE for it in kept for child in tree.children(it))


def near_limits(draw, tree, store):
    """Returns rows of domains of which some have epochs and numbers at the ends of their ranges."""
    found = dict(store)
    for key, data in store.items():
        if key[1] and draw.random() < 0.7:
            row, last, epoch = rows.domain_row_of(tree, HERE, key[1], data), grants.LAST_NUMBER, grants.LAST_EPOCH
            record = Record(epoch - draw.choice([0, 2]))
            if row.record.holder != grants.FREE:
                record = row.record._replace(epoch=epoch - 1, last=last - draw.choice([0, 1, 2]))
            links = {child: link._replace(epoch=epoch - 1, number=last - draw.choice([0, 1]) if link.is_held() else 0)
                     for child, link in row.links.items()}
            found[key] = rows.domain_bytes(row._replace(record=record, links=links))
    return found


def drawn(draw, station):
    """Returns a datagram that may fit what a station knows, and of which a field may be changed."""
    domain, sender = draw.choice(station.domains), draw.choice(OTHERS)
    kind = draw.choice([ASK, TAKE, TAKE, DROP, RUN, RUN, TELL, TELL, TELL, STATE, STATE, WATCH, UNWATCH])
    kind = ASK if kind in (TELL, STATE) and not station.children else kind
    made = Datagram(kind, sender, HERE, domain)
    if kind in (TAKE, DROP, RUN):
        made = asked(draw, station, made)
    elif kind in (TELL, STATE):
        made = told(draw, station, made._replace(subject=draw.choice(station.children)))
    elif kind != ASK:
        thing = draw.choice(list(station.states))
        made = made._replace(subject=thing, echo=draw.choice([1, 2, 2, 3, 4]))
    data = bytearray(made.encoded(station.tree.number))
    if draw.random() < 0.3:
        place, size, _ = draw.choice(list(layout.FIELDS.values()))
        number = draw.choice([draw.choice(cases.ENDS), draw.randrange(6), draw.randrange(6)])
        data[place:place + size] = (number % 256 ** size).to_bytes(size, "big")
    return bytes(data[:draw.choice([LENGTH] * 50 + [43])])


def asked(draw, station, made):
    """Returns a `TAKE`, a `DROP` or a `RUN` near the record of its domain."""
    record, tree = station.row(made.subject).record, station.tree
    holders = [grants.operator(it) for it in range(1, tree.count("operator") + 1)]
    if tree.domains[made.subject].parent:
        holders.append(grants.domain(tree.domains[made.subject].parent))
    fits = draw.random() < 0.8
    holder = record.holder if fits and record.holder != grants.FREE else draw.choice(holders)
    sender = tree.station_of(holder) if draw.random() < 0.95 else made.sender
    epoch = max(0, record.epoch + (0 if fits else draw.choice([-2, -1, 0, 1, 2])))
    made = made._replace(sender=sender, holder=holder, epoch=epoch if made.kind == TAKE else epoch | 1)
    if made.kind != RUN:
        return made
    verb = draw.choice([Verb.DO, *Verb])
    targets = tree.children(made.subject) or range(1, tree.count("domain") + 1)
    argument = draw.randrange(1, tree.count("action") + 1) if verb == Verb.DO else draw.choice(targets)
    number = max(1, record.last + (1 if fits else draw.choice([0, 1, 2])))
    return made._replace(number=number, command=Command(verb, argument))


def told(draw, station, made):
    """Returns a `TELL` near the link of a child, or a `STATE` of its unit."""
    tree, child = station.tree, made.subject
    link, made = station.child_link(child), made._replace(sender=tree.keeper(child))
    if made.kind == STATE:
        boot = station.stable.boot
        return made._replace(echo=draw.choice([boot, boot, boot, boot + 1, max(1, boot - 1)]),
                             version=(draw.randrange(1, 4), draw.randrange(4)),
                             state=draw.randrange(1, tree.count("state") + 1))
    # what settles the link, or any epoch near it
    fits = 0 if link.is_held() else 1
    epoch = max(0, link.epoch + draw.choice([fits, fits, fits, fits, -1, 0, 1, 2, 3]))
    if epoch % 2 == 0:
        return made._replace(record=Record(epoch))
    holder = grants.domain(tree.domains[child].parent) if draw.random() < 0.8 else grants.operator(1)
    last = max(0, link.number + draw.choice([-1, 0, 0, 0, 0, 1, 2]))
    is_busy = last > 0 and draw.random() < 0.3
    outcome = draw.choice([0, 0, 1, 2, 5, 6, 7, 9]) if last and not is_busy else 0
    return made._replace(record=Record(epoch, holder, last, is_busy, outcome))


class Expected:
    """The station as the oracle has it, and what it answers to each of the others, in order."""

    def __init__(self, tree, store):
        self.station = Station(tree, HERE, rows.read_rows(tree, HERE, store))
        self.answers = {it: [] for it in OTHERS}

    def take(self, data):
        refusal, number, datagram = datagrams.decoded(data)
        if refusal or refusals.refusal(self.station, number, datagram):
            return
        for sent in self.station.receive(datagram).sent:
            if sent.kind in ANSWERS and sent.receiver in OTHERS:
                self.answers[sent.receiver].append(sent.encoded(number))

    def outcome(self):
        return self.answers, b"", cases.rows_of_station(self.station)


class Others:
    """The sockets of the other stations, and what the node has answered to each of them."""

    def __init__(self, ports):
        self.sockets, self.answers, self.node = {}, {it: [] for it in OTHERS}, ("127.0.0.1", ports[HERE - 1])
        for it in OTHERS:
            self.sockets[it] = socket.socket(socket.AF_INET, socket.SOCK_DGRAM)
            self.sockets[it].bind(("127.0.0.1", ports[it - 1]))
            self.sockets[it].settimeout(0.2)

    def send(self, data):
        self.sockets[OTHERS[0]].sendto(data, self.node)

    def wait(self, wanted):
        """Takes answers until there are as many as wanted. Returns true if they came in time."""
        until = time.monotonic() + LONGEST
        for it in OTHERS:
            while len(self.answers[it]) < len(wanted[it]) and time.monotonic() < until:
                self.take(it)
        return time.monotonic() < until

    def take(self, station):
        """Takes a datagram, if one comes. What ticks send is no answer."""
        try:
            data = self.sockets[station].recv(LENGTH + 1)
        except socket.timeout:
            return
        if data[3] in ANSWERS:
            self.answers[station].append(data)

    def close(self):
        for it in self.sockets.values():
            it.close()


def played(program, true, draw, count):
    """Sends a node this many drawn datagrams. Returns them, and what came of them, and what was wanted.

    What comes is the answers to each of the others, what the node told, and its rows.
    """
    store = {key: data for key, data in true.rows.items() if key[0] == HERE and key[2] == 0}
    if draw.random() < NEAR_LIMITS:
        store = near_limits(draw, true.tree, store)
    expected, sent = Expected(true.tree, store), []
    with tempfile.TemporaryDirectory() as folder:
        path, where = os.path.join(folder, "store"), os.path.join(folder, "console")
        stores.store(path, stores.TABLE, [(key, data.hex()) for key, data in store.items()])
        others = Others(true.ports)
        node = nodes.Node(program, [true.path, true.tree.stations[HERE].name, path, "--endless", "--console", where,
                                    "--sources", "any"])
        try:
            wait_for(where, node)
            while len(sent) < count:
                sent.append(ask(expected.station) if len(sent) % AT_ONCE == 0 else drawn(draw, expected.station))
                expected.take(sent[-1])
                others.send(sent[-1])
                if len(sent) % AT_ONCE == 1 and not others.wait(expected.answers):
                    break
        finally:
            node.kill()
            others.close()
        came = others.answers, "".join(node.err).encode(), {key: bytes.fromhex(it) for key, it in stores.rows_in(path)}
    return sent, came, expected.outcome()


def ask(station):
    """Returns a question, whose answer comes once all before it was taken."""
    return Datagram(ASK, OTHERS[0], HERE, station.domains[0]).encoded(station.tree.number)
