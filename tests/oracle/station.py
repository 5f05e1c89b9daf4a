"""A station manager: what it keeps, and what one event makes of it (docs/PROTOCOL.md, "A step")."""

import dataclasses
import typing

from . import grants
from .datagrams import ASK, DROP, RUN, STATE, TAKE, TELL, UNWATCH, WATCH, Datagram
from .grants import Command, Form, Link, Mode, Verb
from .rows import DomainRow, MOST_LINKS_IN_USE, Stable

MOST_SENT, MOST_WATCHERS = 64, 64
NOT_ACCEPTED, NOT_BELOW, ALREADY, NOT_INCLUDED, NO_WAY, NUMBERS_USED = 1, 2, 3, 4, 6, 7
# The kinds of entries, in the order in which a step leaves them, and the last of those that its save makes.
ENTRIES = ("granted", "freed", "ordered", "ran", "learned", "letgo", "mode", "settled", "showed", "passed", "told")
LAST_SAVED = "settled"
# The modes of children that are sent commands, and of those whose states count.
SENT_COMMANDS, MEMBERS = (Mode.INCLUDED, Mode.IGNORED), (Mode.INCLUDED, Mode.MANUAL)
MODES = {Verb.INCLUDE: Mode.INCLUDED, Verb.MANUAL: Mode.MANUAL, Verb.IGNORE: Mode.IGNORED}


class Order(typing.NamedTuple):
    """An order: its word, and the domain or the object. A command has an action or a target too."""
    word: str
    subject: int
    argument: int = 0

    def command(self):
        """Returns the command that it is, or None."""
        return Command(Verb[self.word.upper()], self.argument) if self.word.upper() in Verb.__members__ else None


@dataclasses.dataclass
class Outcome:
    """What a step leaves: entries, datagrams, and whether it saved a row."""
    entries: list = dataclasses.field(default_factory=list)
    sent: list = dataclasses.field(default_factory=list)
    has_saved: bool = False

    def enter(self, kind, *parts):
        self.entries.append((kind, *parts))

    def in_order(self):
        """Returns the entries in the order in which a step leaves them."""
        return sorted(self.entries, key=lambda it: ENTRIES.index(it[0]))

    def saved(self):
        """Returns the entries that the save of the step makes."""
        last = ENTRIES.index(LAST_SAVED)
        return [it for it in self.in_order() if ENTRIES.index(it[0]) <= last and self.has_saved]


@dataclasses.dataclass
class Seen:
    """What a station knows of an object: its version and its state."""
    version: tuple
    state: int


class Station:
    """A station that has started. What it keeps over a stop is `stable`; the rest begins again at each start."""

    def __init__(self, tree, number, stable=None):
        self.tree, self.number = tree, number
        self.stable = stable or Stable()
        self.domains = [it for it in range(1, tree.count("domain") + 1) if tree.keeper(it) == number]
        self.operators = [it for it in range(1, tree.count("operator") + 1) if tree.operators[it].station == number]
        self.children = [child for it in self.domains for child in tree.children(it)]
        self.children.sort()
        self.is_stopped = False
        self.start()

    def start(self):
        """Starts with the next boot. What is not stable is lost."""
        self.stable.boot += 1
        self.is_stopped = False
        kept = [it for it in range(1, self.tree.objects() + 1) if self.tree.domain_of(it) in self.domains]
        self.states = {it: Seen((self.stable.boot, 0), self.tree.first_state(it)) for it in kept}
        self.shown, self.watched, self.asks, self.after = {}, set(), {}, None
        # the watchers of each object, in the order of their list, with their echoes; the greatest echo of each station
        self.watchers, self.echoes = {it: {} for it in kept}, {}

    # What is stable.

    def row(self, domain):
        return self.stable.domains.get(domain, DomainRow())

    def link(self, operator, domain):
        return self.stable.operators.get(operator, {}).get(domain, Link())

    def child_link(self, child):
        return self.row(self.tree.domains[child].parent).links.get(child, Link())

    def save_row(self, out, domain, row):
        self.stable.domains[domain] = row
        out.has_saved = True

    def save_link(self, out, operator, domain, link):
        self.stable.operators[operator] = {**self.stable.operators.get(operator, {}), domain: link}
        out.has_saved = True

    # What is sent.

    def send(self, out, kind, receiver, subject, **parts):
        if len(out.sent) < MOST_SENT:
            out.sent.append(Datagram(kind, self.number, receiver, subject, **parts))

    def tell(self, out, receiver, domain):
        self.send(out, TELL, receiver, domain, record=self.row(domain).record)

    def due(self, me, domain, link):
        """Returns the datagrams that a link is due, by the numbers of their commands; a take or a drop has 0."""
        to = Datagram(TAKE, self.number, self.tree.keeper(domain), domain, me, link.epoch)
        if link.form == Form.TAKING:
            return {0: to}
        if link.form == Form.DROPPING:
            return {0: to._replace(kind=DROP)}
        return {number: to._replace(kind=RUN, number=number, command=command)
                for number, command in enumerate(link.pending, link.oldest())}

    def send_due(self, out, me, domain, link):
        for datagram in self.due(me, domain, link).values():
            if len(out.sent) < MOST_SENT:
                out.sent.append(datagram)

    # Objects.

    def members(self, domain):
        """Returns the devices of a domain and the children whose states count, with their states."""
        links = self.row(domain).links
        found = {it: self.states[it].state for it in self.tree.devices_of(domain)}
        for child, link in links.items():
            if link.is_held() and link.mode in MEMBERS:
                found[child] = self.shown[child].state if child in self.shown else 0
        return found

    def change(self, out, thing, state):
        """Has an object be in a state. It counts as a change if it was in another."""
        before = self.states[thing]
        if before.state == state:
            return
        boot, sequence = before.version
        self.states[thing] = Seen((boot, sequence + 1), state)
        out.enter("passed", thing, self.states[thing])

    def evaluate(self, out, domain, before):
        """Has the unit of a domain follow its members, if they are not those of before, and tells all changes."""
        members = self.members(domain)
        if members != before:
            state = self.states[domain].state
            self.change(out, domain, self.tree.domains[domain].unit.state_after(state, list(members.values())))
        for entry in out.entries:
            if entry[0] == "passed":
                for receiver, echo in self.watchers[entry[1]].items():
                    self.send_state(out, receiver, entry[1], echo)

    def send_state(self, out, receiver, thing, echo):
        seen = self.states[thing]
        self.send(out, STATE, receiver, thing, echo=echo, version=seen.version, state=seen.state)

    def report(self, thing, state):
        """Takes the report of a device."""
        out = Outcome()
        if not self.is_stopped:
            domain = self.tree.domain_of(thing)
            before = self.members(domain)
            self.change(out, thing, state)
            self.evaluate(out, domain, before)
        return out

    # Datagrams.

    def receive(self, datagram):
        """Takes a datagram of this tree."""
        out = Outcome()
        if self.is_stopped or datagram.receiver != self.number:
            return out
        if datagram.kind in (ASK, TAKE, DROP, RUN):
            self.keep(out, datagram)
        elif datagram.kind == TELL:
            self.hear(out, datagram.subject, datagram.record)
        elif datagram.kind == STATE:
            self.see(out, datagram)
        else:
            self.watch_or_not(out, datagram)
        return out

    def keep(self, out, datagram):
        """Decides what is asked of a domain that the station keeps, and tells its record."""
        domain, row, before = datagram.subject, self.row(datagram.subject), self.members(datagram.subject)
        record, holder, epoch = row.record, datagram.holder, datagram.epoch
        if datagram.kind == RUN and record.admits(holder, epoch, datagram.number):
            row = self.run(out, domain, datagram)
        elif datagram.kind == TAKE and record.taken(holder, epoch) != record:
            row = row._replace(record=record.taken(holder, epoch))
            out.enter("granted", domain, row.record.epoch, holder)
        elif datagram.kind == DROP and record.dropped(holder, epoch) != record:
            row = row._replace(record=record.dropped(holder, epoch))
            out.enter("freed", domain, row.record.epoch)
        links = self.row(domain).links
        if row != self.row(domain):
            self.save_row(out, domain, row)
        self.tell(out, datagram.sender, domain)
        for child, link in sorted(row.links.items()):
            if link != links.get(child, Link()):
                self.send_due(out, grants.domain(domain), child, link)
        self.evaluate(out, domain, before)

    def run(self, out, domain, datagram):
        """Runs a command at a domain. Returns the row that is saved of it."""
        command, row = datagram.command, self.row(domain)
        out.enter("ran", domain, datagram.epoch, datagram.number, command)
        if command.verb == Verb.DO:
            code, links = self.do(out, domain, command)
        else:
            code, links = self.aim(out, domain, command)
        is_busy = any(it.is_unsettled() for it in links.values())
        record = row.record._replace(last=datagram.number, is_busy=is_busy, outcome=0 if is_busy else code)
        if not is_busy:
            out.enter("settled", domain, datagram.epoch, datagram.number, code)
        return DomainRow(record, code if is_busy else 0, links)

    def do(self, out, domain, command):
        """Moves the devices of a domain, and hands an action on. Returns the code and the new links."""
        links, code = dict(self.row(domain).links), 0
        if command.argument not in self.tree.domains[domain].unit.accepted:
            return NOT_ACCEPTED, links
        for thing in self.tree.devices_of(domain):
            state = self.states[thing].state
            self.change(out, thing, self.tree.device(thing).kind.moves.get((state, command.argument), state))
        for child, link in links.items():
            if link.is_held() and link.mode in SENT_COMMANDS:
                more, links[child] = issue(link, command)
                code = max(code, more)
        return code, links

    def aim(self, out, domain, command):
        """Does what a command with a target asks for. Returns the code and the new links."""
        links, child = dict(self.row(domain).links), self.tree.way(domain, command.argument)
        if child is None:
            return NOT_BELOW, links
        link = links.get(child, Link())
        if child == command.argument:
            code, links[child] = self.aim_at_child(out, domain, command, link)
        elif link.is_held() and link.mode in SENT_COMMANDS:
            code, links[child] = issue(link, command)
        else:
            return NO_WAY, links
        return code, links

    def aim_at_child(self, out, domain, command, link):
        """Returns the code and the new link of a child that is the target of a command."""
        child, mode = command.argument, MODES.get(command.verb)
        if not link.is_held():
            if command.verb == Verb.INCLUDE:
                return 0, Link(Form.TAKING, link.epoch)
            return NOT_INCLUDED, link
        if command.verb == Verb.EXCLUDE:
            out.enter("letgo", grants.domain(domain), child, link.epoch)
            return 0, Link(Form.DROPPING, link.epoch)
        if link.mode == mode:
            return ALREADY, link
        out.enter("mode", child, mode)
        return 0, link._replace(mode=mode)

    def hear(self, out, domain, record):
        """Takes a told record: the first link that it changes is changed, and open questions are answered."""
        for operator in self.operators:
            me, link = grants.operator(operator), self.link(operator, domain)
            new, settled = link.told(me, record)
            if new != link:
                self.relink(out, operator, domain, new, settled)
                break
        else:
            if domain in self.children:
                self.hear_of_child(out, domain, record)
        for operator in self.operators:
            if self.asks.get(operator) == domain:
                del self.asks[operator]
                out.enter("told", operator, Order("ask", domain), record)

    def relink(self, out, operator, domain, new, settled):
        """Changes the link of an operator that was told a record, and tells what has settled."""
        me, link = grants.operator(operator), self.link(operator, domain)
        self.save_link(out, operator, domain, new)
        if new.is_held() and not link.is_held():
            out.enter("learned", me, domain, new.epoch)
        for number, code in settled:
            out.enter("told", operator, order_of(link, domain, number), code)
        self.send_due(out, me, domain, new)

    def hear_of_child(self, out, child, record):
        """Takes the record of a child at the domain above."""
        domain = self.tree.domains[child].parent
        me, row, link, before = grants.domain(domain), self.row(domain), self.child_link(child), self.members(domain)
        new, settled = link.told(me, record)
        if new == link or link.counts_as_lost(record):
            return
        gathered, links = max([row.gathered, *(code for _, code in settled)]), {**row.links, child: new}
        if new.is_held() and not link.is_held():
            out.enter("learned", me, child, new.epoch)
        if any(it.is_unsettled() for it in links.values()):
            self.save_row(out, domain, DomainRow(row.record, gathered, links))
        else:
            self.save_row(out, domain, DomainRow(row.record._replace(is_busy=False, outcome=gathered), 0, links))
            out.enter("settled", domain, row.record.epoch, row.record.last, gathered)
            self.tell(out, self.tree.station_of(row.record.holder), domain)
        self.send_due(out, me, child, new)
        self.evaluate(out, domain, before)

    # Watching.

    def watches(self, thing):
        return thing in self.children or thing in self.watched

    def see(self, out, datagram):
        """Takes a told state."""
        thing = datagram.subject
        if datagram.echo != self.stable.boot:
            return
        if not self.watches(thing):
            self.send(out, UNWATCH, datagram.sender, thing, echo=self.stable.boot)
            return
        if thing in self.shown and datagram.version <= self.shown[thing].version:
            return
        domain = self.tree.domains[thing].parent if thing in self.children else 0
        before = self.members(domain) if domain else None
        self.shown[thing] = Seen(datagram.version, datagram.state)
        out.enter("showed", self.number, thing, self.shown[thing])
        if domain:
            self.evaluate(out, domain, before)

    def watch_or_not(self, out, datagram):
        """Takes a `WATCH` or an `UNWATCH` of an object that the station keeps."""
        sender, thing, echo = datagram.sender, datagram.subject, datagram.echo
        there = self.watchers[thing]
        if datagram.kind == UNWATCH:
            if echo >= there.get(sender, echo + 1):
                del there[sender]
            return
        if echo < self.echoes.get(sender, 0):
            return
        if echo > self.echoes.get(sender, 0):
            self.echoes[sender] = echo
            for watchers in self.watchers.values():
                watchers.pop(sender, None)
        if sender in there or len(there) < MOST_WATCHERS:
            there[sender] = echo
            self.send_state(out, sender, thing, echo)

    # Orders and ticks.

    def order(self, operator, order):
        """Takes an order of an operator of the station, about what the tree has."""
        out = Outcome()
        if self.is_stopped:
            return out
        if order.word in ("watch", "unwatch"):
            self.order_watch(out, order)
            out.enter("told", operator, order, 0)
        elif order.word == "ask":
            self.asks[operator] = order.subject
            self.send(out, ASK, self.tree.keeper(order.subject), order.subject)
        else:
            self.order_link(out, operator, order)
        return out

    def order_watch(self, out, order):
        thing, kind = order.subject, WATCH if order.word == "watch" else UNWATCH
        if kind == WATCH:
            self.watched.add(thing)
        elif thing in self.children:
            return
        else:
            self.watched.discard(thing)
        self.send(out, kind, self.tree.keeper(self.tree.domain_of(thing)), thing, echo=self.stable.boot)

    def order_link(self, out, operator, order):
        """Takes an order that changes a link."""
        me, domain, command, link = grants.operator(operator), order.subject, order.command(), self.link(operator,
                                                                                                        order.subject)
        code = self.refusal(operator, order, link)
        if code:
            out.enter("told", operator, order, code)
            return
        if order.word == "take":
            new = Link(Form.TAKING, link.epoch)
        elif order.word == "drop":
            new = Link(Form.DROPPING, link.epoch)
            out.enter("letgo", me, domain, link.epoch)
        else:
            new = link.issued(command)
            out.enter("ordered", operator, domain, new.epoch, new.number, command)
        self.save_link(out, operator, domain, new)
        # of the commands that are pending the newest alone is sent now
        out.sent += list(self.due(me, domain, new).values())[-1:]

    def refusal(self, operator, order, link):
        """Returns the code with which an order that would change a link is refused, or 0."""
        if order.word == "take":
            in_use = sum(it.form != Form.OUT for it in self.stable.operators.get(operator, {}).values())
            return 23 if link.form != Form.OUT else 25 if in_use >= MOST_LINKS_IN_USE else 0
        if not link.is_held():
            return 21
        if order.word == "drop":
            return 22 if link.pending else 0
        if len(link.pending) == grants.MOST_PENDING:
            return 22
        return 24 if link.number == grants.LAST_NUMBER else 0

    def places(self):
        """Returns what is due at each place of a tick, in order."""
        found = {}
        for child in self.children:
            me = grants.domain(self.tree.domains[child].parent)
            # a child has one place, because one command at most is pending
            found.update({(0, child, 0, 0): it for it in self.due(me, child, self.child_link(child)).values()})
        for operator in self.operators:
            for domain, link in self.stable.operators.get(operator, {}).items():
                due = self.due(grants.operator(operator), domain, link)
                found.update({(1, operator, domain, number): it for number, it in due.items()})
            if operator in self.asks:
                domain = self.asks[operator]
                found[2, operator, 0, 0] = Datagram(ASK, self.number, self.tree.keeper(domain), domain)
        for thing in {*self.children, *self.watched}:
            keeper = self.tree.keeper(self.tree.domain_of(thing))
            found[3, thing, 0, 0] = Datagram(WATCH, self.number, keeper, thing, echo=self.stable.boot)
        return sorted(found.items())

    def tick(self):
        """Sends what is due, from the place after the last tick's on, and at most 64."""
        out = Outcome()
        if self.is_stopped:
            return out
        due = [it for it in self.places() if self.after is None or it[0] > self.after][:MOST_SENT]
        out.sent = [it for _, it in due]
        self.after = due[-1][0] if len(due) == MOST_SENT else None
        # the last place of all has none after it
        if self.after == (3, self.tree.objects(), 0, 0):
            self.after = None
        return out


def issue(link, command):
    """Returns the code with which a command can't be issued, or 0, and the link."""
    return (NUMBERS_USED, link) if link.number == grants.LAST_NUMBER else (0, link.issued(command))


def order_of(link, domain, number):
    """Returns the order that settles as a number of a link."""
    if number == 0:
        return Order("take" if link.form == Form.TAKING else "drop", domain)
    command = link.pending[number - link.oldest()]
    return Order(command.verb.name.lower(), domain, command.argument)
