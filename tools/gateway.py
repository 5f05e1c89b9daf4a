"""A gateway between two trees: a device of an upper tree that stands for the root of a lower one.

usage: gateway.py UPPER ASKER DEVICE DOMAIN LOWER OPERATOR ROOT FILE
                  [--state LOWER=UPPER ..] [--action UPPER=LOWER ..] [--caused STATE ..]

UPPER is the console of the node that keeps DEVICE, the one device of DOMAIN there, which has no domain below it; ASKER
is an operator of that node, whose questions are the gateway's alone. LOWER is the console of the node that keeps ROOT;
OPERATOR is an operator of that node whom nobody else uses. FILE is a small SQLite file that the gateway makes: it has
to outlive the gateway, and new stores of the upper tree need a new one.

While DOMAIN is held above, OPERATOR holds ROOT, under a grant of its own for each grant of DOMAIN. An action that is
done at DEVICE is ordered at ROOT, once at most, and only while the grant of DOMAIN under which it was done still holds.
Any other is lost, which is told. States go up by their names: ROOT's state; UNKNOWN while ROOT can't be asked; LOCAL
while somebody else holds it. RUNNING goes up only if a command of the gateway under this grant has caused it, and is
LOCAL else; --caused names other states of ROOT in place of RUNNING. States and actions have the same names in both
trees but for those that are paired. The upper tree needs the states UNKNOWN and LOCAL.

What holds across the two trees and what does not is in docs/PROTOCOL.md, "Trees of trees". What becomes of each action
is told on standard output, and of one that is lost in the journals of both nodes too, as a remark.
"""

import argparse
import collections
import os
import sqlite3
import sys
import threading
import time

sys.path.insert(0, os.path.dirname(os.path.abspath(__file__)))

import lunskaf

# How often both domains are asked for, how long each question and take may last, and how old an answer may be on which
# an action is ordered, in seconds.
PERIOD, PATIENCE, FRESH = 0.25, 2.0, 1.0
# How long after an answer of DOMAIN's keeper all actions that were told before it are in the file, in seconds.
HEARD = 1.0
# How long an order of which the answer was lost may still be on its way into the record of ROOT, in seconds.
SETTLING = 3.0
# How long the answer to an action is waited for at a time, before the node is asked what became of it, in seconds.
ANSWER = 3600.0
UNKNOWN, LOCAL = "UNKNOWN", "LOCAL"
# Why an action is lost that nobody told the gateway.
MISSED = "it was done while the gateway was away"

SCHEMA = """
CREATE TABLE IF NOT EXISTS grants
    (above INTEGER PRIMARY KEY, below INTEGER, heard INTEGER NOT NULL, boot INTEGER, sequence INTEGER);
CREATE TABLE IF NOT EXISTS orders
    (above INTEGER, number INTEGER, action TEXT NOT NULL, before INTEGER, ended TEXT, PRIMARY KEY (above, number));
"""

# An action that was done under a grant of DOMAIN, by its number there, and the last number of ROOT before it was
# ordered; None if it was not.
Order = collections.namedtuple("Order", "above number action before")


class Ledger:
    """The file: grants of DOMAIN with those of ROOT that belong to them, and each action with what became of it."""

    def __init__(self, path):
        # one gateway alone: a second one would order an action a second time
        self.base = sqlite3.connect(path, timeout=0, isolation_level=None, check_same_thread=False)
        self.turn = threading.RLock()
        self.base.execute("PRAGMA locking_mode = EXCLUSIVE")
        self.base.execute("PRAGMA synchronous = FULL")
        self.base.execute("BEGIN EXCLUSIVE")
        self.base.execute("COMMIT")
        self.base.executescript(SCHEMA)

    def all(self, text, *values):
        with self.turn:
            return self.base.execute(text, values).fetchall()

    def grant(self, above):
        """Returns the epoch of ROOT for one of DOMAIN, the last number heard of, and the version of ROOT's state when
        the first action was ordered. Each is None if there is none."""
        found = self.all("SELECT below, heard, boot, sequence FROM grants WHERE above = ?", above)
        return found[0] if found else (None, 0, None, None)

    def newest(self):
        """Returns the newest epoch of DOMAIN that is in the file."""
        return self.all("SELECT coalesce(max(above), 0) FROM grants")[0][0]

    def begin_grant(self, above, below):
        self.all("INSERT INTO grants VALUES (?, ?, 0, NULL, NULL)"
                 " ON CONFLICT (above) DO UPDATE SET below = excluded.below, boot = NULL", above, below)

    def hear(self, above, number):
        """Notes that every action of a grant up to this number was told, if it was one."""
        self.all("INSERT INTO grants VALUES (?, NULL, ?, NULL, NULL)"
                 " ON CONFLICT (above) DO UPDATE SET heard = max(heard, excluded.heard)", above, number)

    def tell(self, above, number, action, ended=None):
        """Adds an action that was told, or one that has ended already. Returns false if it is there."""
        with self.turn:
            before = self.base.total_changes
            self.all("INSERT OR IGNORE INTO orders VALUES (?, ?, ?, NULL, ?)", above, number, action, ended)
            return self.base.total_changes > before

    def is_at_work(self):
        """Returns true if an action was ordered, and has not ended."""
        return bool(self.all("SELECT 1 FROM orders WHERE before IS NOT NULL AND ended IS NULL"))

    def take_back(self, order):
        """Notes that an action was not ordered after all."""
        self.all("UPDATE orders SET before = NULL WHERE above = ? AND number = ?", order.above, order.number)

    def give(self, order, before, shown):
        """Notes that an action is ordered now: after a stop nobody orders it again."""
        with self.turn:
            self.base.execute("BEGIN")
            self.all("UPDATE orders SET before = ? WHERE above = ? AND number = ?", before, order.above, order.number)
            if shown is not None:
                self.all("UPDATE grants SET boot = ?, sequence = ? WHERE above = ? AND boot IS NULL",
                         shown.boot, shown.sequence, order.above)
            self.base.execute("COMMIT")

    def end(self, order, ended):
        self.all("UPDATE orders SET ended = ? WHERE above = ? AND number = ?", ended, order.above, order.number)

    def next(self):
        """Returns the oldest action that has not ended, or None."""
        found = self.all("SELECT above, number, action, before FROM orders WHERE ended IS NULL"
                         " ORDER BY above, number LIMIT 1")
        return Order(*found[0]) if found else None

    def known(self, above):
        """Returns the numbers of the actions of a grant."""
        return {it[0] for it in self.all("SELECT number FROM orders WHERE above = ?", above)}


class Lost(Exception):
    """An action that is not ordered, or of which nobody can say what became."""


class Gateway:
    """What both trees are known to be in, and the threads that act on it."""

    def __init__(self, words):
        self.words, self.ledger = words, Ledger(words.file)
        self.upper, self.lower = lunskaf.Node(words.upper, PATIENCE), lunskaf.Node(words.lower, PATIENCE)
        self.states, self.actions = dict(words.state), dict(words.action)
        # the newest records, and when their questions were given; the newest state of ROOT
        self.above, self.below, self.shown = None, None, None
        self.asked_above = self.asked_below = float("-inf")
        self.reported, self.said = None, {}
        # since when actions are told without a gap, and the first record after that: up to its last number they may be
        # missed; what records told lately. Each is when it was asked for, an epoch and a last number
        self.told_since, self.gap, self.lately = None, None, collections.deque()
        # one report at a time, one question at a time of each operator, and one who takes, drops or orders below
        self.turn, self.hand, self.to_do = threading.RLock(), threading.RLock(), threading.Event()
        self.asking_above, self.asking_below = threading.RLock(), threading.RLock()
        self.device = lunskaf.Device(self.upper, words.device, will=UNKNOWN)
        self.device.on_start(self.begin)
        self.device.on_lost(self.miss)
        self.device.on(None, self.tell)

    def say(self, *words):
        print(time.strftime("%H:%M:%S"), self.words.device, *words, flush=True)

    def complain(self, about, text):
        """Tells what is wrong, but not the same over and over."""
        if self.said.get(about) != text:
            self.said[about] = text
            if text:
                self.say("%s: %s" % (about, text))

    # What goes up

    def is_ours(self):
        """Returns true if OPERATOR holds ROOT by the grant that belongs to DOMAIN's grant of now."""
        return (self.above is not None and self.below is not None and self.below.holder == self.words.operator
                and self.below.epoch == self.ledger.grant(self.above.epoch)[0])

    def is_caused(self):
        """Returns true if the state of ROOT is newer than the first action that was ordered under this grant."""
        _, _, boot, sequence = self.ledger.grant(self.above.epoch) if self.is_ours() else (None,) * 4
        return boot is not None and (self.shown.boot, self.shown.sequence) > (boot, sequence)

    def state(self):
        """Returns what DEVICE is in."""
        if time.monotonic() - self.asked_below > PATIENCE + 2 * PERIOD or self.below is None or self.shown is None:
            return UNKNOWN
        if self.below.holder not in ("free", self.words.operator):
            return LOCAL
        if self.shown.state in self.words.caused and not self.is_caused():
            return LOCAL
        return self.states.get(self.shown.state, self.shown.state)

    def report(self, again=False):
        """Reports DEVICE if its state is another one than was reported last, or if it may have been moved."""
        with self.turn:
            state = self.state()
            if state == self.reported and not again:
                return
            try:
                self.upper.report(self.words.device, state)
                self.reported = state
                self.complain("report", "")
            except lunskaf.FAILURES as failure:
                self.reported = None
                self.complain("report", str(failure))

    def follow(self):
        """Reports each state of ROOT in its order."""
        def lost():
            self.shown = None
            self.report()

        for shown in self.lower.follow(self.words.root, on_lost=lost):
            self.shown = shown
            self.report()

    # Grants

    def ask_above(self):
        """Asks for DOMAIN, and ends the program if the file is of other stores."""
        with self.asking_above:
            # before the question, because an action of a later grant may be told while it is answered
            newest, begun = self.ledger.newest(), time.monotonic()
            record = self.upper.ask(self.words.asker, self.words.domain, patience=PATIENCE)
            if record.epoch < newest:
                self.say("%s is at epoch %d, and the file knows a later one: new stores need a new file" % (
                    record.domain, record.epoch))
                os._exit(1)
            self.above, self.asked_above = record, begun
            return record

    def ask_below(self):
        with self.asking_below:
            begun = time.monotonic()
            self.below = self.lower.ask(self.words.operator, self.words.root, patience=PATIENCE)
            self.asked_below = begun
            return self.below

    def own(self):
        """Takes ROOT for a grant of DOMAIN, and drops it once that has ended and nothing is in work below."""
        above, below = self.above, self.below
        is_held, is_mine = above.holder != "free", below.holder == self.words.operator
        belongs = self.ledger.grant(above.epoch)[0]
        if is_mine and (not is_held or belongs != below.epoch) and not self.ledger.is_at_work():
            self.lower.drop(self.words.operator, self.words.root, patience=PATIENCE)
            self.say("dropped", self.words.root)
        elif is_held and below.holder == "free":
            self.lower.take(self.words.operator, self.words.root, patience=PATIENCE)
            taken = self.ask_below()
            if taken.holder == self.words.operator:
                self.ledger.begin_grant(above.epoch, taken.epoch)
                self.say("took %s at epoch %d for %s at epoch %d" % (
                    self.words.root, taken.epoch, above.holder, above.epoch))
                self.to_do.set()

    def look(self):
        """Asks both domains, and has ROOT held as DOMAIN is, without end."""
        while True:
            try:
                self.ask_above()
                self.complain("above", "")
                self.look_for_gaps()
                self.ask_below()
                with self.hand:
                    self.own()
                self.complain("below", "")
            except lunskaf.FAILURES as failure:
                self.complain("below" if time.monotonic() - self.asked_above < PATIENCE else "above", str(failure))
            self.report()
            time.sleep(PERIOD)

    # Actions

    def begin(self):
        """Reports again, because a node that has begun does not know DEVICE. Whatever was done before may be missed."""
        self.gap, self.told_since = None, time.monotonic()
        self.report(again=True)

    def miss(self):
        """Notes that actions are not told from now on."""
        self.told_since = None

    def tell(self, acted):
        """Takes an action that was done at DEVICE."""
        if acted.epoch is None or acted.domain != self.words.domain:
            self.say("%s is not in %s" % (self.words.device, self.words.domain) if acted.epoch else
                     "the node at %s names no commands: it needs a newer program" % self.words.upper)
            os._exit(1)
        action = self.actions.get(acted.action, acted.action)
        if self.ledger.tell(acted.epoch, acted.number, action):
            self.to_do.set()
        self.report(again=True)

    def look_for_gaps(self):
        """Tells which commands of DOMAIN nobody told, once all that the node had to tell must be here."""
        since, newest = self.told_since, (self.asked_above, self.above.epoch, self.above.last)
        self.lately.append(newest)
        if since is None:
            return
        if self.gap is None and newest[0] > since:
            self.gap = newest
        elif self.gap and time.monotonic() - self.gap[0] > HEARD:
            _, epoch, last = self.gap
            self.gap = ()
            known = self.ledger.known(epoch)
            for number in range(self.ledger.grant(epoch)[1] + 1, last + 1):
                if number not in known and self.ledger.tell(epoch, number, "?", "lost: " + MISSED):
                    self.lose(Order(epoch, number, "?", None), MISSED)
            self.ledger.hear(epoch, last)
        # a command without an action, as one that DOMAIN does not accept, is told by nobody, and is no gap later
        while self.lately and time.monotonic() - self.lately[0][0] > HEARD:
            asked, epoch, last = self.lately.popleft()
            if self.gap == () and asked > since and self.ledger.grant(epoch)[1] < last:
                self.ledger.hear(epoch, last)

    def lose(self, order, why):
        """Ends an action that is never ordered again, and tells that."""
        text = "%s, number %d of epoch %d, is lost: %s" % (order.action, order.number, order.above, why)
        self.ledger.end(order, "lost: " + why)
        self.say(text)
        for node in (self.upper, self.lower):
            node.remark("gateway %s: %s" % (self.words.device, text))

    def check(self, order):
        """Returns ROOT's record if the grant of an action still holds above and below."""
        above = self.ask_above()
        if above.epoch != order.above or above.holder == "free":
            raise Lost("the grant of %s has ended" % self.words.domain)
        below = self.ask_below()
        if below.holder not in ("free", self.words.operator):
            raise Lost("%s holds %s" % (below.holder, self.words.root))
        # it is taken soon, or dropped after an older grant
        return below if below.holder != "free" and below.epoch == self.ledger.grant(order.above)[0] else None

    def order(self, order):
        """Orders an action at ROOT, if its grant still holds. Returns false if that can't be said yet."""
        begun = time.monotonic()
        with self.hand:
            below = self.check(order)
            if below is None:
                return False
            self.ledger.give(order, below.last, self.shown)
        if time.monotonic() - begun > FRESH:
            self.ledger.take_back(order)
            return False
        self.say("orders %s, number %d of epoch %d" % (order.action, order.number, order.above))
        try:
            self.lower.do(self.words.operator, self.words.root, order.action, patience=ANSWER)
            self.end(order, "0")
        except lunskaf.Refused as refused:
            self.end(order, "%d, %s" % (refused.code, refused.sentence))
        except lunskaf.Fault as fault:
            raise Lost(str(fault)) from fault
        except lunskaf.AWAY:
            # what became of it is in the record
            return False
        return True

    def end(self, order, ended):
        self.ledger.end(order, ended)
        self.say("%s, number %d of epoch %d, has run: %s" % (order.action, order.number, order.above, ended))

    def find(self, order):
        """Finds what became of an action whose answer was lost, by ROOT's record. It is never ordered again."""
        text, until = "do %s %s" % (self.words.root, order.action), None
        while True:
            try:
                below, waits = self.ask_below(), self.lower.under_way()
            except lunskaf.FAILURES:
                time.sleep(PERIOD)
                continue
            is_same = below.holder == self.words.operator and below.epoch == self.ledger.grant(order.above)[0]
            if not is_same:
                raise Lost("its answer was lost, and so was the grant of %s" % self.words.root)
            if below.last > order.before and below.phase == "settled":
                return self.end(order, "%d, by the record" % below.outcome)
            if below.last == order.before and (self.words.operator, text) not in [it[:2] for it in waits]:
                until = until or time.monotonic() + SETTLING
                if time.monotonic() > until:
                    raise Lost("it did not reach %s" % self.words.root)
            time.sleep(PERIOD)

    def work(self):
        """Orders each action that was told, one after the other, without end."""
        while True:
            order = self.ledger.next()
            if order is None:
                self.to_do.wait(PERIOD)
                self.to_do.clear()
                continue
            try:
                if order.before is not None:
                    self.find(order)
                elif not self.order(order):
                    time.sleep(PERIOD / 5)
            except Lost as lost:
                self.lose(order, str(lost))
            except lunskaf.FAILURES as failure:
                self.complain("order", str(failure))
                time.sleep(PERIOD)
            self.report(again=True)

    def run(self):
        for deed in (self.follow, self.look, self.work):
            threading.Thread(target=guarded, args=[deed], daemon=True).start()
        self.device.run()


def guarded(deed):
    """Does what is meant to go on without end. If it ends, so does the program, because half of it would mislead."""
    try:
        deed()
    finally:
        sys.excepthook(*sys.exc_info())
        os._exit(1)


def pair(text):
    before, is_there, after = text.partition("=")
    if not (before and is_there and after):
        raise argparse.ArgumentTypeError("%s is no pair A=B" % text)
    return before, after


def words_of(arguments):
    """Returns the words of a command line, by name."""
    parser = argparse.ArgumentParser(description=__doc__.split("\n", maxsplit=1)[0])
    for name in ("upper", "asker", "device", "domain", "lower", "operator", "root", "file"):
        parser.add_argument(name, metavar=name.upper())
    parser.add_argument("--state", metavar="LOWER=UPPER", type=pair, action="append", default=[])
    parser.add_argument("--action", metavar="UPPER=LOWER", type=pair, action="append", default=[])
    parser.add_argument("--caused", metavar="STATE", action="append")
    words = parser.parse_args(arguments)
    words.caused = words.caused or ["RUNNING"]
    return words


def main():
    words = words_of(sys.argv[1:])
    try:
        gateway = Gateway(words)
    except sqlite3.Error as error:
        sys.exit("%s: %s" % (words.file, error))
    gateway.run()


if __name__ == "__main__":
    try:
        main()
    except KeyboardInterrupt:
        pass
