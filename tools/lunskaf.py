"""Speaks with a node over its console (`smi node .. --console PATH` or `A.B.C.D:PORT`). One file, standard library alone.

    from lunskaf import Node

    with Node("/run/smi/TRACKER") as node:
        node.take("TRK_EXPERT", "TRK")
        node.do("TRK_EXPERT", "TRK", "CONFIGURE")
        node.report("PIXEL_HV", "READY")
        for shown in node.follow("PIXEL_HV"):
            print(shown.state)

or, for the program of a device:

    device = Device(node, "PIXEL_HV")
    device.on_start(lambda: device.report("OFF"))
    device.on("GO_STANDBY", lambda acted: device.report("STANDBY"))
    device.run()

Each call gives one line to the node with a tag of its own, and waits for its answer: several threads may share a Node.
An order that does not end with 0 raises Refused, with its code and a sentence. A line that the node does not take
raises Fault. A connection that is lost while a call waits raises Lost: what became of its order is not known. The next
call connects again. A node that has no place for another connection raises Full, and nothing of the call was done. A
call that waits longer than its patience raises TimeOut. An order that its station has not taken by then, because it
waits for one before it, is taken back: `is_withdrawn` of TimeOut says so. Any other may still end.

`follow` has a connection of its own, and connects again if that is lost, so that it goes on when a node is started
again. What is read while it was away is the newest state alone. `actions` has one too: what was done while it was away
is not told. Both go on in silence, and call `on_lost` each time that they can't be told anything more. Neither tries
again in silence if the node is full: that raises Full.

A Device has one connection with its node, for its calls and for its actions. It gives the node its last will there: if
the connection ends, however it ends, the node reports the device in that state. The will is UNKNOWN if the tree has
that state, and else none. `Device(node, name, will="ERROR")` names another state, and `will=None` wants none.

The lines are those of docs/FORMATS.md, "A node's lines".
"""

import collections
import itertools
import queue
import re
import socket
import sys
import threading
import time
import traceback

# How long a call waits for its answer, and how long `follow` waits before it connects again, in seconds.
PATIENCE, PAUSE = 30.0, 0.5
# The most bytes of a line.
LONGEST = 200
# How long a device program leaves a node alone that is full, and how long what was told is read to its end once a
# connection is lost, in seconds.
FULL_PAUSE, SOON = 1.0, 1.0
# The state that a device is in if its program is gone, unless it names another one.
WILL = "UNKNOWN"
# Faults of a line that an older node has for one that it does not know.
UNKNOWN_LINE = (1, 2, 3)
# A name of the tree that a line needs is not there.
UNKNOWN_NAME = 5

ADDRESS = re.compile(r"(\d+\.\d+\.\d+\.\d+):(\d+)")

# What a code says, in the words of docs/NUMBERS.md, "How an order ends".
CODES = {
    0: "done",
    1: "a domain on the way does not accept the action",
    2: "the target is not below the domain",
    3: "the child is held and in that mode already",
    4: "the child is not held",
    5: "another one holds the domain",
    6: "a child on the way is not held or is manual",
    7: "a million commands were given to a child under one grant",
    8: "ended, and how was not seen",
    9: "the domain's epochs are used up",
    21: "the operator does not hold the domain",
    22: "a command on the domain is not answered yet",
    23: "the operator holds the domain already, or takes it or gives it back",
    24: "a million commands were given under this grant",
    25: "the operator holds or waits for sixteen domains",
    26: "nothing of that name is there",
    31: "the store did not save it",
    32: "the station has stopped",
    33: "the node is out of memory",
}

# What a node shows of an object: its state, and the version of that by the boot of its station and a sequence in it.
Shown = collections.namedtuple("Shown", "object boot sequence state")
# An action that was done at a device, and the device's version and state then, whether it moved or not. Then the domain
# at which the command ran, the epoch of its grant and its number there: None if the node is older, and does not say.
Acted = collections.namedtuple("Acted", "device action boot sequence state domain epoch number", defaults=[None] * 3)
# The record of a domain: who holds it since which epoch, the last command, and whether it is busy or settled,
# with what.
Record = collections.namedtuple("Record", "domain holder epoch last phase outcome")
# An order that is not answered yet, and the seconds since it was given.
Waiting = collections.namedtuple("Waiting", "operator order seconds")


class Refused(Exception):
    """An order or a report that did not end with 0."""

    def __init__(self, code, order):
        self.code, self.order, self.sentence = code, order, CODES.get(code, "unknown code")
        super().__init__("%s: %d, %s" % (order, code, self.sentence))


class Fault(Exception):
    """A line that the node did not take, with the number of the fault and what the node said of it."""

    def __init__(self, code, line, said):
        self.code, self.line = code, line
        super().__init__("%s: fault %s" % (line, said))


class Missed(Exception):
    """The node left out so many actions, since there was no room for them."""

    def __init__(self, count):
        self.count = count
        super().__init__("%d actions were not told" % count)


class Lost(Exception):
    """The connection was lost, or could not be had."""


class Full(Exception):
    """The node has no place for another connection. Nothing that was asked on this one was done."""

    def __init__(self, where):
        super().__init__("full: the node at %s has no place for another connection" % where)


class TimeOut(Exception):
    """No answer came in time. If `is_withdrawn` is true the order was taken back, and will not be done."""

    def __init__(self, said, is_withdrawn=False):
        self.is_withdrawn = is_withdrawn
        super().__init__(said + (", and it was taken back" if is_withdrawn else ""))


class Replaced(Exception):
    """A newer question of the same operator took the place of this one, which is never answered."""


# All that a call of a node raises.
FAILURES = (Refused, Fault, Lost, Full, TimeOut, Replaced)
# What it raises if the node does not answer.
AWAY = (Lost, Full, TimeOut)


def connected(where, patience):
    """A socket that is connected with a node's console, at a path or an address."""
    address = ADDRESS.fullmatch(where)
    if address:
        made, place = socket.socket(socket.AF_INET), (address.group(1), int(address.group(2)))
    else:
        made, place = socket.socket(socket.AF_UNIX), where
    made.settimeout(patience)
    try:
        made.connect(place)
    except OSError as error:
        made.close()
        raise Lost("no console at %s: %s" % (where, error)) from error
    made.settimeout(None)
    return made


def shown_in(words):
    """What a line `board OBJECT B.Q STATE` shows; nothing where it shows nothing."""
    if len(words) < 4:
        return None
    boot, sequence = words[2].split(".")
    return Shown(words[1], int(boot), int(sequence), words[3])


def acted_in(words):
    """What a line `acted DEVICE ACTION B.Q STATE` tells, or one with `DOMAIN EPOCH NUMBER` too."""
    boot, sequence = words[3].split(".")
    numbers = (words[5], int(words[6]), int(words[7])) if len(words) > 7 else ()
    return Acted(words[1], words[2], int(boot), int(sequence), words[4], *numbers)


class Connection:
    """Lines there and back, whose answers are known by their tags."""

    def __init__(self, where, patience):
        self.where, self.socket = where, connected(where, patience)
        self.answers, self.lock, self.is_lost, self.is_full = {}, threading.Lock(), False, False
        self.reader = threading.Thread(target=self.read, daemon=True)
        self.reader.start()

    def read(self):
        """Gives each line to whoever asked for it, until the connection ends."""
        try:
            with self.socket.makefile("r", encoding="ascii", newline="\n") as lines:
                for line in lines:
                    tag, _, text = line.rstrip("\n").partition(" ")
                    # all other lines have a tag, because all that is asked here has one
                    self.is_full = self.is_full or (tag, text) == ("full", "")
                    with self.lock:
                        asked = self.answers.get(tag)
                    if asked is not None:
                        asked.put(text)
        except (OSError, ValueError):
            pass
        with self.lock:
            self.is_lost = True
            for asked in self.answers.values():
                asked.put(None)

    def loss(self, said):
        """Returns what is raised if the connection is lost: what was said, or that the node is full."""
        # a line can fail before it is read that the node is full
        self.reader.join(SOON)
        return Full(self.where) if self.is_full else Lost(said)

    def begin(self, tag, line):
        """Gives a line, and answers the queue into which its answers come; the last is None where it was lost."""
        asked = queue.Queue()
        with self.lock:
            self.answers[tag] = asked
        if self.is_lost:
            raise self.loss("the connection was lost")
        try:
            self.socket.sendall(("%s %s\n" % (tag, line)).encode("ascii"))
        except OSError as error:
            self.end(tag)
            raise self.loss(str(error)) from error
        return asked

    def end(self, tag):
        with self.lock:
            self.answers.pop(tag, None)

    def close(self):
        try:
            self.socket.shutdown(socket.SHUT_RDWR)
        except OSError:
            pass
        self.socket.close()


class Node:
    """A node, by the path or the address of its console."""

    def __init__(self, where, patience=PATIENCE):
        self.where, self.patience = where, patience
        self.numbers, self.lock, self.connection = itertools.count(1), threading.Lock(), None

    def __enter__(self):
        return self

    def __exit__(self, *_):
        self.close()

    def close(self):
        """Ends the connection. What was ordered and not answered goes on at the node."""
        with self.lock:
            if self.connection is not None:
                self.connection.close()
            self.connection = None

    def now_connected(self):
        with self.lock:
            if self.connection is None or self.connection.is_lost:
                if self.connection is not None:
                    self.connection.close()
                self.connection = Connection(self.where, self.patience)
            return self.connection

    def answers(self, line, patience=None):
        """The lines that a line is answered with, as they come."""
        patience = self.patience if patience is None else patience
        connection, tag = self.now_connected(), "@%d" % next(self.numbers)
        asked, until = connection.begin(tag, line), time.monotonic() + patience
        try:
            while True:
                try:
                    text = asked.get(timeout=max(0, until - time.monotonic()))
                except queue.Empty:
                    said = "no answer to %s within %g s" % (line, patience)
                    raise TimeOut(said, line.startswith("order ") and self.withdraw(connection, tag)) from None
                if text is None:
                    raise connection.loss("the connection was lost while %s was not answered" % line)
                words = text.split()
                if words[:1] == ["fault"]:
                    raise Fault(int(words[1].rstrip(":")), line, text.split(" ", 1)[1])
                yield words
        finally:
            connection.end(tag)

    def withdraw(self, connection, tag):
        """Takes back the order of this tag, if its station has not taken it, and returns whether it did."""
        own = "@%d" % next(self.numbers)
        try:
            return connection.begin(own, "withdraw " + tag[1:]).get(timeout=SOON) == "withdrawn " + tag[1:]
        except (Lost, Full, queue.Empty):
            return False
        finally:
            connection.end(own)

    def answer(self, line, patience=None):
        """The one line that a line is answered with, as its words."""
        return next(self.answers(line, patience))

    def listed(self, line, last):
        """The lines that a line is answered with, up to that which counts them."""
        return list(itertools.takewhile(lambda words: words[:len(last)] != last, self.answers(line)))

    def order(self, operator, *words, patience=None):
        """Gives an order of an operator of the node's station, and waits until it has ended with 0."""
        order = " ".join(words)
        told = self.answer("order %s %s" % (operator, order), patience)
        code = int(told[-1])
        if code != 0:
            raise Refused(code, "%s %s" % (operator, order))

    def take(self, operator, domain, patience=None):
        self.order(operator, "take", domain, patience=patience)

    def drop(self, operator, domain, patience=None):
        self.order(operator, "drop", domain, patience=patience)

    def do(self, operator, domain, action, patience=None):
        self.order(operator, "do", domain, action, patience=patience)

    def include(self, operator, domain, child, patience=None):
        self.order(operator, "include", domain, child, patience=patience)

    def exclude(self, operator, domain, child, patience=None):
        self.order(operator, "exclude", domain, child, patience=patience)

    def manual(self, operator, domain, child, patience=None):
        self.order(operator, "manual", domain, child, patience=patience)

    def ignore(self, operator, domain, child, patience=None):
        self.order(operator, "ignore", domain, child, patience=patience)

    def watch(self, operator, name, patience=None):
        self.order(operator, "watch", name, patience=patience)

    def unwatch(self, operator, name, patience=None):
        self.order(operator, "unwatch", name, patience=patience)

    def ask(self, operator, domain, patience=None):
        """How a domain stands, by its station.

        An operator has one question at a time: a newer one, of whatever program, has the one before raise Replaced.
        """
        told = self.answer("order %s ask %s" % (operator, domain), patience)
        if told[0] == "replaced":
            raise Replaced("%s ask %s" % (operator, domain))
        if len(told) < 9:
            raise Refused(int(told[-1]), "%s ask %s" % (operator, domain))
        _, _, _, domain, holder, epoch, last, phase, outcome = told
        return Record(domain, holder, int(epoch), int(last), phase, int(outcome))

    def report(self, device, state, patience=None):
        """Reports a device of the node's station."""
        told = self.answer("report %s %s" % (device, state), patience)
        if int(told[-1]) != 0:
            raise Refused(int(told[-1]), "report %s %s" % (device, state))

    def show(self, name):
        """The last state of an object that the station took of those that it watches; None where it took none."""
        return shown_in(self.answer("show %s" % name))

    def states(self):
        """The newest state of each object that the station keeps or watches."""
        return [shown_in(words) for words in self.listed("states", ["states"])]

    def counts(self):
        """What the node has counted since it began, by name."""
        words = self.answer("counts")[1:]
        return {name: int(number) for name, number in zip(words[::2], words[1::2])}

    def under_way(self):
        """The orders that are not answered yet."""
        lines = self.listed("under way", ["under", "way"])
        return [Waiting(words[1], " ".join(words[2:-1]), int(words[-1])) for words in lines]

    def will(self, device, state, patience=None):
        """Gives the last will of a device: if the connection ends, the node reports the device in that state.

        It holds for this connection alone, and is replaced by a later one of the same device.
        """
        told = self.answer("will %s %s" % (device, state), patience)
        if told[0] != "will":
            raise Refused(int(told[-1]), "will %s %s" % (device, state))

    def remark(self, text):
        """Leaves a remark in the node's journal, if it has one. Nothing answers it, and it is lost if the node is away."""
        try:
            connection, tag = self.now_connected(), "@%d" % next(self.numbers)
            connection.begin(tag, ("# " + text)[:LONGEST - len(tag) - 1])
            connection.end(tag)
        except AWAY:
            pass

    def modes(self):
        """Returns in which mode each child of a domain of the station is: included, manual, ignored or out."""
        return {words[1]: words[2] for words in self.listed("modes", ["modes"])}

    def version(self):
        """Returns the version of the node's program."""
        return self.answer("version")[1]

    def own_connection(self):
        """Returns a connection that is used for one purpose alone."""
        return Connection(self.where, self.patience)

    def connections(self, connect, on_lost):
        """Yields connections, each after the one before is lost, and tells each loss once."""
        was_there = True
        while True:
            try:
                connection = connect()
            except Lost:
                if was_there:
                    on_lost()
                was_there = False
                time.sleep(PAUSE)
                continue
            was_there = True
            try:
                yield connection
            finally:
                # that of the calls is theirs to close
                if connection is not self.connection:
                    connection.close()
            on_lost()
            was_there = False
            time.sleep(PAUSE)

    def follow(self, *names, on_lost=lambda: None):
        """The newest state of these objects, or of all that the station keeps or watches, and then each later one.

        `on_lost` is called each time the connection is lost, and once if there is none at first. What was shown before
        may be old from then on, and the next state comes when the node answers again.
        """
        seen = {}
        for connection in self.connections(self.own_connection, on_lost):
            yield from new_states(connection, names, seen)

    def actions(self, *devices, on_start=lambda: None, on_lost=lambda: None, own=True):
        """Each action that is done at these devices of the station, or at all of them, from now on, as Acted.

        `on_start` is called each time the node begins to tell, before the first action, and `on_lost` each time the
        connection is lost, and once if there is none at first. If the node has no room for what it has to tell, Missed
        is raised with how many actions it left out. If `own` is false they come over the connection of the calls, which
        tells one such list of devices alone.
        """
        for connection in self.connections(self.own_connection if own else self.now_connected, on_lost):
            for words in told_actions(connection, "@a%d" % next(self.numbers), devices):
                if words[0] == "actions":
                    on_start()
                elif words[0] == "missed":
                    raise Missed(int(words[1]))
                elif words[1] in (devices or (words[1],)):
                    yield acted_in(words)


class Device:
    """A device of a node's station, for the program that runs it: what each action of operators has it do."""

    def __init__(self, node, name, will=WILL):
        self.node, self.name, self.will, self.is_default = node, name, will, will == WILL
        self.deeds, self.start, self.lost, self.any = {}, lambda: None, lambda: None, None

    def on(self, action, deed):
        """From now on a deed is done with each such action: it is called with what was Acted. None is for any other.

        If a deed raises something, that is told on standard error, and the device is reported in the state of its will.
        """
        if action is None:
            self.any = deed
        else:
            self.deeds[action] = deed

    def on_start(self, deed):
        """A deed is done each time the node begins to tell: it is to report what the device is in."""
        self.start = deed

    def on_lost(self, deed):
        """A deed is done each time the connection is lost: actions are not told until the node begins again."""
        self.lost = deed

    def report(self, state):
        """The device has come into a state."""
        self.node.report(self.name, state)

    def tell(self, text):
        print("%s: %s" % (self.name, text), file=sys.stderr, flush=True)

    def do(self, what, deed, *words):
        """Does a deed. If it raises something, nobody knows what the device is in: the state of the will is reported."""
        try:
            deed(*words)
        # whatever is raised: a program that ended would do no later action either
        except Exception as error:  # pylint: disable=broad-except
            said = error if isinstance(error, FAILURES) else traceback.format_exc().rstrip()
            self.tell("%s: %s" % (what, said))
            self.report_will()

    def report_will(self):
        """Reports the device in the state of its will."""
        try:
            if self.will is not None:
                self.report(self.will)
        except FAILURES as error:
            self.tell(error)

    def begin(self):
        """Gives the node the will, and reports what the device is in."""
        if self.will is not None:
            self.give_will()
        self.do("start", self.start)

    def give_will(self):
        """Gives the node the will. An older node takes none, and a tree may lack the state that nobody has named."""
        try:
            self.node.will(self.name, self.will)
        except Fault as fault:
            if fault.code == UNKNOWN_NAME and self.is_default:
                self.tell("no will, because the tree has no state %s" % self.will)
                self.will = None
            elif fault.code not in UNKNOWN_LINE:
                raise
        except AWAY as away:
            # the next connection gives it
            self.tell(away)

    def run(self):
        """Does what actions ask, one after the other, without end. Where the node left some out, it begins again.

        A node that is full is told once on standard error, and tried again each second.
        """
        is_full = False
        while True:
            try:
                for acted in self.node.actions(self.name, on_start=self.begin, on_lost=self.lost, own=False):
                    is_full = False
                    deed = self.deeds.get(acted.action, self.any)
                    if deed is not None:
                        self.do(acted.action, deed, acted)
            except Missed:
                pass
            except Full as full:
                if not is_full:
                    self.tell(full)
                is_full = True
                time.sleep(FULL_PAUSE)


def told_without_end(connection, tag, question, names):
    """The lines that a connection is told from then on, as words, until it is lost."""
    line = " ".join((question,) + names)
    # more names than a line may have: all are asked for, and the caller leaves out those that it did not name
    line = line if len(tag) + 1 + len(line) <= LONGEST else question
    try:
        asked = connection.begin(tag, line)
    except Lost:
        return
    try:
        while True:
            text = asked.get()
            if text is None:
                if connection.is_full:
                    raise Full(connection.where)
                return
            words = text.split()
            if words[0] == "fault":
                raise Fault(int(words[1].rstrip(":")), line, text.split(" ", 1)[1])
            yield words
    finally:
        connection.end(tag)


def told_actions(connection, tag, devices):
    """The actions that a connection is told from then on, with their numbers if the node has them."""
    try:
        yield from told_without_end(connection, tag, "actions --with numbers", devices)
    except Fault:
        # an older node takes `--with` for a device; what else is wrong is a fault of this line too
        yield from told_without_end(connection, tag, "actions", devices)


def new_states(connection, names, seen):
    """The states that a connection tells and that were not seen, until it is lost."""
    for words in told_without_end(connection, "@f", "follow", names):
        shown = shown_in(words)
        if shown is not None and shown.object in (names or (shown.object,)) and seen.get(shown.object) != shown:
            seen[shown.object] = shown
            yield shown
