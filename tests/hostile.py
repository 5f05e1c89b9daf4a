"""What all attacks share: a site that is attacked, checks that a tool prints and a test asks, and what floods it.

A part of an attack yields its checks: a name, whether it holds, and what came. A text that came is a figure.
"""

import errno
import multiprocessing
import os
import shutil
import signal
import socket
import struct
import tempfile
import time

import consoles
import nodes
import running
import screens

# How soon a crew's order is answered beside an attack, and a guest of the screen, in seconds. Other programs may run.
LATEST, SOON = 5.0, 3.0
# What a question for a domain that nobody has held is told (docs/FORMATS.md, "A node's lines").
ASK = "order ANN ask DCS"
FREE = "told ANN ask DCS free 0 0 settled 0"
# How many connections that come again are open at once, and after how many it is looked whether it is over.
RING, LOOK = 256, 64


def waits_of(screen, times=5):
    """Returns how long another guest waits for the picture, the longest of these times, and how often it gets none."""
    longest, lost = 0.0, 0
    for _ in range(times):
        begun = time.monotonic()
        try:
            lost += screen.get("/api/picture")[0] != 200
        except OSError:
            lost += 1
        longest = max(longest, time.monotonic() - begun)
    return longest, lost


class Site:
    """Nodes A and B of the worked tree, of which A has two consoles, and a screen that may have orders."""

    def __init__(self, program, folder, has_orders=False, has_screen=True, **how):
        *ports, port = nodes.free_ports(3)
        self.tree = nodes.write_tree(folder, None, screens.with_screen(nodes.tree_lines(ports), port))
        self.folder, self.where = folder, os.path.join(folder, "console")
        self.tcp = "127.0.0.1:%d" % screens.tcp_port()
        doors = ["--console", self.where, "--console", self.tcp]
        self.node, self.other = (
            nodes.Node(program, [self.tree, name, screens.store_of(folder, name), "--endless", *more], **given)
            for name, more, given in [("A", doors, how), ("B", [], {})])
        consoles.wait_for(self.where, self.node)
        self.crew = consoles.Console(self.where)
        more = ["--orders", self.where] if has_orders else []
        self.screen = screens.Screen(program, self.tree, screens.store_of(folder, "screen"), ["--endless", *more]) \
            if has_screen else None
        assert not has_screen or self.screen.is_up() and (not has_orders or self.screen.has_console())

    def crew_waits(self, times=5):
        """Returns whether the crew is told each time that DCS is free, and the longest that it waits for it."""
        told, took = consoles.timed(self.crew.ask, [ASK] * times)
        return told == [FREE] * times, max(took)

    def memory(self):
        """Returns how much memory the node has, in KiB."""
        return running.memory_of(self.node.child)

    def after(self):
        """Yields whether node and screen go on: they answer, nobody has ordered, and they have told no fault."""
        is_free, longest = self.crew_waits()
        yield "the node goes on, and nobody has ordered", is_free and longest < LATEST, "%.3f s" % longest
        if self.screen:
            yield "the screen goes on", self.screen.get("/api/tree")[0] == 200, None
            self.screen.child.kill()
            told = self.screen.child.communicate()
            yield "the screen has told no fault", told == ("", ""), told
        self.node.kill()
        yield "the node has told no fault", (self.node.out, self.node.err) == ([], []), self.node.err

    def end(self):
        self.crew.close()
        for node in (self.node, self.other):
            node.kill()
        if self.screen and self.screen.child.returncode is None:
            self.screen.end()


def checked(subtests, part):
    """Asks each check of a part as a subtest."""
    for name, holds, came in part:
        with subtests.test(name):
            assert holds, came


def told(name, part, cases):
    """Prints a line for a part with its figures, and adds its checks to those of the tool."""
    found = [("%s: %s" % (name, it[0]), *it[1:]) for it in part]
    cases += found
    if not found:
        return
    figures = ["%s: %s" % (it[0].removeprefix(name + ": "), it[2]) for it in found if isinstance(it[2], str)]
    print("; ".join(["%s: %d of %d hold" % (name, sum(bool(it[1]) for it in found), len(found)), *figures]), flush=True)


def run_parts(program, parts, cases, **how):
    """Runs parts of an attack, each by its name, one after the other at one site, and looks at the site after them."""
    folder = tempfile.mkdtemp()
    site = Site(program, folder, **how)
    try:
        for name, part in parts:
            told(name, part(site), cases)
        told("after it", site.after(), cases)
    finally:
        site.end()
        shutil.rmtree(folder, ignore_errors=True)


def joined(where):
    """Returns a socket that is connecting and never waits: with a port of this machine, or with a path.

    Returns None if there is no room for one more now.
    """
    made = socket.socket(socket.AF_INET if isinstance(where, int) else socket.AF_UNIX)
    made.setblocking(False)
    if made.connect_ex(("127.0.0.1", where) if isinstance(where, int) else where) in (0, errno.EINPROGRESS):
        return made
    made.close()
    return None


def said(one, text):
    """Sends what there is room for, also if the connection has ended, and returns how much."""
    try:
        return one.send(text)
    except OSError:
        return 0


def heard(one):
    """Reads all that has come, and returns true unless the connection has ended."""
    try:
        while one.recv(1 << 20):
            pass
        return False
    except BlockingIOError:
        return True
    except OSError:
        return False


def come_again(is_over, count, where, texts):
    """Connects again as fast as it can, and says one of the texts each time. Every second one ends by a reset."""
    ring, number = [None] * RING, 0
    while number % LOOK or not is_over():
        place = number % RING
        if ring[place]:
            ring[place].close()
        ring[place] = joined(where)
        if ring[place] and number % 2:
            ring[place].setsockopt(socket.SOL_SOCKET, socket.SO_LINGER, struct.pack("ii", 1, 0))
        count.value += bool(ring[place])
        said(ring[place], texts[number % len(texts)]) if ring[place] else time.sleep(0.001)
        number += 1


def say_again(is_over, count, where, text, guests):
    """Says a text without end on each of some connections, and reads what comes."""
    held, rest = Guests(where, b"", guests).held, [b""] * guests
    while not is_over():
        for place, one in enumerate(held):
            rest[place] = rest[place] or text
            went = said(one, rest[place])
            rest[place], count.value = rest[place][went:], count.value + went
            heard(one)


def run_beside(call, is_over, count, given):
    """Runs a call in a process of its own until it is over, or the parent is gone."""
    signal.signal(signal.SIGINT, signal.SIG_IGN)
    parent = os.getppid()
    call(lambda: is_over.is_set() or os.getppid() != parent, count, *given)


class Beside:
    """A process that does the same without end: it connects again (`come_again`), or says a text (`say_again`)."""

    def __init__(self, call, *given):
        self.count, self.is_over = multiprocessing.Value("l", 0, lock=False), multiprocessing.Event()
        self.begun = time.monotonic()
        self.child = multiprocessing.Process(target=run_beside, args=(call, self.is_over, self.count, given),
                                             daemon=True)
        self.child.start()

    def end(self):
        """Returns how many connections it made or bytes it said, and how many a second."""
        took = time.monotonic() - self.begun
        self.is_over.set()
        self.child.join(running.DEADLINE)
        return self.count.value, self.count.value / took


class Guests:
    """Connections that say the same, which never wait. Each may have little room for what comes."""

    def __init__(self, where, text, count, room=None):
        self.held, self.room = [], room
        for _ in range(count):
            self.add(where, text)

    def add(self, where, text):
        """Connects one more, and says the text as far as there is room for it."""
        one = socket.socket(socket.AF_INET if isinstance(where, int) else socket.AF_UNIX)
        if self.room:
            one.setsockopt(socket.SOL_SOCKET, socket.SO_RCVBUF, self.room)
        one.settimeout(consoles.DEADLINE)
        try:
            one.connect(("127.0.0.1", where) if isinstance(where, int) else where)
        except OSError:
            pass
        one.setblocking(False)
        said(one, text)
        self.held.append(one)

    def say(self, text):
        for one in self.held:
            said(one, text)

    def ended(self):
        """Reads what has come, and returns how many connections have ended."""
        return sum(not heard(one) for one in self.held)

    def end(self):
        for one in self.held:
            one.close()
