"""Consoles over sockets: a node with a console, connections to it, and clients that flood it."""

import os
import socket
import statistics
import threading
import time

import nodes
from running import DEADLINE, is_so, memory_of

# running finds tools, so this is last
import lunskaf

# How soon an answer comes that waits for no station, by the median and at most, in seconds.
SOON, LATEST = 0.05, 2
# On a machine that others use answers may come later: this many times as late as answers to the same questions of a
# node that no client is rude to.
BUSY = 3

# Three operators at one station, whose domain FAR is at another.
TREE = """tree 5
state OFF
state READY
action GO
action FALL
action SLEEP
station HERE 127.0.0.1:%d
station AWAY 127.0.0.1:%d
operator ANN HERE
operator BOB HERE
operator EVE HERE
devclass DEV OFF
move DEV OFF GO READY
move DEV READY FALL OFF
unitclass UNIT OFF
accept UNIT GO
accept UNIT FALL
all UNIT READY READY
domain TOP HERE UNIT -
domain LEFT HERE UNIT TOP
domain RIGHT HERE UNIT TOP
domain FAR AWAY UNIT TOP
device L LEFT DEV
device R RIGHT DEV
device F FAR DEV
"""


class Console:
    """A connection of a program without tools/lunskaf.py: lines there, lines back."""

    def __init__(self, where):
        self.socket = lunskaf.connected(where, DEADLINE)
        self.socket.settimeout(DEADLINE)
        self.lines = self.socket.makefile("r", encoding="ascii", newline="\n")

    def say(self, text):
        self.socket.sendall(text.encode("ascii"))

    def line(self):
        """Returns the next line, or None at the end."""
        try:
            return self.lines.readline().rstrip("\n")
        except OSError:
            return None

    def ask(self, line):
        """Returns the answer to a line, or what the node said before if it has ended the connection."""
        try:
            self.say(line + "\n")
        except OSError:
            pass
        return self.line()

    def rest(self):
        """Returns all lines up to the end of the connection."""
        found = []
        while True:
            line = self.line()
            if not line:
                return found if line == "" else None
            found.append(line)

    def is_ended(self, patience):
        """Returns true if the node ends the connection in time."""
        self.socket.settimeout(patience)
        try:
            while self.socket.recv(65536):
                pass
            return True
        except socket.timeout:
            return False
        except OSError:
            return True

    def close(self):
        self.lines.close()
        self.socket.close()


def wait_for(where, node):
    """Waits until a node listens, or has ended."""
    def is_there():
        try:
            lunskaf.connected(where, DEADLINE).close()
            return True
        except lunskaf.Lost:
            return node.child.poll() is not None

    is_so(is_there, pause=0.01)


class Place:
    """A node HERE of the tree with its console, and the words by which AWAY is started."""

    def __init__(self, folder, start_node, consoles=None, tree=TREE):
        self.folder, self.start_node = folder, start_node
        self.tree = nodes.write_tree(folder, None, (tree % tuple(nodes.free_ports(2))).splitlines())
        self.where = os.path.join(folder, "console")
        self.words = [self.tree, "HERE", os.path.join(folder, "here"), "--endless"]
        for console in [self.where] if consoles is None else consoles:
            self.words += ["--console", console]
        self.start()

    def start(self):
        """Starts the node, and waits until it listens."""
        self.node = self.start_node(*self.words)
        wait_for(self.where, self.node)

    def start_away(self, *more):
        return self.start_node(self.tree, "AWAY", os.path.join(self.folder, "away"), "--endless", *more)

    def memory(self):
        """Returns how much memory the node has, in KiB."""
        return memory_of(self.node.child)

    def is_running(self):
        return self.node.child.poll() is None


def timed(ask, lines):
    """Returns the answers to these lines, one after the other, and how long each took."""
    told, took = [], []
    for line in lines:
        begun = time.monotonic()
        told.append(ask(line))
        took.append(time.monotonic() - begun)
    return told, took


def is_soon(took, usual):
    """Returns true if answers came soon, by the median and at most, or not much later than they usually do."""
    limits = [max(limit, BUSY * of(usual)) for limit, of in [(SOON, statistics.median), (LATEST, max)]]
    return statistics.median(took) < limits[0] and max(took) < limits[1]


class Flood:
    """A client that asks for all states without end, and reads what it is told, or does not."""

    def __init__(self, where, is_read):
        self.console = Console(where)
        self.console.socket.setsockopt(socket.SOL_SOCKET, socket.SO_RCVBUF, 4096)
        self.threads = [threading.Thread(target=said_until_lost, args=[self.console, "states\n" * 1000], daemon=True)]
        if is_read:
            self.threads.append(threading.Thread(target=self.console.rest, daemon=True))
        for thread in self.threads:
            thread.start()

    def is_let_go(self, patience):
        """Returns true if the node ends its connection in time."""
        self.threads[0].join(patience)
        return not self.threads[0].is_alive()

    def end(self):
        """Ends the connection, and waits for the threads."""
        self.console.socket.shutdown(socket.SHUT_RDWR)
        for thread in self.threads:
            thread.join(DEADLINE)
        self.console.close()


def said_once(console, text):
    """Gives a text, also if the node has ended the connection."""
    try:
        console.say(text)
    except OSError:
        pass


def said_until_lost(console, text):
    try:
        while True:
            console.say(text)
    except OSError:
        pass


def other_asked(place):
    """Returns what another connection is answered."""
    console = Console(place.where)
    told = console.ask("show L")
    console.close()
    return told
