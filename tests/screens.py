"""What the tests of the screen share: a tree with a screen's station, a screen that runs, and requests as bytes."""

import json
import os
import re
import socket
import subprocess

import nodes
import running

# The station of a screen and its operator, who asks and watches.
STATION, OPERATOR = "SCREEN", "WATCHER"


def tcp_port():
    """Returns a port at which no program listens."""
    with socket.socket() as one:
        one.bind(("127.0.0.1", 0))
        return one.getsockname()[1]


def with_screen(lines, port):
    """Returns the lines of a tree file with a screen's station after its stations, and with the screen's operator."""
    lines = list(lines)
    for word, line in [("operator", "operator %s %s" % (OPERATOR, STATION)),
                       ("station", "station %s 127.0.0.1:%d" % (STATION, port))]:
        last = max(place for place, it in enumerate(lines) if it.split()[:1] == [word])
        lines.insert(last + 1, line)
    return lines


def at_home(lines):
    """Returns the lines of a tree file with the address of each station on this machine, at ports of its own."""
    count = sum(line.startswith("station ") for line in lines)
    ports = iter(nodes.free_ports(count))
    return [re.sub(r"^(station \S+) .*", lambda found: "%s 127.0.0.1:%d" % (found[1], next(ports)), line)
            for line in lines]


class Screen:
    """A running screen."""

    def __init__(self, program, tree, store, more=("--endless",), port=None, address="127.0.0.1", **how):
        self.port = port or tcp_port()
        self.host = "127.0.0.1:%d" % self.port
        words = [program, "screen", tree, STATION, store, "--http", "%s:%d" % (address, self.port), *more]
        self.child = subprocess.Popen(list(map(str, words)), stdin=subprocess.DEVNULL, stdout=subprocess.PIPE,
                                      stderr=subprocess.PIPE, text=True, **how)

    def is_up(self):
        """Returns true once it answers, or false if it does not in time."""
        return running.is_so(lambda: self.child.poll() is not None or self.is_answering()) and self.child.poll() is None

    def is_answering(self):
        try:
            return self.get("/metrics")[0] == 200
        except OSError:
            return False

    def get(self, target, method="GET", host=None, patience=10):
        """Returns the status and the body of an answer."""
        head = "%s %s HTTP/1.1\r\nHost: %s\r\nConnection: close\r\n\r\n" % (method, target, host or self.host)
        return answers(self.exchange(head.encode(), patience))[0]

    def exchange(self, sent, patience=10):
        """Returns all that comes back for these bytes, until the screen closes or nothing comes."""
        with socket.create_connection(("127.0.0.1", self.port), timeout=patience) as one:
            try:
                one.sendall(sent)
            except OSError:
                pass
            return drained(one)

    def picture(self):
        status, body = self.get("/api/picture")
        return json.loads(body) if status == 200 else None

    def changes(self, time):
        """Returns the status, and what is told to one whose picture was looked at at a time, None if that is nothing."""
        status, body = self.get("/api/picture?since=%d" % time)
        return status, json.loads(body) if body else None

    def waits_for(self, holds):
        """Returns true once something holds of the picture, or false if it does not in time."""
        def is_so():
            picture = self.picture()
            return picture and holds(picture)
        return running.is_so(is_so)

    def comes(self, look, wanted):
        """Returns what is looked at in the picture, once it is what is wanted or too late."""
        def seen():
            picture = self.picture()
            return look(picture) if picture else "no picture"
        return running.at_last(seen, wanted)

    def key(self):
        """Returns the key that is in its page, for orders."""
        return re.search(rb'const KEY = "([^"]*)"', self.get("/")[1])[1].decode()

    def give(self, line, method="POST", target="/api/orders", host=None, origin="own", key="own", more=None):
        """Gives an order, as the page does unless told otherwise, and returns the status and the body of the answer."""
        host = host or self.host
        fields = [("Host", host), ("Origin", "http://" + host if origin == "own" else origin),
                  ("Authorization", self.key() if key == "own" else key)]
        body = line if isinstance(line, bytes) else line.encode()
        lines = ["%s %s HTTP/1.1" % (method, target), "Connection: close", "Content-Length: %d" % len(body)]
        lines += ["%s: %s" % field for field in fields if field[1] is not None] + ([more] if more else [])
        return answers(self.exchange(("\r\n".join(lines) + "\r\n\r\n").encode() + body))[0]

    def told_orders(self):
        """Returns what it tells of the orders that were given."""
        return json.loads(self.get("/api/orders")[1])

    def orders(self):
        return self.told_orders()["orders"]

    def has_console(self):
        """Returns true once it has a connection with its console, or false if it has none in time."""
        return running.is_so(lambda: self.told_orders()["console"])

    def order(self, text):
        """Gives an order, maybe with a name, and returns the code with which it ends, or None if it does not end."""
        line, before = "order " + text.partition(" # ")[0], max([it["number"] for it in self.orders()], default=0)
        if self.give("order " + text)[0] != 202:
            return None

        def ended():
            return [it for it in self.orders() if it["number"] > before and it["line"] == line and not it["waits"]]

        return ended()[0]["code"] if running.is_so(ended) else None

    def memory(self):
        """Returns how much memory it holds, in KiB."""
        return running.memory_of(self.child)

    def end(self):
        self.child.kill()
        self.child.communicate()


def drained(one):
    """Returns what a connection gives until it ends, or nothing comes any more."""
    found = b""
    try:
        while True:
            got = one.recv(65536)
            if not got:
                return found
            found += got
    except OSError:
        return found


def answers(text):
    """Returns the status and the body of each answer in a text."""
    found = []
    while text:
        head, _, rest = text.partition(b"\r\n\r\n")
        line = re.match(rb"HTTP/1\.[01] (\d{3})", head)
        if not line:
            break
        length = re.search(rb"(?i)\r\ncontent-length: *(\d+)", head)
        size = int(length[1]) if length else 0
        found.append((int(line[1]), rest[:size]))
        text = rest[size:]
    return found or [(0, b"")]


def by_name(rows):
    return {row["name"]: row for row in rows}


def states_of(picture):
    """Returns the state of each object that was shown, by name."""
    rows = picture["domains"] + picture["devices"]
    return {row["name"]: row["shown"]["state"] for row in rows if row["shown"]}


def holders_of(picture):
    """Returns who holds each domain that was told: a name, or `free`."""
    found = {}
    for row in picture["domains"]:
        if row["told"]:
            holder = row["told"]["holder"] or {"nobody": "free"}
            found[row["name"]] = next(iter(holder.values()))
    return found


def store_of(folder, name):
    return os.path.join(folder, name + ".store")
