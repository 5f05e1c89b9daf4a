"""The example detector on this machine: all its stations, a screen of it in the browser, and the crew's shift.

usage: demo.py SMI [--http A.B.C.D:PORT] [--pause SECONDS]

The stations of examples/detector.tree are started with addresses of this machine, each with a console of its own, and
the screen at its address, which is printed; operators of the station CONTROL may order from its page. Then
examples/shift.plan is played: what its operators order and what its device drivers report, with a pause after each
order. Where the plan stops a station, that is killed, and started again some seconds later. Ctrl-C ends all.
"""

import argparse
import os
import re
import shutil
import signal
import socket
import subprocess
import sys
import tempfile
import threading
import time

import hierarchy

EXAMPLES = os.path.join(os.path.dirname(os.path.dirname(os.path.abspath(__file__))), "examples")
TREE, PLAN = (os.path.join(EXAMPLES, name) for name in ("detector.tree", "shift.plan"))
STATION, OPERATOR = "SCREEN", "WATCHER"
# The station whose operators may order from the page of the screen.
DESK = "CONTROL"
# How long a station that the plan stops is away, in seconds, and how long an answer is waited for.
AWAY, PATIENCE = 6, 30


def free_ports(count):
    """So many ports of this machine at which nobody receives."""
    taken = [socket.socket(socket.AF_INET, socket.SOCK_DGRAM) for _ in range(count)]
    for one in taken:
        one.bind(("127.0.0.1", 0))
    ports = [one.getsockname()[1] for one in taken]
    for one in taken:
        one.close()
    return ports


def local_tree(text):
    """A tree file with a screen's station and operator last, and all stations at addresses of this machine."""
    lines = text.splitlines()
    for word, line in [("operator", "operator %s %s" % (OPERATOR, STATION)), ("station", "station %s X" % STATION)]:
        last = max(place for place, it in enumerate(lines) if it.startswith(word + " "))
        lines.insert(last + 1, line)
    ports = iter(free_ports(sum(line.startswith("station ") for line in lines)))
    return [re.sub(r"^(station \S+) .*", lambda found: "%s 127.0.0.1:%d" % (found[1], next(ports)), line)
            for line in lines]


class Console:
    """A node that runs, and who types at it: each line is answered before the next is given."""

    def __init__(self, words):
        self.child = subprocess.Popen(words, stdin=subprocess.PIPE, stdout=subprocess.PIPE, text=True)

    def ask(self, line):
        """What it answers to a line; nothing where it has ended."""
        try:
            self.child.stdin.write(line + "\n")
            self.child.stdin.flush()
            return self.child.stdout.readline().rstrip("\n")
        except OSError:
            return ""

    def end(self):
        self.child.kill()
        self.child.wait()


class Detector:
    """The stations of the example on this machine, and a screen of them."""

    def __init__(self, program, folder, http):
        self.program, self.folder, self.http = program, folder, http
        with open(TREE, encoding="ascii") as file:
            lines = local_tree(file.read())
        self.tree = os.path.join(folder, "detector.tree")
        with open(self.tree, "w", encoding="ascii") as file:
            file.write("\n".join(lines) + "\n")
        self.names = hierarchy.of_lines(lines)
        self.desk = os.path.join(folder, DESK + ".console")
        self.nodes = {name: self.console(name) for name in self.names.stations if name != STATION}
        self.screen = self.looking()

    def words(self, command, name):
        return [self.program, command, self.tree, name, os.path.join(self.folder, name + ".store"), "--endless"]

    def console(self, name):
        words = self.words("node", name) + ["--journal", os.path.join(self.folder, "night")]
        return Console(words + (["--console", self.desk] if name == DESK else []))

    def looking(self):
        return subprocess.Popen(self.words("screen", STATION) + ["--http", self.http, "--orders", self.desk],
                                stdin=subprocess.DEVNULL)

    def order(self, text):
        """What an operator is told."""
        return self.nodes[self.names.station_of(text.split()[0])].ask("order " + text)

    def report(self, device, state):
        return self.nodes[self.names.station_of(device)].ask("report %s %s" % (device, state))

    def stop(self, name):
        self.nodes[name].end()

    def start(self, name):
        self.nodes[name] = self.console(name)

    def end(self):
        for node in self.nodes.values():
            node.end()
        self.screen.kill()
        self.screen.wait()


def deeds_of(plan):
    """What a plan has real stations do: its places, orders and reports, and the stations that stop at an order."""
    for line in plan.splitlines():
        words = line.split()
        if words[:1] == ["place"]:
            yield "place", line[len("place "):], None
        elif words[:1] == ["report"]:
            yield "report", words[1:], None
        elif words[:1] == ["stop"]:
            yield "order", line.split(" order ", 1)[1], words[1]
        elif words[:1] in (["order"], ["lose"], ["together"]):
            # Nothing is lost here but what the network loses, and orders come one after the other.
            for part in line.split("; "):
                yield "order", part.split("order ", 1)[1], None


def reported(detector, words):
    """The devices of a report, and their state: one device, or all of a domain."""
    if words[0] == "all":
        return [(device, words[2]) for device in detector.names.devices_of(words[1])]
    return [(words[0], words[1])]


def order_while_away(detector, text, station, away):
    """An order at which a station stops, which starts again some seconds later."""
    detector.stop(station)
    giving = threading.Thread(target=detector.order, args=(text,), daemon=True)
    giving.start()
    time.sleep(away)
    detector.start(station)
    giving.join(PATIENCE)


def play(detector, pause=0.0, until=None, away=AWAY, tell=print):
    """Plays the shift up to a place, or all of it."""
    with open(PLAN, encoding="ascii") as file:
        plan = file.read()
    for kind, what, stopped in deeds_of(plan):
        if kind == "place":
            tell("-- " + what)
            time.sleep(pause)
            if what == until:
                return
        elif kind == "report":
            for device, state in reported(detector, what):
                detector.report(device, state)
        else:
            tell("order " + what)
            if stopped:
                order_while_away(detector, what, stopped, away)
            else:
                detector.order(what)
            time.sleep(pause)


def is_up(detector):
    """Whether the screen listens, and is the one that was started here."""
    host, _, port = detector.http.rpartition(":")
    end = time.monotonic() + PATIENCE
    while detector.screen.poll() is None and time.monotonic() < end:
        try:
            socket.create_connection((host, int(port)), timeout=1).close()
            # one that could not listen has ended by now
            time.sleep(0.5)
            return detector.screen.poll() is None
        except OSError:
            time.sleep(0.1)
    return False


def main():
    words = argparse.ArgumentParser(description=__doc__.split("\n\n")[0])
    words.add_argument("program")
    words.add_argument("--http", default="127.0.0.1:8080")
    words.add_argument("--pause", type=float, default=1.0)
    given = words.parse_args()
    folder = tempfile.mkdtemp()
    detector = Detector(os.path.abspath(given.program), folder, given.http)
    # a signal that ends this ends all that it has started
    signal.signal(signal.SIGTERM, signal.default_int_handler)
    try:
        if not is_up(detector):
            sys.exit("there is no screen at %s: is the address taken? (--http ADDRESS:PORT)" % given.http)
        print("the screen is at http://%s/ (Ctrl-C ends all)" % given.http, flush=True)
        play(detector, given.pause, tell=lambda text: print(text, flush=True))
        print("the shift has ended; Ctrl-C ends all", flush=True)
        sys.exit(detector.screen.wait())
    except KeyboardInterrupt:
        print()
    finally:
        detector.end()
        shutil.rmtree(folder, ignore_errors=True)


if __name__ == "__main__":
    main()
