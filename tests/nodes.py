"""Nodes as processes: ports, tree files, nodes whose lines are read as they come, and audits of their journals."""

import glob
import itertools
import os
import queue
import socket
import subprocess
import threading
import time

import running
import trees
from running import DEADLINE

# How many turns a node serves in a test that looks only at how it begins, and in one that talks to it.
FEW, SOME = 20, 3000
# Which worker of pytest-xdist this is, and of how many: each takes its ports from a range of its own. The ranges end
# below the ports that the system gives to sockets that ask for any.
WORKER = int(os.environ.get("PYTEST_XDIST_WORKER", "gw0")[2:])
ROOM = 20_000 // int(os.environ.get("PYTEST_XDIST_WORKER_COUNT", "1"))
PORTS = (12_000 + WORKER * ROOM + turn % ROOM for turn in itertools.count(os.getpid() * 61))
TAKING = threading.Lock()


def is_free(port):
    with socket.socket(socket.AF_INET, socket.SOCK_DGRAM) as one:
        try:
            one.bind(("127.0.0.1", port))
        except OSError:
            return False
    return True


def free_ports(count):
    """Returns this many ports that no program uses, and that no other test is given."""
    with TAKING:
        return list(itertools.islice(filter(is_free, PORTS), count))


def tree_lines(ports):
    """Returns the worked tree with these ports. If there are three, it has station C and domain MUON too."""
    lines = trees.WORKED.replace(":9001", ":%d" % ports[0]).replace(":9002", ":%d" % ports[1]).splitlines()
    if len(ports) > 2:
        lines.insert(lines.index("station B 127.0.0.1:%d" % ports[1]) + 1, "station C 127.0.0.1:%d" % ports[2])
        lines.insert(lines.index("domain TPC B UNIT DCS") + 1, "domain MUON C UNIT DCS")
    return lines


def write_tree(folder, ports, lines=None):
    """Writes the worked tree with these ports, or a tree file of these lines, and returns its path."""
    return running.write(os.path.join(folder, "tree"), "\n".join(lines or tree_lines(ports)) + "\n")


class Node:
    """A running node, whose lines are read as they come."""

    def __init__(self, program, words, **how):
        self.begun = time.monotonic()
        self.child = subprocess.Popen([program, "node", *map(str, words)], stdin=subprocess.PIPE,
                                      stdout=subprocess.PIPE, stderr=subprocess.PIPE, text=True, **how)
        self.lines, self.out, self.err = queue.Queue(), [], []
        self.readers = [threading.Thread(target=self.take, args=it, daemon=True)
                        for it in [(self.child.stdout, self.out), (self.child.stderr, self.err)]]
        for reader in self.readers:
            reader.start()

    def take(self, stream, into):
        """Keeps each line of a stream, in a thread of its own."""
        for line in stream:
            into.append(line.rstrip("\n"))
            self.lines.put(into[-1])

    def next(self, seconds=DEADLINE):
        """Returns its next line, or None if none comes in time."""
        try:
            return self.lines.get(timeout=seconds)
        except queue.Empty:
            return None

    def say(self, line):
        self.child.stdin.write(line + "\n")
        self.child.stdin.flush()

    def ask(self, line, seconds=DEADLINE):
        """Returns what it answers to a line, or None if it does not in time."""
        self.say(line)
        return self.next(seconds)

    def kill(self):
        self.child.kill()
        self.end()

    def end(self, seconds=DEADLINE):
        """Returns its standard output, its standard error and its status, or None if it does not end in time."""
        try:
            self.child.wait(seconds)
        except subprocess.TimeoutExpired:
            self.child.kill()
            self.child.wait()
            return None
        for reader in self.readers:
            reader.join(seconds)
        return self.out, self.err, self.child.returncode


def ran(program, words, given="", **how):
    """Runs a node with all of its input at once. Returns the lines that it printed and told, and its status."""
    done = running.run([program, "node", *map(str, words)], given.encode(), **how)
    return done and (done[0].decode().splitlines(), done[1].decode().splitlines(), done[2])


def audit(program, tree, night):
    """Audits the journals of a folder. Returns whether they are safe, and the first line of the verdict."""
    files = sorted(glob.glob(os.path.join(night, "*.journal")))
    done = subprocess.run([program, "audit", tree, *files], capture_output=True, text=True, check=False)
    said = (done.stdout + done.stderr).split("\n", maxsplit=1)[0]
    return bool(files) and done.returncode == 0 and done.stdout.startswith("safe: "), said
