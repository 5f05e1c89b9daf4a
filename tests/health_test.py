"""Whether nodes are well, as tools/health.py tells it by their consoles: for people, for monitors and for the watchdog."""

import os
import re
import shutil
import signal
import socket
import subprocess
import sys
import threading

import pytest

import running

TOOL = os.path.join(running.ROOT, "tools", "health.py")
WELL, WARNING, CRITICAL, UNKNOWN = range(4)


def told(*words):
    """Returns the lines that the tool prints, and its status."""
    out, _, status = running.run([sys.executable, TOOL, *words])
    return out.decode().splitlines(), status


def answered(lines, counts):
    """Answers the lines of one connection as a node would that has waited for nothing and counted this."""
    for line in lines:
        tag, *words = line.decode().split()
        given = {"version": "version 0.9", "counts": "counts " + counts, "under": "under way 0"}[words[0]]
        yield ("%s %s\n" % (tag, given)).encode()


class Still:
    """A console at a path that answers, of a station that never turns."""

    def __init__(self, path):
        self.listener = socket.socket(socket.AF_UNIX)
        self.listener.bind(path)
        self.listener.listen()
        threading.Thread(target=self.serve, daemon=True).start()

    def serve(self):
        made, _ = self.listener.accept()
        with made, made.makefile("rb") as lines:
            for line in answered(lines, "received 7 ticks 12 faults 0 unsaved 0"):
                made.sendall(line)


@pytest.fixture
def station(folder, tree, start_node):
    """Returns the node of station A, which has a console, and the path of that."""
    where = os.path.join(folder, "A.console")
    node = start_node(tree, "A", os.path.join(folder, "A"), "--endless", "--console", where)
    assert running.is_so(lambda: os.path.exists(where))
    return node, where


def test_well(station):
    """A node that answers and turns is well. Its line says how often it turns, and how long orders have waited."""
    _, where = station
    [line], status = told(where)
    found = re.fullmatch(r"OK: (\S+), version 0\.9: (\d+) turns a second, no order waits", line)
    assert (status, found and found[1]) == (WELL, where)
    # a station turns at least each ten milliseconds, as far as the system ends its waits in time
    assert 20 < int(found[2])


def test_late(station):
    """An order that waits for a station that is away is a warning once it has waited for too long, and not before."""
    node, where = station
    node.say("@t order ANN take TPC")
    node.say("@u order ANN do TPC CONFIGURE")
    assert running.is_so(lambda: told("--late", "0", where)[1] == WARNING)
    [line], status = told("--late", "0", where)
    assert status == WARNING and re.search(r"the oldest of [12] orders waits for \d+ s", line)
    assert told("--late", "1000", where)[1] == WELL


def test_gone(station, folder):
    """A node that is stopped by a signal, and one that is not there, are told as such; of several the worst counts."""
    node, where = station
    nobody = os.path.join(folder, "nobody")
    lines, status = told(where, nobody)
    assert (status, [line.split(":")[0] for line in lines]) == (CRITICAL, ["OK", "CRITICAL"])
    node.child.send_signal(signal.SIGSTOP)
    assert told("--patience", "1", where)[1] == CRITICAL
    node.child.send_signal(signal.SIGCONT)
    assert told("--tries", "3", where)[1] == WELL
    assert told("--late", "soon", where) == ([], UNKNOWN)


def test_still(folder):
    """A console that answers for a station that does not turn is no well node."""
    path = os.path.join(folder, "still")
    Still(path)
    [line], status = told(path)
    assert (status, line.split(": ")[0]) == (CRITICAL, "CRITICAL")
    assert "its station does not turn" in line


def test_metrics(station, folder, subtests):
    """All counts of a node as figures for Prometheus, whole in their file at any moment."""
    node, where = station
    assert node.ask("order ANN take DCS") == "told ANN take DCS 0"
    nobody, path = os.path.join(folder, "nobody"), os.path.join(folder, "smi.prom")
    assert told("--metrics", path, where, nobody)[1] == CRITICAL
    lines = running.text_of(path).splitlines()
    counts = node.ask("@c counts").split()[2:]
    with subtests.test("each count of the node is there, and no other"):
        assert {it.split("{")[0] for it in lines if it[0] != "#" and "_total{" in it} == {
            "smi_node_%s_total" % name for name in counts[::2]}
    with subtests.test("what was saved"):
        # the start saves the boot, and a take of an own domain three rows: docs/PROTOCOL.md, "Links"
        saved = dict(zip(counts[::2], counts[1::2]))["saved"]
        assert 'smi_node_saved_total{console="%s"} %s' % (where, saved) in lines
    with subtests.test("who answers"):
        assert 'smi_node_up{console="%s"} 1' % where in lines and 'smi_node_up{console="%s"} 0' % nobody in lines
    with subtests.test("nothing is left beside the file"):
        assert not [it for it in os.listdir(folder) if it.startswith("tmp")]
    with subtests.test("the same on standard output"):
        assert told("--metrics", "-", where)[0][:2] == lines[:2]
    with subtests.test("Prometheus takes them"):
        if not shutil.which("promtool"):
            pytest.skip("there is no promtool (Debian's prometheus)")
        done = subprocess.run(["promtool", "check", "metrics"], input=running.read(path), stdout=subprocess.PIPE,
                              stderr=subprocess.STDOUT, check=False)
        assert (done.returncode, done.stdout) == (0, b"")


def test_foreign(station, ports):
    """A datagram that names a station of another host as its sender is counted as foreign, and told."""
    node, where = station
    # an order wakes the station by a datagram without bytes, which is not counted
    assert node.ask("order ANN take DCS") == "told ANN take DCS 0"
    assert "foreign 0" in node.ask("@c counts")
    with socket.socket(socket.AF_INET, socket.SOCK_DGRAM) as elsewhere:
        elsewhere.bind(("127.0.0.2", 0))
        for _ in range(3):
            # station 2 is named as its sender, and is at 127.0.0.1
            elsewhere.sendto(b"SM" + bytes([1, 5, 0, 2]) + bytes(38), ("127.0.0.1", ports[0]))
    assert running.at_last(lambda: node.ask("@c counts").split(" foreign ")[1].split()[0], "3") == "3"
    [line], status = told(where)
    assert (status, line.endswith(", foreign 3")) == (WELL, True)


def test_foreign_is_not_counted_if_any_may_come(folder, tree, start_node, ports):
    """With `--sources any` no datagram is foreign."""
    node = start_node(tree, "A", os.path.join(folder, "A"), "--endless", "--sources", "any")
    before = int(node.ask("@c counts").split(" received ")[1].split()[0])
    with socket.socket(socket.AF_INET, socket.SOCK_DGRAM) as elsewhere:
        elsewhere.bind(("127.0.0.2", 0))
        elsewhere.sendto(b"SM" + bytes([1, 5, 0, 2]) + bytes(38), ("127.0.0.1", ports[0]))
    assert running.is_so(lambda: int(node.ask("@c counts").split(" received ")[1].split()[0]) > before)
    assert " foreign 0" in node.ask("@c counts")
