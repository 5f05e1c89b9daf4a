"""How fast a node is, beside the least that its saves and datagrams cost in the same run.

usage: bench_nodes.py SMI

A node whose operator is on the same machine takes a domain and drops it, again and again. Each of the two has three
saves (the operator's row, the domain's, the operator's), each handed to the device once, and one datagram, which wakes
the station; what it sends to itself goes round in memory. The floor is a program in C that makes as many plain writes
of a page, where a save adds three to the log, each handed to the device, and as many datagrams to its own socket
(tests/peer/floor.c). Both are run in turn, and each figure is the median of the rounds. Then the time from an order to
its answer is measured through the pipes of a console, of a node at rest and of one that is sent datagrams all along;
and through its sockets, at rest. A program in C measures what waking the station's thread costs, as a node does it and
by an event beside its socket (tests/peer/waking.c). At last takes with their drops are made in memory, by a node with
a journal and by one without, in turn.
"""

import os
import socket
import statistics
import subprocess
import sys
import tempfile
import threading
import time

import nodes
from running import HERE

# this is in tools/, which running.py puts on the path
import lunskaf

ROUNDS = 5
PAIRS = 300
# Of a take and a drop: saves, and datagrams, which wake the station.
SAVES, DATAGRAMS = 6, 2
# What a save adds to a log at least: a page and its header.
FRAME = 4096 + 24
ASKS = 3000
# How often a thread is woken.
WAKINGS = 20_000
# How many couples of nodes make takes and drops, one with a journal; how many bursts each, and how many in a burst.
COUPLES, BURSTS, BURST = 24, 60, 20
ORDERS = 300


def peer_program(folder, name):
    """Returns the path of a program of tests/peer, which is compiled into the folder."""
    path = os.path.join(folder, name)
    subprocess.run(["cc", "-O2", "-pthread", "-o", path, os.path.join(HERE, "peer", name + ".c")], check=True)
    return path


def lines_in(program, words, lines):
    """How long a node takes for these lines, from its first answer to its last, in seconds, and its last answer."""
    node = nodes.Node(program, words)
    first = node.ask(lines[0], 60)
    begun = time.perf_counter()
    threading.Thread(target=lambda: [node.say(line) for line in lines[1:]], daemon=True).start()
    answers = [first] + [node.lines.get(timeout=60) for _ in lines[1:]]
    took = time.perf_counter() - begun
    node.kill()
    assert all(" 0" in answer for answer in answers), answers[-1]
    return took


def pairs(program, floor, folder):
    """Takes with their drops a second, of a node and of the floor, in turn."""
    ours, least = [], []
    for place in range(ROUNDS):
        words = [nodes.write_tree(folder, nodes.free_ports(2)), "A", os.path.join(folder, "store%d" % place)]
        lines = ["order ANN ask DCS"] + ["order ANN take DCS", "order ANN drop DCS"] * PAIRS
        ours.append(PAIRS / lines_in(program, words, lines))
        command = [floor, os.path.join(folder, "plain"), PAIRS, SAVES, DATAGRAMS, FRAME]
        told = subprocess.run(list(map(str, command)), stdout=subprocess.PIPE, check=True).stdout
        least.append(PAIRS * 1e6 / int(told))
    ours, least = statistics.median(ours), statistics.median(least)
    print("node: %.0f takes with their drops a second; the same saves and datagrams in C %.0f; ratio %.2f"
          % (ours, least, ours / least))


def orders(program, folder):
    """Orders that save nothing, a second."""
    words = [nodes.write_tree(folder, nodes.free_ports(2)), "A", os.path.join(folder, "asked")]
    took = lines_in(program, words, ["order ANN watch TPC"] * ASKS)
    print("node: %.0f orders a second that save nothing" % (ASKS / took))


def latencies(ask, line):
    took = []
    for _ in range(ORDERS):
        time.sleep(0.002)
        begun = time.perf_counter()
        ask(line)
        took.append(time.perf_counter() - begun)
    took.sort()
    return 1e3 * took[len(took) // 2], 1e3 * took[len(took) * 99 // 100]


def flood(port, is_over):
    """Some thousand datagrams a second, each an ask of station B."""
    ask = bytes.fromhex("534d0101" + "0002" + "0001" + "0001" + "00" * 20 + "0011" + "00" * 12)
    with socket.socket(socket.AF_INET, socket.SOCK_DGRAM) as out:
        while not is_over.is_set():
            out.sendto(ask, ("127.0.0.1", port))
            time.sleep(0.0002)


def answers(program, folder):
    """How long an order waits for its answer: of a node at rest, and of a busy one."""
    ports = nodes.free_ports(2)
    words = [nodes.write_tree(folder, ports), "A", os.path.join(folder, "answered")]
    for state in ("at rest", "busy"):
        node, is_over = nodes.Node(program, words), threading.Event()
        other = threading.Thread(target=flood, args=(ports[0], is_over))
        if state == "busy":
            other.start()
        node.ask("order ANN watch TPC")
        plain = latencies(node.ask, "order ANN watch TPC")
        node.ask("order ANN take DCS")
        saved = latencies(node.ask, "order ANN do DCS START")
        is_over.set()
        if state == "busy":
            other.join()
        node.kill()
        print("node %s: an order that saves nothing is answered in %.2f ms (99 %%: %.2f); a command, with its three "
              "saves, in %.2f ms (99 %%: %.2f)"
              % (state, *plain, *saved))


class Socket:
    """A connection with a node's console, without a thread of its own."""

    def __init__(self, where):
        self.socket = lunskaf.connected(where, 60)

    def ask(self, line):
        self.socket.sendall(line.encode() + b"\n")
        told = b""
        while not told.endswith(b"\n"):
            told += self.socket.recv(4096)
        return told


def sockets(program, folder):
    """How long an order that saves nothing waits for its answer over the sockets of a node at rest."""
    where, port = os.path.join(folder, "console"), nodes.free_ports(1)[0]
    words = [nodes.write_tree(folder, nodes.free_ports(2)), "A", os.path.join(folder, "socket"), "--console", where,
             "--console", "127.0.0.1:%d" % port]
    node = nodes.Node(program, words)
    node.ask("order ANN watch TPC")
    for kind, place in [("a Unix socket", where), ("TCP", "127.0.0.1:%d" % port)]:
        print("node at rest: an order that saves nothing is answered over %s in %.2f ms (99 %%: %.2f)"
              % (kind, *latencies(Socket(place).ask, "order ANN watch TPC")))
    node.kill()


def wakings(waking):
    """What it costs to wake a thread by a datagram and by an event, and a datagram if it waits for one or for both."""
    rounds = [list(map(int, subprocess.run([waking, str(WAKINGS)], stdout=subprocess.PIPE, check=True).stdout.split()))
              for _ in range(ROUNDS)]
    print("in C: a thread is woken by a datagram in %.1f us, by an event in %.1f us; a datagram comes in %.1f us, and in "
          "%.1f us to a thread that waits for events too" % tuple(statistics.median(it) / 1e3 for it in zip(*rounds)))


def burst(node):
    """How long a node takes for some takes with their drops, in seconds."""
    begun = time.perf_counter()
    node.say("\n".join(["order ANN take DCS", "order ANN drop DCS"] * BURST))
    for _ in range(2 * BURST):
        node.lines.get(timeout=60)
    return time.perf_counter() - begun


def journals(program):
    """Takes with their drops a second over a store in memory, of a node with a journal and of one without.

    Both run at once and work in turn, some milliseconds each, because a machine is now faster and now slower by more
    than a journal costs. Of each couple the middle burst counts, and of the couples' ratios the middle one.
    """
    ratios, all_took = [], {"with": [], "without": []}
    with tempfile.TemporaryDirectory(dir="/dev/shm") as folder:
        for place in range(COUPLES):
            couple = {}
            for how, more in (("with", ["--journal", os.path.join(folder, "night")]), ("without", [])):
                room = os.path.join(folder, "%s%d" % (how, place))
                os.mkdir(room)
                words = [nodes.write_tree(room, nodes.free_ports(2)), "A", os.path.join(room, "store"), "--endless"]
                couple[how] = nodes.Node(program, words + more)
                couple[how].ask("order ANN ask DCS", 60)
            took = {how: [] for how in couple}
            for turn in range(BURSTS):
                for how in sorted(couple, reverse=turn % 2):
                    took[how].append(burst(couple[how]))
            for how, node in couple.items():
                node.kill()
                all_took[how] += took[how]
            ratios.append(statistics.median(took["without"]) / statistics.median(took["with"]))
    rates = {how: BURST / statistics.median(took) for how, took in all_took.items()}
    print("node: %.0f takes with their drops a second in memory, %.0f with a journal; ratio %.3f (%.3f to %.3f)"
          % (rates["without"], rates["with"], statistics.median(ratios), min(ratios), max(ratios)))


def main():
    program = os.path.abspath(sys.argv[1])
    # On the disk that the repository is on, as a folder for temporary files may be in memory.
    with tempfile.TemporaryDirectory(dir=os.path.dirname(program)) as folder:
        pairs(program, peer_program(folder, "floor"), folder)
        orders(program, folder)
        answers(program, folder)
        sockets(program, folder)
        wakings(peer_program(folder, "waking"))
    journals(program)


if __name__ == "__main__":
    main()
