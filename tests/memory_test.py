"""Memory and open files of three nodes and a screen under load: orders, guests of a console, and pages."""

import json
import os
import random
import threading

import pytest

import nodes
import running
import screens
from consoles import Console, wait_for

# For how long the load goes on before memory is looked at and after, in seconds, and how much more it may be, in KiB.
BEFORE, AFTER, MORE = 12, 24, 512
# How many bytes an entry of a screen's past takes at most, which it keeps for days (docs/RUNNING.md, "The screen"), and
# how much memory its pages may take more, in KiB.
ENTRY, PAGES_MORE = 256, 2048
# How many files more or fewer may be open at the end.
FILES = 3
ORDERS = ["take DCS", "include DCS TPC", "include DCS MUON", "do DCS CONFIGURE", "do DCS START", "manual DCS TPC",
          "ask TPC", "watch HV", "exclude DCS MUON", "exclude DCS TPC", "drop DCS"]
PAGES = ["/", "/api/tree", "/api/picture", "/api/history", "/metrics", "/nothing"]
GUEST = "@a follow\n@b states\n@c counts\nshow DCS\nrubbish\n"


class Load:
    """Orders, guests and pages, each in a thread of its own, until it is over."""

    def __init__(self, where, screen):
        self.where, self.screen, self.is_over = where, screen, threading.Event()
        self.done = dict.fromkeys(("orders", "guests", "pages"), 0)
        self.wrong = []
        self.threads = [threading.Thread(target=self.repeat, args=it, daemon=True)
                        for it in [("orders", self.order), ("guests", self.guest), ("pages", self.page)]]
        self.console, self.draw = Console(where), random.Random(1)
        for thread in self.threads:
            thread.start()

    def repeat(self, name, deed):
        while not self.is_over.wait(0.005):
            fault = deed(self.done[name])
            self.wrong += [fault] if fault else []
            self.done[name] += 1

    def order(self, turn):
        order = ORDERS[turn % len(ORDERS)]
        line = self.console.ask("order ANN " + order)
        return "" if line and line.startswith("told ANN " + order) else "%s: %s" % (order, line)

    def guest(self, turn):
        """Connects, asks for much, reads some of it, and goes away."""
        console = Console(self.where)
        console.say(GUEST)
        lines = [console.line() for _ in range(self.draw.randrange(4))]
        console.close()
        return "" if all(lines) else "guest %d: %s" % (turn, lines)

    def page(self, turn):
        target = PAGES[turn % len(PAGES)]
        status = self.screen.get(target)[0]
        return "" if status == (404 if target == "/nothing" else 200) else "%s: %s" % (target, status)

    def end(self):
        self.is_over.set()
        for thread in self.threads:
            thread.join(running.DEADLINE)
        self.console.close()


def files_of(child):
    return len(os.listdir("/proc/%d/fd" % child.pid))


def opened(child):
    """Returns what a process has open, by its places."""
    folder = "/proc/%d/fd" % child.pid
    return {place: os.readlink(os.path.join(folder, place)) for place in os.listdir(folder)}


@pytest.mark.alone
def test_memory(folder, start_node, start_screen, subtests):
    """No memory and no open files are kept of what is over."""
    ports = nodes.free_ports(4)
    tree = nodes.write_tree(folder, None, screens.with_screen(nodes.tree_lines(ports[:3]), ports[3]))
    where = os.path.join(folder, "console")
    started = {it: start_node(tree, it, os.path.join(folder, it), "--endless", *(["--console", where] * (it == "A")))
               for it in "ABC"}
    wait_for(where, started["A"])
    screen = start_screen(tree, os.path.join(folder, "screen"))
    assert screen.is_up()
    children = {**{it: node.child for it, node in started.items()}, "the screen": screen.child}
    files, load = {it: files_of(children[it]) for it in ("A", "the screen")}, Load(where, screen)
    load.is_over.wait(BEFORE)
    # (these two have no guests, and may still have been starting before)
    files.update({it: files_of(children[it]) for it in "BC"})
    before = {it: running.memory_of(child) for it, child in children.items()}
    load.is_over.wait(AFTER)
    after = {it: running.memory_of(child) for it, child in children.items()}
    load.end()
    entries = json.loads(screen.get("/api/history")[1].splitlines()[0])["count"]
    with subtests.test("much was done, %s" % load.done):
        assert min(load.done.values()) > 50
    with subtests.test("all was answered as ever"):
        assert load.wrong == []
    with subtests.test("all go on, and tell nothing"):
        assert [it.child.poll() for it in started.values()] + [screen.child.poll()] == [None] * 4
        assert [it.err for it in started.values()] == [[]] * 3
    for name, child in children.items():
        with subtests.test("memory of %s, %d KiB and then %d" % (name, before[name], after[name])):
            more = PAGES_MORE + entries * ENTRY // 1024 if name == "the screen" else MORE
            assert 0 < after[name] < before[name] + more
        with subtests.test("files of %s" % name):
            is_well = running.is_so(lambda child=child, name=name: abs(files_of(child) - files[name]) <= FILES)
            assert is_well, (files[name], opened(child))
