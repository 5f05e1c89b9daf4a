"""Cases that are drawn, of which the program and the oracle (tests/oracle) have to say the same.

usage: differences.py SMI [--trees N] [--schedules N] [--drawn N] [--answers N] [--datagrams N] [--stores N]
                      [--forged N] [--seed S]

trees      tree files with a few changes, through `smi check`
schedules  schedules over drawn trees, through `smi sim`; some have a line that is refused
drawn      seeds over drawn trees, through `smi sim --seed --steps`
answers    a few datagrams with wrong bytes, or cut off, through `smi answer`
datagrams  datagrams in files of 100,000, through `smi answer`
stores     stores whose rows were changed: what `smi rows` lists of them, how a node starts on them, and the rows then
forged     files of 401 datagrams that may fit what a node knows: its answers to the other stations, and its rows

The seed is printed, and for each kind how many cases are alike, how many differ and how they end. Each difference is
kept in a folder, with its input, what came and what was wanted. The last line is 'N passed, M failed'.
"""

import argparse
import collections
import os
import random
import re
import tempfile
import time

# it puts tools on the path, so it comes first
import running
import cases
import forgeries
import nodes
import stores
from consoles import Console, wait_for
from oracle import answers, rows, simulation
from oracle import tree as trees

# How many datagrams are in a file, and how many stores have rows of one play, of which one in some is of nodes.
FILE, STORES_OF_PLAY, OF_NODES = 100_000, 20, 5
# How many datagrams are sent to a node. The last is a question, whose answer comes after all others.
FORGED = 401
# How many items a seed draws, and how large trees are: the least has one to four domains, others as many times more.
STEPS = (0, 1, 30, 300, 1000, 3000)
SIZES, SMALL = (1, 2, 2, 4, 4, 30), (1, 2)
# What operators of the worked tree order while three nodes run.
ORDERS = ["ANN take DCS", "ANN include DCS TPC", "ANN include DCS MUON", "ANN do DCS CONFIGURE", "ANN manual DCS TPC",
          "ANN ignore DCS MUON", "ANN do DCS START", "ANN exclude DCS TPC", "ANN include DCS MUON", "ANN drop DCS"]
LAST_ORDERS = ["do DCS START", "do DCS CONFIGURE", "take MUON"]


class Comparison:
    """Runs the program on cases, and keeps each that differs in a folder of its own."""

    def __init__(self, program, kept):
        self.program, self.kept = program, kept
        self.passed, self.failed = 0, 0
        # how the cases of a kind end
        self.ends = collections.Counter()

    def compare(self, name, files, came, wanted):
        """Counts a case. If what came is not what was wanted, writes both and these files into a folder."""
        told = wanted[1] if isinstance(wanted[1], bytes) else wanted[1][1]
        self.ends[re.sub(r".*(?=(fault|refused) )", "", told.decode().strip()) or "well"] += 1
        if came == wanted:
            self.passed += 1
            return
        self.failed += 1
        folder = os.path.join(self.kept, name)
        os.makedirs(folder, exist_ok=True)
        for end, data in {**files, "came": repr(came) + "\n", "wanted": repr(wanted) + "\n"}.items():
            running.write(os.path.join(folder, end), data)

    def run(self, *words, **how):
        return running.run([self.program, *words], **how)

    def compare_kind(self, kind, count, seed, folder):
        """Compares this many cases of a kind, and prints how they end."""
        before, begun = (self.passed, self.failed), time.monotonic()
        self.ends.clear()
        KINDS[kind](self, count, seed, folder)
        print("%s: %d alike, %d differ, %.0f s; %s" % (
            kind, self.passed - before[0], self.failed - before[1], time.monotonic() - begun,
            ", ".join("%d %s" % (times, end) for end, times in sorted(self.ends.items()))), flush=True)


def draw_for(*words):
    """Returns the generator of a case, so that each case can be drawn without those before it."""
    return random.Random(" ".join(map(str, words)))


def compare_trees(comparison, count, seed, folder):
    """Compares what `smi check` says of drawn tree files."""
    path = os.path.join(folder, "tree")
    for number in range(count):
        data = cases.mutated_tree(draw_for(seed, "tree", number))
        running.write(path, data)
        comparison.compare("tree-%d" % number, {"tree": data}, comparison.run("check", path), trees.check(data))


def drawn_tree(draw, folder, sizes=SIZES, ports=None):
    """Returns the bytes of a drawn tree, the tree, and the path of its file."""
    data = cases.DrawnTree(draw, draw.choice(sizes), ports).text().encode()
    return data, trees.read_tree(data), running.write(os.path.join(folder, "tree"), data)


def compare_schedules(comparison, count, seed, folder):
    """Compares what drawn schedules leave."""
    for number in range(count):
        draw = draw_for(seed, "schedule", number)
        data, tree, path = drawn_tree(draw, folder)
        lines = cases.drawn_schedule(draw, tree)
        schedule = running.write(os.path.join(folder, "schedule"), lines)
        comparison.compare("schedule-%d" % number, {"tree": data, "schedule": lines},
                           comparison.run("sim", path, schedule), simulation.by_schedule(tree, lines))


def compare_drawn(comparison, count, seed, folder):
    """Compares what drawn items leave."""
    for number in range(count):
        draw = draw_for(seed, "drawn", number)
        data, tree, path = drawn_tree(draw, folder)
        item_seed, steps = draw.choice([number, draw.randrange(2 ** 64), 2 ** 64 - 1 - number]), draw.choice(STEPS)
        words = ("sim", path, "--seed", str(item_seed), "--steps", str(steps))
        comparison.compare("drawn-%d" % number, {"tree": data, "words": " ".join(words) + "\n"},
                           comparison.run(*words), simulation.by_seed(tree, item_seed, steps))


def compare_answers(comparison, count, seed, _):
    """Compares what `smi answer` says to a few datagrams."""
    for number in range(count):
        data = cases.mutated_run(draw_for(seed, "answer", number))
        comparison.compare("answer-%d" % number, {"datagrams": data}, comparison.run("answer", given=data),
                           answers.answer(data))


def compare_datagrams(comparison, count, seed, _):
    """Compares what `smi answer` says to many datagrams. Each file is a case."""
    for first in range(0, count, FILE):
        data = cases.datagram_run(draw_for(seed, "datagrams", first), min(FILE, count - first))
        comparison.compare("datagrams-%d" % first, {"datagrams": data}, comparison.run("answer", given=data),
                           answers.answer(data))


class TrueRows:
    """A tree of three stations, and the rows that a play of them has left."""

    def __init__(self, draw, folder):
        self.ports = nodes.free_ports(3)
        self.data, self.tree, self.path = drawn_tree(draw, folder, SMALL, self.ports)
        play = cases.Play(draw, self.tree)
        for _ in range(draw.choice([30, 100, 200])):
            play.line()
        self.rows = cases.rows_of(play.world)


class RowsOfNodes(TrueRows):
    """The worked tree with a third station, and the rows that three nodes have left, of which two end early."""

    def __init__(self, draw, folder, program):
        self.path = nodes.write_tree(folder, nodes.free_ports(3))
        self.data = running.read(self.path)
        self.tree, self.rows = trees.read_tree(self.data), {}
        with tempfile.TemporaryDirectory() as place:
            begun = {it: nodes.Node(program, [self.path, it, os.path.join(place, it), "--endless", "--console",
                                              os.path.join(place, it + ".c")]) for it in "ABC"}
            try:
                self.order(draw, place, begun)
            finally:
                for node in begun.values():
                    node.kill()
            for it in begun:
                self.rows.update({key: bytes.fromhex(text) for key, text in stores.rows_in(os.path.join(place, it))})

    def order(self, draw, place, begun):
        """Has ANN order, at last once the nodes of what she then waits for have ended."""
        for it, node in begun.items():
            wait_for(os.path.join(place, it + ".c"), node)
        console = Console(os.path.join(place, "A.c"))
        for order in ORDERS[:draw.randrange(len(ORDERS) + 1)]:
            console.ask("order " + order)
        begun["B"].kill()
        begun["C"].kill()
        # a question is answered after the orders before it were saved, while what waits for B or C is pending
        for tag in ("@2", "@3"):
            console.say("".join("@1 order ANN %s\n" % it for it in LAST_ORDERS) + tag + " order ANN ask DCS\n")
            while not (console.line() or tag).startswith(tag):
                pass
        console.close()


def compare_stores(comparison, count, seed, folder):
    """Compares how nodes start on stores."""
    true = None
    for number in range(count):
        draw = draw_for(seed, "store", number)
        if number % STORES_OF_PLAY == 0:
            of_nodes = number // STORES_OF_PLAY % OF_NODES == 0
            true = RowsOfNodes(draw, folder, comparison.program) if of_nodes else TrueRows(draw, folder)
        compare_store(comparison, "store-%d" % number, true, *cases.mutated_rows(draw, true.rows))


def compare_store(comparison, name, true, before, station):
    """Compares what is listed of a store, how a node starts on it, and the rows then."""
    with tempfile.TemporaryDirectory() as folder:
        store = stores.store(os.path.join(folder, "store"), stores.TABLE,
                             [(key, data.hex()) for key, data in before.items()])
        listed = comparison.run("rows", store)
        begun = comparison.run("node", true.path, true.tree.stations[station].name, store, "--turns", "1")
        after = {key: bytes.fromhex(text) for key, text in stores.rows_in(store)}
    text = rows.listed(before)
    comparison.compare(name, {"tree": true.data, "rows": b"station %d\n" % station + text}, (listed, begun, after),
                       ((text, b"", 0), *rows.begun(true.tree, station, before)))


def compare_forged(comparison, count, seed, folder):
    """Compares what nodes make of datagrams that are forged."""
    for number in range(count):
        draw = draw_for(seed, "forged", number)
        true = TrueRows(draw, folder)
        while not forgeries.is_usable(true.tree):
            true = TrueRows(draw, folder)
        sent, came, wanted = forgeries.played(comparison.program, true, draw, FORGED)
        comparison.compare("forged-%d" % number, {"tree": true.data, "rows": rows.listed(true.rows),
                                                  "datagrams": "".join(it.hex() + "\n" for it in sent)}, came, wanted)


KINDS = {"trees": compare_trees, "schedules": compare_schedules, "drawn": compare_drawn, "answers": compare_answers,
         "datagrams": compare_datagrams, "stores": compare_stores, "forged": compare_forged}


def main():
    words = argparse.ArgumentParser(usage=__doc__.split("usage: ")[1].split("\n\n")[0])
    words.add_argument("program")
    for kind in KINDS:
        words.add_argument("--" + kind, type=int, default=0)
    words.add_argument("--seed", default=str(int(time.time())))
    given = words.parse_args()
    print("seed %s" % given.seed, flush=True)
    kept = tempfile.mkdtemp(prefix="differences-")
    comparison = Comparison(os.path.abspath(given.program), kept)
    with tempfile.TemporaryDirectory() as folder:
        for kind in KINDS:
            if getattr(given, kind):
                comparison.compare_kind(kind, getattr(given, kind), given.seed, folder)
    wrong = [(name, False, "kept in " + os.path.join(kept, name)) for name in sorted(os.listdir(kept))]
    if not wrong:
        os.rmdir(kept)
    running.end([("a case that is alike", True, "")] * comparison.passed + wrong)


if __name__ == "__main__":
    main()
