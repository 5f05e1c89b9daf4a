"""Each growth of a run refused in turn: first the growths are counted, and then each of them is refused.

The program says so and ends with status 4, or it does without that growth and does all that it does otherwise. A store
that it lists is left as it was. A node may also tell an order that it was refused, which then has changed nothing, and
goes on; its rows are at any end those before or after one of its saves.

Which run meets the growths of which layer: those of the tree all but `answer` and `rows`; of rows and the store over
SQL `rows` and the nodes; of stations, views, publishers and watcher lists `sim` and the nodes; of the world and its
store in memory `sim`; of links, the board and seats the nodes.
"""

import os
import shutil
import subprocess
import sys

import nodes
import stores
from running import HERE, example

WORKED = example("worked.tree")

# The command's words, and the file of its standard input.
RUNS = [
    (["check", WORKED], os.devnull),
    (["check", example("detector.tree")], os.devnull),
    (["answer"], example("one-domain.datagrams")),
    (["sim", WORKED, example("worked.schedule")], os.devnull),
    (["sim", WORKED, "--seed", "1", "--steps", "100"], os.devnull),
    (["sim", WORKED, "stops.schedule"], os.devnull),
]

# What takes, hands on, watches, stops and fails: the text of stops.schedule.
SCHEDULE = """order ANN take DCS
deliver 1
deliver 2
order ANN watch TPC
deliver 3
stop A after order ANN include DCS TPC
tick A
deliver 5
fail B device recent 0
stop B after recent 0
recent 1
recent 0
fail A before recent 0
report HV OFF
restart A
restart B
fail B after order BOB take TPC
restart B
tick B
tick A
recent 2
recent 1
recent 0
stop A after deliver 9
stop A before tick A
fail A after order ANN do DCS CONFIGURE
restart A
tick A
recent 2
recent 0
"""

# One station with an operator, two domains, one below the other, and a device.
NODE_TREE = """tree 17
state OFF
state READY
action CONFIGURE
station A 127.0.0.1:%d
operator ANN A
devclass DEV OFF
move DEV OFF CONFIGURE READY
unitclass UNIT OFF
accept UNIT CONFIGURE
all UNIT READY READY
all UNIT OFF OFF
domain DCS A UNIT -
domain TPC A UNIT DCS
device HV TPC DEV
"""
ORDERS = ["take DCS", "include DCS TPC", "watch HV", "do DCS CONFIGURE", "drop DCS"]
# An order for which there was no memory is told this code.
REFUSED = 33
# How many turns a node serves, and how many if it was too busy to print all in those.
FEW, MANY = 60, 600


def library(folder):
    """Builds the library that refuses a growth, and returns its path."""
    path = os.path.join(folder, "refuse.so")
    subprocess.run(["cc", "-shared", "-fPIC", "-O1", "-o", path, os.path.join(HERE, "refuse.c")], check=True)
    return path


def run(program, words, source, settings):
    with open(source, "rb") as file:
        done = subprocess.run([program] + words, stdin=file, stdout=subprocess.PIPE, stderr=subprocess.PIPE,
                              env=dict(os.environ, **settings), check=False)
    return done.stdout, done.stderr, done.returncode


def counted(program, words, source, refusing, folder):
    """Returns how many growths a run has, and what it does."""
    path = os.path.join(folder, "growths")
    whole = run(program, words, source, {"LD_PRELOAD": refusing, "COUNT": path})
    with open(path, "rb") as file:
        return int.from_bytes(file.read(8), sys.byteorder), whole


def is_told(whole, refused):
    """Returns true if a run says that a growth was refused: it writes at most a part of what the whole run writes."""
    out, err, status = refused
    return (whole[0].startswith(out), err, status) == (True, b"no memory\n", 4)


def link(domain, form, epoch, number=0, command=(0, 0)):
    """Returns a link in a row."""
    return "%04x%02x00%016x%08x%04x%04x" % (domain, form, epoch, number, *command)


def domain_row(holder, epoch, last, phase=0, links=""):
    """Returns the row of a domain, none of whose commands has failed."""
    return "02%02x%04x%016x%08x%02x0000000000%04x%s" % (*holder, epoch, last, phase, len(links) // 40, links)


def operator_row(links=""):
    return "0300%04x%s" % (len(links) // 40, links)


# The numbers of the domains, and of what is ordered.
DCS, TPC = 1, 2
INCLUDE, CONFIGURE = (2, TPC), (1, 1)
BY_ANN, BY_DCS, FREE = (1, 1), (2, DCS), (0, 0)
OUT, TAKING, HELD, PENDING, DROPPING = range(5)


def saved():
    """Returns the rows that the orders save one after the other, by docs/FORMATS.md."""
    ann, dcs, tpc = (1, 0, 1), (1, DCS, 0), (1, TPC, 0)
    return [
        ((1, 0, 0), "0200000000000001"),
        (ann, operator_row(link(DCS, TAKING, 0))),
        (dcs, domain_row(BY_ANN, 1, 0)),
        (ann, operator_row(link(DCS, HELD, 1))),
        (ann, operator_row(link(DCS, PENDING, 1, 1, INCLUDE))),
        (dcs, domain_row(BY_ANN, 1, 1, 1, link(TPC, TAKING, 0))),
        (tpc, domain_row(BY_DCS, 1, 0)),
        (dcs, domain_row(BY_ANN, 1, 1, 0, link(TPC, HELD, 1))),
        (ann, operator_row(link(DCS, HELD, 1, 1))),
        (ann, operator_row(link(DCS, PENDING, 1, 2, CONFIGURE))),
        (dcs, domain_row(BY_ANN, 1, 2, 1, link(TPC, PENDING, 1, 1, CONFIGURE))),
        (tpc, domain_row(BY_DCS, 1, 1)),
        (dcs, domain_row(BY_ANN, 1, 2, 0, link(TPC, HELD, 1, 1))),
        (ann, operator_row(link(DCS, HELD, 1, 2))),
        (ann, operator_row(link(DCS, DROPPING, 1))),
        (dcs, domain_row(FREE, 2, 0, 0, link(TPC, HELD, 1, 1))),
        (ann, operator_row(link(DCS, OUT, 2))),
    ]


def moments(rows, saves):
    """Returns the rows of a store before the first of these saves and after each of them."""
    found = [sorted(rows)]
    for key, row in saves:
        found.append(sorted({**dict(found[-1]), key: row}.items()))
    return found


class Nodes:
    """Nodes that are given some orders, each on a store and at a port of its own."""

    def __init__(self, program, folder, refusing, kept=None):
        self.program, self.folder, self.refusing, self.kept = program, folder, refusing, kept

    def run(self, place, orders, turns=FEW, **settings):
        """Returns what a node printed and how it ended, and the rows that it has left."""
        room = os.path.join(self.folder, "%s-%d" % (place, turns))
        os.mkdir(room)
        tree, given, store = (os.path.join(room, name) for name in ("tree", "given", "store"))
        if self.kept:
            shutil.copyfile(self.kept, store)
        for path, text in [(tree, NODE_TREE % nodes.free_ports(1)[0]),
                           (given, "".join("order ANN %s\n" % it for it in orders))]:
            with open(path, "w", encoding="ascii") as file:
                file.write(text)
        ended = run(self.program, ["node", tree, "A", store, "--turns", str(turns)], given,
                    {"LD_PRELOAD": self.refusing, **settings} if settings else {})
        rows = sorted(stores.rows_in(store)) if os.path.exists(store) else []
        if settings:
            shutil.rmtree(room)
        return ended, rows

    def count(self, orders):
        """Returns how many growths a node has that serves many turns."""
        path = os.path.join(self.folder, "count")
        self.run("counted", orders, MANY, COUNT=path)
        with open(path, "rb") as file:
            return int.from_bytes(file.read(8), sys.byteorder)


def with_refused(orders, without):
    """Yields what a node prints and leaves that refuses one order: all else is as if that order was not given."""
    for place, ((out, err, status), rows) in enumerate(without):
        lines = out.decode().splitlines()
        lines.insert(place, "told ANN %s %d" % (orders[place], REFUSED))
        yield (("".join(line + "\n" for line in lines)).encode(), err, status), rows


def is_sound(came, whole, refused, found):
    """Returns true if a node to which one growth was refused did one of these things.

    It did all that it does otherwise, or refused one order, which changed nothing, or it or its console said that there
    was no memory, and its rows are those of some moment.
    """
    (out, err, status), rows = came
    said = whole[0][0].startswith(out) and err == b"no memory\n" and status in (0, 4) and rows in found
    return came == whole or came in refused or said


def tried(made, place, orders, whole, refused, found):
    """Returns how a node ended whose growth of this number was refused: at the second try if it was too busy."""
    for turns in (FEW, MANY):
        came = made.run("refused%d" % place, orders, turns, REFUSE=str(place))
        if is_sound(came, whole, refused, found):
            break
    return came
