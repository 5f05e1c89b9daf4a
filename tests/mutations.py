"""Mutated datagrams that are sent to a node beside orders: those that have to be refused, and any.

usage: mutations.py [--seconds N] [--rate N] [--seed N] PROGRAM

Datagrams of all kinds are drawn, and a few bits, bytes and fields of each are changed. Nodes A, B and C of the worked
tree run, and A is sent these:

one by one   mutations that have to be refused, slowly: each counts as refused with its own number (docs/FORMATS.md,
             "Datagrams"; docs/PROTOCOL.md, "Refusals"), and no other does
refused      the same, RATE a second for N seconds, beside orders of ANN: each is answered as ever
any          mutations of which some are obeyed, because they are what a station could send: no node ends, and each
             starts again on its rows

A line is printed for each part.
"""

import argparse
import collections
import itertools
import os
import random
import socket
import statistics
import tempfile
import time

# it puts tools on the path, so it comes first
import running
import layout
import nodes
import wires
from consoles import Console, wait_for
from running import DEADLINE, is_so, memory_of

# The kinds that tell which boot watches, and no state.
WATCHING = sorted(layout.FIELDS["echo"][2].keys() - {layout.STATE})
STATIONS, DCS, TPC, MUON, NO_DOMAIN = "ABC", 1, 2, 3, 100
# How many datagrams are sent at once if none may be lost, and how many are drawn for each second of a flood.
AT_ONCE, DRAWN = 100, 20_000
# How many mutations are sent one by one for each second of a flood.
ONE_BY_ONE = 1000
# How much memory a node may take more under a flood, in KiB.
MORE = 4_000
# What a crew does again and again; each is answered with 0.
ORDERS = ["take DCS", "include DCS TPC", "do DCS CONFIGURE", "do DCS START", "manual DCS TPC", "include DCS TPC",
          "exclude DCS TPC", "drop DCS"]
# Numbers at the ends of ranges.
ODD = (0, 1, 2, 127, 128, 129, 255, 256, 640, 641, 32_767, 32_768, 65_535, 1_000_000, 1_000_001, 3_999_999_999,
       4_000_000_000, 4_000_000_001, 2 ** 32 - 1, 2 ** 62 - 1, 2 ** 62, 2 ** 62 + 1, 2 ** 64 - 1)
PLACES = [(0, 2), (2, 1), (3, 1), *[(place, size) for place, size, _ in layout.FIELDS.values()]]


def templates():
    """Returns datagrams to A of all kinds, as stations B and C and A itself would send them."""
    found = []
    for epoch in (0, 1, 2, 3, 5):
        for who in (1, 2):
            of = {"from": who, "to": 1, "subject": DCS, "holder_kind": 1, "holder": who}
            found.append(layout.datagram(layout.TAKE, epoch=epoch, **of))
            found.append(layout.datagram(layout.DROP, epoch=epoch | 1, **of))
            found += [layout.datagram(layout.RUN, epoch=epoch | 1, number=number, code=code, argument=1, **of)
                      for number in (1, 2) for code in (1, 2, 4)]
        for subject, who in ((TPC, 2), (MUON, 3)):
            of = {"from": who, "to": 1, "subject": subject}
            held = {"holder_kind": 2, "holder": DCS, "epoch": epoch | 1, **of}
            found += [layout.datagram(layout.TELL, number=number, phase=phase, **held)
                      for number in (1, 2) for phase in (0, 1)]
            found += [layout.datagram(layout.TELL, epoch=epoch & ~1, **of)]
            found += [layout.datagram(layout.STATE, echo=echo, code=code, boot=1, sequence=epoch, **of)
                      for echo in (1, 2) for code in (1, 2, 3)]
    for who in (2, 3):
        found.append(layout.datagram(layout.ASK, **{"from": who}, to=1, subject=DCS))
        found += [layout.datagram(kind, **{"from": who}, to=1, subject=DCS, echo=1) for kind in WATCHING]
    return found


TEMPLATES = templates()


def mutated(draw):
    """Returns a datagram with up to three changes: a bit, a byte, a number at the end of a range, another's field."""
    data = bytearray(draw.choice(TEMPLATES))
    for _ in range(draw.randrange(4)):
        way, at = draw.randrange(4), draw.randrange(len(data))
        place, size = draw.choice(PLACES)
        if way == 0:
            data[at] ^= 1 << draw.randrange(8)
        elif way == 1:
            data[at] = draw.randrange(256)
        elif way == 2:
            data[place:place + size] = (draw.choice(ODD) % 256 ** size).to_bytes(size, "big")
        else:
            data[place:place + size] = draw.choice(TEMPLATES)[place:place + size]
    return bytes(data)


def refused(draw):
    """Returns a mutation that has to be refused."""
    data = spoiled(draw, bytearray(mutated(draw)))
    # one wrong byte may make another one right
    return data if refusal(data) else refused(draw)


def spoiled(draw, data):
    """Returns a datagram whose length, mark, layout, kind, tree, receiver or domain is wrong."""
    way = draw.randrange(7)
    if way == 0:
        count = draw.choice([it for it in range(1, 200) if it != len(data)])
        return bytes(data[:count]) + draw.randbytes(max(0, count - len(data)))
    if way == 1:
        data[draw.randrange(2)] ^= 0x20
    elif way in (2, 3):
        data[way] = draw.randrange(9, 256)
    elif way == 4:
        data[30:32] = draw.randrange(18, 65_536).to_bytes(2, "big")
    elif way == 5:
        data[6:8] = draw.randrange(2, 129).to_bytes(2, "big")
    else:
        data[8:10] = NO_DOMAIN.to_bytes(2, "big")
    return bytes(data)


def refusal(data):
    """Returns the number with which A refuses such a mutation, or 0 if it may be obeyed."""
    # of a host that no station has it is one without bytes (docs/NETWORK.md)
    if len(data) < 6 or not 1 <= int.from_bytes(data[4:6], "big") <= len(STATIONS):
        return 1
    code, field = layout.refusal(data), layout.values(data)
    if code:
        return code
    if field["tree"] != 17:
        return 7
    if field["to"] != 1:
        return 8
    return 9 if field["subject"] == NO_DOMAIN else 0


class Play:
    """Nodes A, B and C of the worked tree, ANN at the console of A, and who sends datagrams to A."""

    def __init__(self, program, folder, draw):
        self.program, self.folder, self.draw, self.cases = program, folder, draw, []
        self.ports = nodes.free_ports(len(STATIONS))
        self.tree, where = nodes.write_tree(folder, self.ports), os.path.join(folder, "console")
        self.nodes = {it: nodes.Node(program, [self.tree, it, self.store(it), "--endless", *self.console_of(it)])
                      for it in STATIONS}
        wait_for(where, self.nodes["A"])
        self.console = Console(where)

    def store(self, station):
        return os.path.join(self.folder, station + ".store")

    def console_of(self, station):
        return ["--console", os.path.join(self.folder, "console")] if station == "A" else []

    def case(self, name, is_so, came=""):
        self.cases.append((name, is_so, came))

    def counts(self):
        """Returns what A has counted, by name."""
        words = self.console.ask("@c counts").split(" ")
        return collections.Counter(dict(zip(words[2::2], map(int, words[3::2]))))

    def is_running(self):
        return all(node.child.poll() is None and not node.err for node in self.nodes.values())

    def send(self, data, rate, seconds):
        return wires.Sender(self.ports[0], rate, [(0, it) for it in data], seconds)

    def end(self):
        for node in self.nodes.values():
            node.kill()
        self.console.close()


def refusals_of(counts):
    """Returns how many datagrams were refused with each number."""
    return {code: counts["refused%d" % code] for code in range(1, 10) if counts["refused%d" % code]}


def told_of(counts):
    return ", ".join("%d with %d" % (count, code) for code, count in sorted(counts.items()))


def one_by_one(play, count):
    """Sends mutations so slowly that none is lost: each counts as what it is, and as nothing else."""
    wanted, first = collections.Counter(), play.counts()

    def risen():
        return refusals_of(play.counts() - first)

    with socket.socket(socket.AF_INET, socket.SOCK_DGRAM) as one:
        for _ in range(0, count, AT_ONCE):
            data = [refused(play.draw) for _ in range(AT_ONCE)]
            wanted.update(map(refusal, data))
            for it in data:
                one.sendto(it, ("127.0.0.1", play.ports[0]))
            is_so(lambda: sum(risen().values()) >= sum(wanted.values()), DEADLINE, 0.001)
    came = risen()
    print("one by one: %d sent, refused %s" % (sum(wanted.values()), told_of(came)), flush=True)
    play.case("one by one, each is refused with its number", came == dict(wanted), "%s, wanted %s" % (came, wanted))
    play.case("one by one, all numbers were there", sorted(came) == list(range(1, 10)), came)
    return came == dict(wanted)


class Flood:
    """A flood in rounds of a second, each with mutations of its own, and what was done beside it."""

    def __init__(self, play, draw_one, rate):
        self.play, self.draw_one, self.rate = play, draw_one, rate
        self.sent, self.wanted, self.memory = 0, collections.Counter(), []

    def rounds(self, seconds, beside):
        """Sends for this many seconds, and calls what is done beside it as long as a round goes on."""
        for _ in range(max(1, round(seconds))):
            data = [self.draw_one(self.play.draw) for _ in range(min(DRAWN, self.rate))]
            flood = self.play.send(data, self.rate, min(1, seconds))
            while flood.is_running():
                beside()
            sent = flood.end()[0]
            self.sent += sent
            for place, it in enumerate(data):
                self.wanted[refusal(it)] += len(range(place, sent, len(data)))
            self.memory.append(memory_of(self.play.nodes["A"].child))


def refused_flood(play, seconds, rate):
    """Floods A with mutations that have to be refused: each order is answered as ever."""
    first, before = play.counts(), memory_of(play.nodes["A"].child)
    flood, took, told, turn = Flood(play, refused, rate), [], collections.Counter(), itertools.count()

    def order():
        line, begun = "order ANN " + ORDERS[next(turn) % len(ORDERS)], time.monotonic()
        told[play.console.ask(line) == "told%s 0" % line.removeprefix("order")] += 1
        took.append(time.monotonic() - begun)

    flood.rounds(seconds, order)
    # (the system's own count of what it dropped is read once a second)
    time.sleep(1.5)
    came = play.counts() - first
    print("refused: %d sent, %d received, %d dropped; refused %s; %d orders, median %.1f ms, longest %.0f ms; %d KiB, "
          "then at most %d" % (flood.sent, came["received"], came["dropped"], told_of(refusals_of(came)), len(took),
                               1000 * statistics.median(took), 1000 * max(took), before, max(flood.memory)), flush=True)
    play.case("each order is answered as ever", set(told) == {True}, told)
    most = {code: count for code, count in refusals_of(came).items() if code > 1 and count > flood.wanted[code]}
    play.case("none is refused with another number", not most, "%s, at most %s" % (most, flood.wanted))
    play.case("most are seen", came["received"] + came["dropped"] >= flood.sent, came)
    play.case("memory does not grow", max(flood.memory) - before < MORE, flood.memory)
    wanted = changes_of(len(took))
    play.case("the record is that of the orders", (found := play.console.ask("order ANN ask DCS")) == wanted, found)
    finish(play)


def changes_of(orders):
    """Returns what ANN is told of DCS after this many orders."""
    rounds, more = divmod(orders, len(ORDERS))
    if more == 0:
        return "told ANN ask DCS free %d 0 settled 0" % (2 * rounds)
    return "told ANN ask DCS ANN %d %d settled 0" % (2 * rounds + 1, more - 1)


def finish(play):
    """Gives the orders up to the last, so that DCS is free."""
    while not play.console.ask("order ANN drop DCS").endswith((" 0", " 21")):
        pass


def any_flood(play, seconds, rate):
    """Floods A with mutations of which some are obeyed: no node ends, and A answers what it knows itself."""
    before = memory_of(play.nodes["A"].child)
    first, flood, answers = play.counts(), Flood(play, mutated, rate), collections.Counter()

    def ask():
        answers[bool(play.counts())] += 1
        time.sleep(0.002)

    flood.rounds(seconds, ask)
    came = play.counts() - first
    print("any: %d sent, %d received; refused %s; %d KiB, then at most %d; %d questions" % (
        flood.sent, came["received"], told_of(refusals_of(came)), before, max(flood.memory), answers[True]), flush=True)
    play.case("some may be obeyed", flood.wanted[0] > 0 and flood.wanted[5] > 0, flood.wanted)
    play.case("counts are always told", set(answers) == {True}, answers)
    play.case("memory does not grow by any mutations", max(flood.memory) - before < MORE, flood.memory)


def started_again(play):
    """Starts each node again on its rows, which are lawful."""
    play.case("all nodes go on", play.is_running(), [it.err for it in play.nodes.values()])
    play.end()
    for station in STATIONS:
        listed = running.run([play.program, "rows", play.store(station)])
        play.case("rows of %s" % station, listed[1:] == (b"", 0) and listed[0], listed)
        came = nodes.ran(play.program, [play.tree, station, play.store(station), "--turns", nodes.FEW])
        play.case("%s starts again" % station, came == ([], [], 0), came)


def played(program, draw, count, seconds, rate):
    """Plays all parts, and returns the cases."""
    with tempfile.TemporaryDirectory() as folder:
        play = Play(program, folder, draw)
        try:
            one_by_one(play, count)
            refused_flood(play, seconds, rate)
            any_flood(play, seconds, rate)
            started_again(play)
        finally:
            play.end()
    return play.cases


def main():
    words = argparse.ArgumentParser(usage=__doc__.split("usage: ")[1].split("\n")[0])
    words.add_argument("program")
    words.add_argument("--seconds", type=float, default=30)
    words.add_argument("--rate", type=int, default=50_000)
    words.add_argument("--seed", type=int, default=1)
    given = words.parse_args()
    print("seed %d" % given.seed, flush=True)
    count = int(ONE_BY_ONE * given.seconds)
    running.end(played(os.path.abspath(given.program), random.Random(given.seed), count, given.seconds, given.rate))


if __name__ == "__main__":
    main()
