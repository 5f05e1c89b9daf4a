"""What the program does over long inputs, and over a tree at every limit."""

import os
import subprocess

import running
import stores
import trees
from command_lines_test import TAKE, TAKEN

# How many datagrams are answered in one run, and how many are written at once.
MANY, BLOCK = 5_000_000, 1000


def test_many_answers(program, folder):
    """Many copies of one datagram are all answered."""
    source, result = os.path.join(folder, "many"), os.path.join(folder, "answers")
    with open(source, "wb") as file:
        for _ in range(MANY // BLOCK):
            file.write(TAKE * BLOCK)
    with open(source, "rb") as file, open(result, "wb") as out:
        done = subprocess.run([program, "answer"], stdin=file, stdout=out, stderr=subprocess.PIPE, check=False)
    assert (done.stderr, done.returncode) == (b"", 0)
    with open(result, "rb") as file:
        assert all(file.read(BLOCK * len(TAKEN)) == TAKEN * BLOCK for _ in range(MANY // BLOCK)) and not file.read(1)


def test_many_rows(smi, folder):
    """A store of all rows that a tree at every limit has, and more, is listed."""
    path = os.path.join(folder, "full")
    rows = [((station, 0, 0), "02000000ee6b2800") for station in range(1, 129)]
    rows += [((domain, domain, 0), "020100010000000000000001" + "00000001" + 16 * "0") for domain in range(1, 129)]
    link = "0500" + "0000000000000001" + "000f4240" + "00010040" + "0007" + 7 * "00010001"
    rows += [(((operator + 7) // 8, 0, operator), "03000010" + "".join("%04x" % n + link for n in range(1, 17)))
             for operator in range(1, 33)]
    rows += [((129, domain, 0), "07" * domain) for domain in range(1, 713)]
    assert len(rows) == 1000
    stores.store(path, stores.TABLE, rows)
    assert smi("rows", path) == (stores.listing(rows).encode(), b"", 0)


# The states in which all devices of the full tree are reported, one after the other.
REPORTED = [64, 1, 32, 33, 2]


class Full:
    """The objects of the full tree by its file: what is shown of each, and what a report or an action makes of it."""

    def __init__(self, text):
        lines = [line.split() for line in text.splitlines()]
        self.moves = {tuple(line[2:4]): line[4] for line in lines if line[0] == "move"}
        self.rules = {}
        for how, unit, seen, target in (line for line in lines if line[0] in ("any", "all")):
            self.rules.setdefault(unit, []).append((how, seen, target))
        self.units = {line[1]: line[3] for line in lines if line[0] == "domain"}
        self.below = {name: [line[1] for line in lines if line[0] == "device" and line[2] == name]
                      for name in self.units}
        self.domain = {device: name for name, devices in self.below.items() for device in devices}
        self.state = {name: "S1" for name in [*self.units, *self.domain]}
        self.count = dict.fromkeys(self.state, 0)

    def show(self, name, state):
        """Yields the line of an object that comes to another state."""
        if state != self.state[name]:
            self.state[name] = state
            self.count[name] += 1
            yield "passed %s 1.%d %s" % (name, self.count[name], state)

    def follow(self, domain):
        """Yields the line of a unit that follows the devices of its domain, by the first rule that holds of them."""
        seen = {self.state[it] for it in self.below[domain]}
        held = (target for how, state, target in self.rules[self.units[domain]]
                if (state in seen if how == "any" else seen == {state}))
        yield from self.show(domain, next(held, self.state[domain]))

    def report(self, device, state):
        yield from self.show(device, state)
        yield from self.follow(self.domain[device])

    def act(self, domain, action):
        for device in self.below[domain]:
            yield from self.show(device, self.moves.get((self.state[device], action), self.state[device]))
        yield from self.follow(domain)


def test_full(smi, folder):
    """Each device of the tree at every limit is reported in some states, and each action is run at its first domain.

    The devices and units of all stations pass through the states that the file says.
    """
    model, lines, wanted = Full(trees.full()), [], []
    for state in REPORTED:
        for device in range(1, 513):
            lines.append("report V%d S%d" % (device, state))
            wanted += model.report("V%d" % device, "S%d" % state)
    lines += ["order O1 take D1", "recent 0", "recent 0"]
    for action in range(1, 65):
        lines += ["order O1 do D1 A%d" % action, "recent 0", "recent 0"]
        wanted += model.act("D1", "A%d" % action)
    tree = running.write(os.path.join(folder, "full.tree"), trees.full())
    schedule = running.write(os.path.join(folder, "schedule"), "\n".join(lines) + "\n")
    begun, done = (smi("sim", tree, it) for it in (os.devnull, schedule))
    came = done[0].decode().splitlines()[len(begun[0].splitlines()):]
    assert ([it for it in came if it.startswith("passed")], *done[1:]) == (wanted, b"", 0)
