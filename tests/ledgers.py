"""What an operator was told of a domain, beside what the store of the station has of it.

A station runs alone. Its operator ANN takes, commands and drops DCS: one order after the other, or several commands at
once. What she was told was saved before, so it has to be in the store whenever that is read, and no command may have
run more often than she ordered it.
"""

import os
import sqlite3
import subprocess
import tempfile
import time
import typing

# it puts tools on the path, so it comes first
from running import HERE, is_so, read, write

import consoles
import lunskaf
import nodes
import verdicts

# What a store consists of, by the end of its files' names, and what is there for a moment.
ENDS = ("", "-wal", "-tree", "-sum")
UNFINISHED = ("-tree-new", "-sum-new", "-shm", "-journal")
# The operator ANN and the domain DCS by their numbers, and the keys of the rows of station A.
ANN, DCS = (1, 1), 1
# The form of a link that gives back, and more commands than there are.
DROPPING, ALL = 4, 1_000_001
BOOT, DOMAIN, OPERATOR = (1, 0, 0), (1, 1, 0), (1, 0, 1)
ACTIONS = ["CONFIGURE", "START"]
# How many commands ANN gives at once.
AT_ONCE = (1, 1, 4, 8)
# Codes with which a command has run, and with which it is refused because of what is not settled yet.
RUN, REFUSED = ("0", "1"), ("21", "22", "8")


class Saved(typing.NamedTuple):
    """What rows say of DCS, and of the starts of its station."""
    boot: int = 0
    holder: tuple = (0, 0)
    epoch: int = 0
    last: int = 0
    # the newest command that ANN has given, which may not have run yet
    number: int = 0
    # the epoch that ANN knows of, and how many of her commands she knows to have ended
    known: tuple = (0, 0)


def saved_in(rows):
    """Returns what rows of station A say, which are bytes by their keys."""
    kind, holder, epoch, last, _, _ = verdicts.record_of(rows.get(DOMAIN, bytes(24)))
    form, known, number, pending = verdicts.links_of(rows.get(OPERATOR, bytes(4))[4:]).get(DCS, (0, 0, 0, 0))
    # (a domain is given back once all commands have ended)
    ended = ALL if form == DROPPING else number - pending
    return Saved(int.from_bytes(rows.get(BOOT, bytes(8))[4:], "big"), (kind, holder), epoch, last, number,
                 (known, ended))


def read_rows(files):
    """Returns the rows that sqlite3 finds in a store of these files, which are bytes by the ends of their names.

    Raises sqlite3.Error if it can't read them.
    """
    with tempfile.TemporaryDirectory() as folder:
        for end in ("", "-wal"):
            if end in files:
                write(os.path.join(folder, "store" + end), files[end])
        file = sqlite3.connect(os.path.join(folder, "store"))
        try:
            # (a store that lost a part may have no bytes in a row)
            return {tuple(row[:3]): bytes(row[3] or b"") for row in file.execute("SELECT * FROM stable_rows")}
        finally:
            file.close()


class Place:
    """A folder with the worked tree, and with the store and the console of its station A."""

    def __init__(self, program, folder, name="A.store"):
        self.program, self.folder = program, folder
        self.ports = nodes.free_ports(2)
        self.tree = nodes.write_tree(folder, self.ports)
        self.store, self.where = os.path.join(folder, name), os.path.join(folder, "console")

    def start(self, *more, **how):
        """Starts the node, and waits until it listens or has ended. Returns it, and a console if it listens."""
        if os.path.exists(self.where):
            os.remove(self.where)
        node = self.node(*more, **how)
        consoles.wait_for(self.where, node)
        try:
            return node, consoles.Console(self.where)
        except lunskaf.Lost:
            return node, None

    def node(self, *more, **how):
        """Starts the node, and waits for nothing."""
        words = [self.tree, "A", self.store, "--endless", "--console", self.where, *more]
        return nodes.Node(self.program, words, **how)

    def begun(self, *more):
        """Returns how a node ends that is run on the store for some turns: its lines, its faults and its status."""
        return nodes.ran(self.program, [self.tree, "A", self.store, "--turns", nodes.FEW, *more])

    def files(self):
        """Returns the files of the store, by the ends of their names."""
        found = {end: read(self.store + end) for end in ENDS}
        return {end: data for end, data in found.items() if data is not None}

    def put(self, files):
        """Puts these files in the place of those of the store, and takes all others away."""
        for end in (*ENDS, *UNFINISHED):
            if end in files:
                write(self.store + end, files[end])
            elif os.path.lexists(self.store + end):
                os.remove(self.store + end)

    def saved(self):
        """Returns what the store says, as sqlite3 reads a copy of it. Raises sqlite3.Error if it can't."""
        return saved_in(read_rows(self.files()))

    def listed(self):
        """Returns what the rows say that the program lists, or None if it lists none, and what it tells."""
        done = subprocess.run([self.program, "rows", self.store], capture_output=True, text=True, check=False)
        lines = [line.split(" ") for line in done.stdout.splitlines()]
        found = {tuple(map(int, line[:3])): bytes.fromhex(line[3]) for line in lines}
        return None if done.returncode else saved_in(found), done.stderr.strip()


class Crew:
    """ANN at a console, who orders about DCS, and what must be in the rows by what she was told."""

    def __init__(self, console, draw, before):
        self.console, self.draw = console, draw
        self.holds = before.holder == ANN
        self.epoch, self.last, self.most_last = before.epoch, before.last, max(before.last, before.number)
        # an order that an earlier life left under way may still come
        self.most_epoch, self.known, self.told = before.epoch + 1, before.known, 0

    def work(self, seconds, answers=ALL):
        """Orders until the time is over, this many answers came, or the node ends.

        Returns an answer that no order may have, or None.
        """
        until, strange = time.monotonic() + seconds, None
        while time.monotonic() < until and self.told < answers and strange is None:
            if self.holds and self.draw.random() >= 0.3:
                came, strange = self.command()
            else:
                came, strange = self.change()
            self.told += came
            if strange == "":
                return None
        return strange

    def change(self):
        """Takes DCS or drops it. Returns how many answers came, and what is strange of them; "" is the end."""
        order = "drop" if self.holds else "take"
        self.most_epoch += 1
        line = self.console.ask("order ANN %s DCS" % order)
        if not line:
            return 0, ""
        code = line.removeprefix("told ANN %s DCS " % order)
        if code == "0":
            self.holds = not self.holds
            self.epoch, self.last, self.most_last = self.epoch + 1, 0, 0
            self.known = max(self.known, (self.epoch, 0))
        else:
            self.most_epoch -= 1
            self.holds = self.holds and code == "22" or code == "23"
        is_known = code == "0" or code in (("21", "22") if order == "drop" else ("23",))
        return 1, None if is_known else line

    def command(self):
        """Gives some commands at once. Returns how many answers came, and what is strange of them; "" is the end."""
        count = self.draw.choice(AT_ONCE)
        self.most_last += count
        try:
            self.console.say("".join("@%d order ANN do DCS %s\n" % (it, self.draw.choice(ACTIONS))
                                     for it in range(count)))
        except OSError:
            return 0, ""
        for told in range(count):
            line = self.console.line()
            if not line:
                return told, ""
            code = line.split(" ")[-1]
            if code in RUN:
                self.last, self.known = self.last + 1, (self.known[0], self.known[1] + 1)
            if " told ANN do DCS " not in line or code not in RUN + REFUSED:
                return told + 1, line
        return count, None

    def fault(self, now):
        """Returns what is wrong with what rows say now, or "" if nothing is."""
        if now.epoch < self.epoch:
            return "an answered change of hands is lost: epoch %d, told %d" % (now.epoch, self.epoch)
        if now.epoch > self.most_epoch:
            return "more changes of hands than were ordered: epoch %d, at most %d" % (now.epoch, self.most_epoch)
        if now.epoch == self.epoch and now.last < self.last:
            return "an answered command is lost: the last is %d, told %d" % (now.last, self.last)
        if now.known < self.known:
            return "an answer is lost: known is %s, told %s" % (now.known, self.known)
        if now.epoch == self.epoch and now.last > self.most_last:
            return "more commands than were ordered: the last is %d, at most %d" % (now.last, self.most_last)
        return ""


def library(source, folder):
    """Builds a library of a file of tests/, and returns the environment in which a program loads it."""
    name = os.path.splitext(source)[0] + ".so"
    subprocess.run(["cc", "-shared", "-fPIC", "-O1", "-pthread", "-o", os.path.join(folder, name),
                    os.path.join(HERE, source)], check=True)
    # by its name, because a list of paths is split at each space
    return {**os.environ, "LD_PRELOAD": name, "LD_LIBRARY_PATH": folder}


def has_ended(node, seconds):
    """Returns true once a node has ended, or false if it has not in time."""
    return is_so(lambda: node.child.poll() is not None, seconds, 0.01)
