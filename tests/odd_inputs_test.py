"""Odd inputs, outputs and command lines: those that fail, don't end or are no files, and commands with little memory.

What is told of each is in docs/NUMBERS.md, "Statuses of the program" and "Lines on standard error"; what an input may
be is in docs/FORMATS.md; and which words a command takes is in README.md, "The commands". A run that does not end in
time has failed, because `smi` returns None for it.
"""

import functools
import os
import re
import socket
import subprocess

import pytest

import growths
import journals
import nodes
import running
import screens
import stores
import trees
from command_lines_test import TAKE
from schedules_test import OPENING

TREE = running.example("worked.tree")
# How long a run may take, in seconds, and how long one may that runs a million items.
SOON, LATE = 20, 300
WRONG = (b"", b"wrong line\n", 2)
READ_FAULT, STORE_FAULT = (b"", b"read fault\n", 3), (b"", b"store fault\n", 3)
# How many datagrams are answered, and how many items are drawn, whose output no buffer holds.
DATAGRAMS, ITEMS, MOST_ITEMS = 100_000, 1_000, 1_000_000
# A word that is far longer than any path or number, how many digits a number has that no range has, and how many words
# a command line has.
LONG, DIGITS, WORDS = "x" * 100_000, 5_000, 2_000
# By how much memory one limit is more than the one before, in KiB, how many there are, and the one of a long run.
STEP, STEPS, ENOUGH = 64, 24, 65_536
# What the worked tree file declares, as `smi check` tells it.
COUNTS = b"tree 17 stations 2 operators 2 domains 2 devices 1\n"


@pytest.fixture
def ends(smi):
    """Returns a function that runs the program, which has to end soon."""
    return functools.partial(smi, timeout=SOON)


@pytest.fixture
def watched(folder):
    """Returns the path of the worked tree with a station for a screen."""
    ports = nodes.free_ports(3)
    return nodes.write_tree(folder, None, screens.with_screen(nodes.tree_lines(ports[:2]), ports[2]))


def journal(folder):
    """Writes a journal of station A, and returns its path."""
    tree = journals.Tree(running.text_of(TREE))
    text = journals.file_text(tree, "A", [(1, "booted A 1")])
    return running.write(os.path.join(folder, "A.journal"), text)


def test_full_device(ends, folder, subtests):
    """An output that has no room is told, also if it is the middle of a long one that finds none."""
    long = running.write(os.path.join(folder, "schedule"), "tick A\n" * ITEMS)
    rows = [((station, domain, 0), "%02x" % domain * 20) for station in range(1, 20) for domain in range(1, 101)]
    store = stores.store(os.path.join(folder, "store"), stores.TABLE, rows)
    for name, words, given in [
            ("many answers", ["answer"], TAKE * DATAGRAMS),
            ("the trace of drawn items", ["sim", TREE, "--seed", "1", "--steps", ITEMS], b""),
            ("the trace of a long schedule", ["sim", TREE, long], b""),
            ("the trace of a schedule that is settled", ["sim", TREE, long, "--settle"], b""),
            ("many rows", ["rows", store], b""),
            ("a verdict", ["audit", TREE, journal(folder)], b""),
            ("a merged trace", ["audit", TREE, journal(folder), "--trace"], b"")]:
        with open("/dev/full", "wb") as full:
            told = ends(*map(str, words), given=given, stdout=full)
        with subtests.test(name):
            # (with --trace the verdict is on standard error too)
            assert told and (told[1].splitlines()[-1:], told[2]) == ([b"write fault"], 3), told


def test_endless_inputs(ends, folder, watched, subtests):
    """What is read never ends: it is refused by its beginning, or by its size."""
    zero, store = "/dev/zero", screens.store_of(folder, "screen")
    long_tree, long_line = (b"", b"tree line 0 fault 11\n", 1), (OPENING, b"schedule line 1 fault 10\n", 1)
    screen = ["screen", watched, "SCREEN", store, "--http", "127.0.0.1:%d" % screens.tcp_port(), "--turns", "1"]
    for name, words, told in [
            ("a tree", ["check", zero], long_tree), ("a tree with doubts", ["check", zero, "--lint"], long_tree),
            ("a tree of drawn items", ["sim", zero, "--seed", "1", "--steps", "1"], long_tree),
            ("a tree and a schedule", ["sim", zero, zero], long_tree),
            ("a tree of journals", ["audit", zero, zero], long_tree),
            ("a tree of a node", ["node", zero, "A", store], long_tree),
            ("a schedule", ["sim", TREE, zero], long_line),
            ("a schedule to be settled", ["sim", TREE, zero, "--settle"], long_line),
            ("a store", ["rows", zero], STORE_FAULT),
            ("a token", [*screen, "--orders", store + " console", "--token", zero], (b"", b"token fault\n", 1)),
            ("a style", [*screen, "--style", zero], (b"", b"style line 0 fault 11\n", 1))]:
        with subtests.test(name):
            assert ends(*words) == told
    with subtests.test("a journal"):
        out, err, status = ends("audit", TREE, zero)
        assert (out, status) == (b"", 1) and re.fullmatch(rb"journal /dev/zero line 1 fault \d+\n", err)
    with open(zero, "rb") as endless, subtests.test("datagrams"):
        assert ends("answer", stdin=endless) == (b"", b"datagram 1 refused 2\n", 1)


def test_pipes(ends, subtests):
    """What comes through a pipe is read as from a file."""
    for name, words, given, told in [
            ("a tree", ["check", "/dev/stdin"], trees.WORKED, (COUNTS, b"", 0)),
            ("comments alone", ["check", "/dev/stdin"], "#\n" * 131_072, (b"", b"tree line 0 fault 12\n", 1)),
            ("one line as long as a file may be", ["check", "/dev/stdin"], "a" * 262_144,
             (b"", b"tree line 1 fault 10\n", 1)),
            ("a byte too many", ["check", "/dev/stdin"], "\n" * 262_145, (b"", b"tree line 0 fault 11\n", 1)),
            ("a schedule", ["sim", TREE, "/dev/stdin"], "walk\n", (OPENING, b"schedule line 1 fault 1\n", 1)),
            ("no store", ["rows", "/dev/stdin"], "", STORE_FAULT)]:
        with subtests.test(name):
            assert ends(*words, given=given.encode()) == told


def test_no_files(ends, folder, subtests):
    """What is no file is told as a read or a store that fails."""
    there = os.path.join(folder, "socket")
    with socket.socket(socket.AF_UNIX) as one:
        one.bind(there)
    for name, words, told in [
            ("a socket as a tree", ["check", there], READ_FAULT), ("a socket as a store", ["rows", there], STORE_FAULT),
            ("a socket as a schedule", ["sim", TREE, there], READ_FAULT),
            ("a socket as a journal", ["audit", TREE, there], READ_FAULT),
            ("a folder as a journal", ["audit", TREE, folder], READ_FAULT),
            ("a folder as a tree of drawn items", ["sim", folder, "--seed", "1", "--steps", "1"], READ_FAULT),
            ("an empty device as a tree", ["check", os.devnull], (b"", b"tree line 0 fault 12\n", 1)),
            ("a path without a name", ["check", ""], READ_FAULT), ("a store without a name", ["rows", ""], STORE_FAULT),
            ("a path through a file", ["check", TREE + "/more"], READ_FAULT),
            ("a path that is too long", ["check", LONG], READ_FAULT),
            ("a store's path that is too long", ["rows", LONG], STORE_FAULT)]:
        with subtests.test(name):
            assert ends(*words) == told
    with subtests.test("a store that is listed is not made"):
        assert (ends("rows", os.path.join(folder, "none")), os.listdir(folder)) == (STORE_FAULT, ["socket"])


def test_command_lines(ends, folder, watched, subtests):
    """Words that no command has, and numbers out of their ranges, are wrong lines and leave nothing."""
    store, many = os.path.join(folder, "store"), "9" * DIGITS
    node = ["node", watched, "A", store, "--turns"]
    screen = ["screen", watched, "SCREEN", store, "--http", "127.0.0.1:%d" % screens.tcp_port()]
    for name, words in [
            ("a long word", [LONG]), ("an empty word", [""]), ("many empty words", [""] * WORDS),
            ("an empty word too many", ["check", TREE, ""]), ("many words too many", ["check", *[TREE] * WORDS]),
            ("an option again and again", ["check", TREE, *["--lint"] * WORDS]),
            ("a long option", ["check", TREE, "--" + LONG]), ("many options", ["answer", *["--x"] * WORDS]),
            ("a long station", ["node", watched, LONG, store]), ("no station", ["node", watched, "", store]),
            ("a station that is no text", ["node", watched, b"\xff\xfe", store]),
            ("a seed below its range", ["sim", TREE, "--seed", "-1", "--steps", "1"]),
            ("a seed of many digits", ["sim", TREE, "--seed", many, "--steps", "1"]),
            ("a seed that is no text", ["sim", TREE, "--seed", b"\xff", "--steps", "1"]),
            ("items below their range", ["sim", TREE, "--seed", "1", "--steps", "-1"]),
            ("items of many digits", ["sim", TREE, "--seed", "1", "--steps", many]),
            ("items as a power", ["sim", TREE, "--seed", "1", "--steps", "1e3"]),
            ("items with a blank", ["sim", TREE, "--seed", "1", "--steps", " 1"]),
            ("turns of many digits", [*node, many]), ("turns that are no text", [*node, b"\xff"]),
            ("turns of a screen above their range", [*screen, "--turns", "1000001"]),
            ("turns of a screen of many digits", [*screen, "--turns", many]),
            ("days below their range", [*screen, "--turns", "1", "--history-days", "-1"]),
            ("days of many digits", [*screen, "--turns", "1", "--history-days", many]),
            ("a journal of no name", ["audit", TREE]), ("no tree", ["audit"])]:
        with subtests.test(name):
            assert ends(*words) == WRONG
    with subtests.test("nothing is made"):
        assert os.listdir(folder) == ["tree"]


# Words in the place of A.B.C.D:PORT that are none, or an address of other machines. `@` is a port that is free.
NO_ADDRESSES = [
    "127.0.0.1:65536", "127.0.0.1:99999999999", "127.0.0.1:", "127.0.0.1", ":@", "@", "", "127.1:@",
    "127.0.0.0.1:@", "0x7f.0.0.1:@", "0x7f.1:@", "2130706433:@", "256.0.0.1:@", "127.0.0.-1:@", "127.0.0.1:-1",
    "127.0.0.1:+@", "127.0.0.1:0x50", "127.0.0.1:@:@", " 127.0.0.1:@", "127.0.0.1: @", "127.0.0.1:@ ", "127.0.0.1:@/",
    "http://127.0.0.1:@", "::1", "[::1]:@", "[127.0.0.1]:@", "localhost:@", "LOCALHOST:@", "daq.example:@",
    b"127.0.0.1\xff:@", "0.0.0.0:@", "255.255.255.255:@", "169.254.0.1:@", "128.0.0.1:@", "126.255.255.255:@"]
# Addresses of this machine alone.
ADDRESSES = ["127.0.0.1:@", "127.1.2.3:@", "127.255.255.254:@"]


def at_port(address):
    """Returns an address with a port at which no program listens."""
    if isinstance(address, bytes):
        return address.replace(b"@", b"%d" % screens.tcp_port())
    return address.replace("@", str(screens.tcp_port()))


def test_addresses(ends, folder, watched, subtests):
    """A screen answers at an address of four numbers and a port, of this machine alone if it is not open."""
    screen = ["screen", watched, "SCREEN", screens.store_of(folder, "screen"), "--turns", "1", "--http"]
    for told, addresses in [(WRONG, NO_ADDRESSES), ((b"", b"", 0), ADDRESSES)]:
        for address in addresses:
            with subtests.test("an address: %s" % (address,)):
                assert ends(*screen, at_port(address)) == told
    for address, told in [("0.0.0.0:@", (b"", b"", 0)), ("192.0.2.1:@", (b"", b"screen fault\n", 3))]:
        with subtests.test("open to others: " + address):
            assert ends(*screen, at_port(address), "--open", "--host", "daq") == told


def limited(program, kib, *words):
    """Returns the words of a command that runs the program in this much memory at most, in KiB."""
    return ["/bin/sh", "-c", "ulimit -v %d; exec \"$@\"" % kib, "sh", program, *words]


def least_memory(program):
    """Returns the least memory in which the system can load the program, in KiB."""
    for kib in range(1024, 65_536, STEP):
        if running.run(limited(program, kib))[1:] == WRONG[1:]:
            return kib
    return None


@pytest.mark.parametrize("words", [
    ["check", TREE], ["check", TREE, "--lint"], ["answer"], ["sim", TREE, "--seed", "1", "--steps", str(ITEMS)]],
    ids=lambda it: " ".join(it[::2]))
def test_little_memory(program, ends, words, subtests):
    """With little memory a command does all that it does otherwise, or says that there was none."""
    whole, least, told = ends(*words, given=TAKE), least_memory(program), None
    for kib in range(least, least + STEPS * STEP, STEP):
        told = running.run(limited(program, kib, *words), TAKE, SOON)
        with subtests.test("%d KiB" % kib):
            assert told == whole or growths.is_told(whole, told)
    with subtests.test("the most suffices"):
        assert (told, whole[2]) == (whole, 0)


class Counts:
    """What a long trace tells that can be counted line by line."""

    def __init__(self):
        self.boots, self.epochs, self.runs, self.wrong, self.lines = {}, {}, {}, [], 0

    def take(self, line):
        """Takes a line into account. Starts, grants and runs each go up by one, and runs begin again with a grant."""
        self.lines += 1
        kind, *words = line.split(" ")
        if kind == "booted":
            self.next(self.boots, words[0], int(words[1]), line)
        elif kind in ("granted", "freed"):
            self.next(self.epochs, words[0], int(words[1]), line)
            self.runs[words[0]] = 0
        elif kind == "ran":
            self.next(self.runs, words[0], int(words[2]), line)

    def next(self, counted, name, number, line):
        if number != counted.get(name, 0) + 1:
            self.wrong.append(line)
        counted[name] = number


@pytest.mark.alone
def test_a_million_items(program, ends, subtests):
    """As many items as can be drawn are run. The trace begins as that of fewer, and what it counts goes up by one."""
    few = ends("sim", TREE, "--seed", "7", "--steps", "20000")[0].decode().splitlines()
    counts, head = Counts(), []
    words = [program, "sim", TREE, "--seed", "7", "--steps", str(MOST_ITEMS)]
    with subprocess.Popen(words, stdout=subprocess.PIPE, stderr=subprocess.PIPE, text=True) as child:
        for line in child.stdout:
            line = line.rstrip("\n")
            if len(head) < len(few):
                head.append(line)
            counts.take(line)
        told = child.stderr.read(), child.wait(LATE)
    with subtests.test("status"):
        assert told == ("", 0)
    with subtests.test("it begins as the trace of fewer items"):
        assert [head == few, counts.lines > 10 * len(few)] == [True, True]
    with subtests.test("boots, epochs and numbers of commands go up by one"):
        assert [counts.wrong, min(map(len, (counts.boots, counts.epochs, counts.runs)))] == [[], 2]
    with subtests.test("with less memory it says so, or does the same"):
        out, err, status = running.run(limited(program, ENOUGH, *words[1:]), timeout=LATE)
        assert (err, status) in ((b"", 0), (b"no memory\n", 4)) and (status or out.count(b"\n") == counts.lines)
