"""The commands of the documents: each page is played, and prints what the lines below its commands say.

Each page is played as a reader would play it: its fenced blocks of the kind `console` are run line by line, from the
top of the page to its end, in one shell and one folder, and then once more. What is after `$ ` is a command, and
the lines below it up to the next are what it prints, standard error included. A line `...` means any lines up to
the one below it, or up to the next command; the seconds in a line of `under way` may be any. The folder has a copy of
the examples, in which stations have ports of their own, and a screen has one in place of the port of its command line.
`make run` and `make test` are not run: tests/documents_test.py sees that they are targets of the Makefile.
"""

import glob
import os
import queue
import re
import shutil
import signal
import subprocess
import threading
import time

import pytest

import nodes
import running
import screens
from documents import documents
from running import ROOT, text_of

PATIENCE = 20
# What is in a command that only looks, and may be given again.
LOOKS = (" show ", "tools/rows.py", "tools/status.py")
# Where a page has its screen.
SCREEN = "127.0.0.1:8080"
# How often a page is played in one folder.
PLAYS = 2
# How long an order has waited, at the end of a line of `under way`.
WAITED = re.compile(r"^((?:@\S+ )?way .*) \d+$")
# What of the repository a page of commands finds in its folder.
FOLDERS = ("docs", "tests", "tools")


def with_own_ports(text, ports):
    """Returns a tree file in which each station of this machine has one of these ports."""
    return re.sub(r"127\.0\.0\.1:\d+", lambda _: "127.0.0.1:%d" % ports.pop(), text)


def furnish(folder, program):
    """Makes a folder look like the repository to a page of commands."""
    os.mkdir(os.path.join(folder, "bin"))
    os.symlink(program, os.path.join(folder, "bin", "smi"))
    for name in FOLDERS:
        os.symlink(os.path.join(ROOT, name), os.path.join(folder, name))
    shutil.copytree(running.EXAMPLES, os.path.join(folder, "examples"))
    for path in glob.glob(os.path.join(folder, "examples", "*.tree")):
        text = running.read(path).decode()
        running.write(path, with_own_ports(text, nodes.free_ports(text.count("127.0.0.1:"))))


def without_seconds(line):
    """Returns a line without how long an order has waited."""
    return line and WAITED.sub(r"\1", line)


class Shell:
    """A shell that is given one command after the other."""

    def __init__(self, folder, patience=PATIENCE):
        self.patience = patience
        self.child = subprocess.Popen(["bash"], cwd=folder, stdin=subprocess.PIPE, stdout=subprocess.PIPE,
                                      stderr=subprocess.STDOUT, text=True, start_new_session=True)
        self.lines, self.marks = queue.Queue(), 0
        threading.Thread(target=self.take, daemon=True).start()

    def take(self):
        for line in self.child.stdout:
            self.lines.put(line.rstrip("\n"))

    def say(self, command):
        self.child.stdin.write(command + "\n")
        self.child.stdin.flush()

    def line(self):
        """Returns the next line that is printed, or None if none comes in time."""
        try:
            return self.lines.get(timeout=self.patience)
        except queue.Empty:
            return None

    def rest(self):
        """Returns all lines that are printed until the shell has come to the end of its commands."""
        self.marks += 1
        mark, found = "end of command %d" % self.marks, []
        self.say("echo '%s'" % mark)
        while True:
            line = self.line()
            if line in (mark, None):
                return found if line else found + [None]
            found.append(line)

    def until(self, wanted):
        """Returns the next line that is this one, after any others, or None if none is."""
        line = self.line()
        while line is not None and line != wanted:
            line = self.line()
        return line

    def run(self, command, wanted):
        """Returns what a command prints, and what it has to: these lines and no others, or any in place of `...`."""
        self.say(command)
        found = []
        for above, line in zip([None, *wanted], wanted):
            if line == "...":
                found.append(line)
            else:
                found.append(without_seconds(self.until(line) if above == "..." else self.line()))
        more = self.rest()
        is_open = wanted[-1:] == ["..."] and None not in more
        return (found if is_open else found + more), list(map(without_seconds, wanted))

    def end(self):
        """Ends the shell and all that it has started: they are a group of their own."""
        self.child.stdin.close()
        try:
            os.killpg(self.child.pid, signal.SIGTERM)
        except ProcessLookupError:
            pass
        self.child.wait(PATIENCE)


def test_orders_of_the_handbook(smi, folder):
    """The orders of the handbook are orders over the example detector: a schedule of them is read to its end."""
    text = text_of("docs/HANDBOOK.md")
    orders = re.findall(r"[`'](?:@\S+ )?(order [^`'$.]+)[`']", text)
    orders += re.findall(r"^\$ say \w+ (order [\w ]+?)(?: & .*)?$", text, flags=re.M)
    path = running.write(os.path.join(folder, "schedule"), "\n".join(orders) + "\n")
    _, err, status = smi("sim", running.example("detector.tree"), path)
    fault = re.search(rb"line (\d+) fault", err)
    assert [status, fault and orders[int(fault[1]) - 1], len(orders) > 15] == [0, None, True]


def shown_in_time(shell, command, wanted):
    """Runs a command that only looks at what a node was shown, or has saved, until it prints what it has to."""
    until = time.monotonic() + PATIENCE
    while True:
        found, wanted = shell.run(command, wanted)
        if found == wanted or time.monotonic() > until:
            return found, wanted
        time.sleep(0.05)


@pytest.fixture
def shell(program, folder):
    """Returns a shell in a folder that looks like the repository."""
    furnish(folder, program)
    made = Shell(folder)
    yield made
    made.end()


def commands_of(path):
    """Returns the commands of a page, each with the lines that it prints."""
    commands = []
    for text in re.findall(r"^```console\n(.*?)^```$", text_of(path), flags=re.M | re.S):
        for line in text.splitlines():
            if line.startswith("$ "):
                commands.append((line[2:], []))
            else:
                commands[-1][1].append(line)
    return commands


PAGES = {path: commands_of(path) for path in documents() if commands_of(path)}


def test_there_are_commands():
    assert sum(map(len, PAGES.values())) >= 100


@pytest.mark.alone
@pytest.mark.parametrize("path", PAGES)
def test_page(folder, shell, path, subtests):
    """A page, played from top to bottom in one folder, and again, up to the first command that is wrong."""
    before = sorted(os.listdir(folder))
    for play in range(1, PLAYS + 1):
        screen = "127.0.0.1:%d" % screens.tcp_port()
        for command, wanted in PAGES[path]:
            how = shown_in_time if any(it in command for it in LOOKS) else Shell.run
            found, said = how(shell, command.replace(SCREEN, screen), wanted)
            with subtests.test("play %d: %s" % (play, command)):
                assert found == said
            if found != said:
                return
        with subtests.test("play %d leaves nothing behind" % play):
            assert sorted(os.listdir(folder)) == before


@pytest.mark.parametrize("command, wanted, is_right", [pytest.param(*told, id=name) for name, *told in [
    ("what is said", "echo one; echo two", ["one", "two"], True),
    ("what begins so", "seq 9", ["1", "..."], True), ("what ends so", "seq 9", ["1", "...", "9"], True),
    ("what goes on", "seq 9", ["1", "...", "8"], False), ("what never comes", "seq 9", ["...", "10"], False),
    ("how long it waited", "echo '@w way ANN take TPC 7'", ["@w way ANN take TPC 0"], True),
    ("another that waits", "echo '@w way ANN take DCS 0'", ["@w way ANN take TPC 0"], False),
    ("another line", "echo one", ["two"], False), ("a line more", "echo one; echo two", ["one"], False),
    ("a line less", "echo one", ["one", "two"], False), ("another beginning", "seq 9", ["2", "..."], False)]])
def test_a_command_that_prints(folder, command, wanted, is_right):
    """A command that prints something else, more or less than is said of it is seen."""
    shell = Shell(folder, 1)
    found, said = shell.run(command, wanted)
    shell.end()
    assert (found == said) == is_right
