"""Journals that nodes write: their files, their lines, and what becomes of a journal that can't be written. The lines are
those of docs/FORMATS.md, "Journals", and what happens is that of the worked tree (docs/EXAMPLES.md)."""

import os
import re
import subprocess
import time

import pytest

import nodes
import running
from marks_test import mark_of

LINE = re.compile(r"(\d{4}-\d\d-\d\dT\d\d:\d\d:\d\d\.\d{3}Z) A (\d+) (.+)")
NAME = re.compile(r"A-\d{8}T\d{6}Z(-\d+)?\.journal")
# What a first start of A writes: its boot, and the first states of what it keeps.
BOOTED = ["booted A 1", "passed DCS 1.0 OFF"]
# What it writes when ANN takes DCS and gives it back.
TAKEN = ["typed 0 order ANN take DCS", "granted DCS 1 ANN", "learned ANN DCS 1", "told ANN take DCS 0"]
DROPPED = ["typed 0 order ANN drop DCS", "freed DCS 2", "letgo ANN DCS 1", "told ANN drop DCS 0"]


class Journaled:
    """Nodes of station A that write journals into one folder."""

    def __init__(self, folder, ports, start_node):
        self.start, self.lines = start_node, nodes.tree_lines(ports)
        self.tree = nodes.write_tree(folder, ports)
        self.folder, self.store = os.path.join(folder, "night"), os.path.join(folder, "store")

    def node(self, *words):
        """Starts a node with a journal, and waits until that is begun."""
        before = len(self.files())
        node = self.start(self.tree, "A", self.store, "--endless", "--journal", self.folder, *words)
        assert running.is_so(lambda: len(self.files()) > before and self.said()), "no journal is begun"
        return node

    def files(self):
        """Returns the names of the files, the oldest first."""
        names = os.listdir(self.folder) if os.path.isdir(self.folder) else []
        return sorted(names, key=lambda it: (it.partition("Z")[0], int("0" + (NAME.fullmatch(it)[1] or "")[1:])))

    def text(self, place=-1):
        """Returns the text of one of the files."""
        with open(os.path.join(self.folder, self.files()[place]), encoding="ascii") as file:
            return file.read()

    def said(self, place=-1):
        """Returns what the lines of a file say, without the head, and the boots that they are of."""
        found = [LINE.fullmatch(it) for it in self.text(place).splitlines()[1:]]
        assert all(found)
        return [it[3] for it in found]


@pytest.fixture
def room(folder, ports, start_node):
    return Journaled(folder, ports, start_node)


def lines_of(said, *firsts):
    """Returns the lines with one of these first words."""
    return [it for it in said if it.split()[0] in firsts]


def test_a_journal_begins_with_its_tree_and_its_start(room):
    room.node()
    assert NAME.fullmatch(room.files()[0])
    mark = mark_of(room.lines)
    assert room.text().splitlines()[0] == "journal 1 17 " + mark[2:].hex()
    assert room.said() == BOOTED


def test_what_orders_leave_stands_in_a_journal_before_they_are_told(room):
    node = room.node()
    assert node.ask("order ANN take DCS") == "told ANN take DCS 0"
    taken = room.said()[len(BOOTED):]
    assert node.ask("order ANN drop DCS") == "told ANN drop DCS 0"
    dropped = room.said()[len(BOOTED) + len(taken):]
    assert sorted(taken) == sorted(TAKEN) and sorted(dropped) == sorted(DROPPED)
    # What was typed is before what came of it, and the grant before it is known.
    assert taken[0] == TAKEN[0] and taken.index(TAKEN[1]) < taken.index(TAKEN[2]) < taken.index(TAKEN[3])
    assert dropped[0] == DROPPED[0]


def test_remarks_and_tags_are_told_and_questions_are_not(room):
    node = room.node()
    for line in ("# name ANNA", "show DCS", "@7 states"):
        node.say(line)
    assert node.ask("@8 order ANN take DCS", 30).startswith(("board", "@7"))
    assert running.is_so(lambda: "told ANN take DCS 0" in room.said())
    assert lines_of(room.said(), "typed") == ["typed 0 # name ANNA", "typed 0 @8 order ANN take DCS"]


def test_remarks_alone_are_told_too(room):
    node = room.node()
    for place in range(100):
        node.say("# remark %d" % place)
    assert running.is_so(lambda: "typed 0 # remark 99" in room.said())
    assert lines_of(room.said(), "typed") == ["typed 0 # remark %d" % place for place in range(100)]


def test_a_start_begins_a_file_with_what_was_loaded(room):
    node = room.node()
    assert node.ask("order ANN take DCS") == "told ANN take DCS 0"
    node.kill()
    room.node()
    assert len(room.files()) == 2
    assert room.said() == ["booted A 2", "stands DCS 1 ANN 0 settled 0", "link ANN DCS held 1 0 included",
                           "passed DCS 2.0 OFF"]


def test_times_are_those_of_the_clock_and_never_fall(room):
    before = time.time()
    node = room.node()
    assert node.ask("order ANN take DCS") == "told ANN take DCS 0"
    times = [LINE.fullmatch(it)[1] for it in room.text().splitlines()[1:]]
    assert times == sorted(times)
    wanted = [time.strftime("%Y-%m-%dT%H:%M:%S", time.gmtime(it)) for it in (before, time.time())]
    assert wanted[0] <= times[0][:19] and times[-1][:19] <= wanted[1]


def test_a_folder_that_can_t_be_made_ends_the_node(room, run_node):
    running.write(room.folder, "a file")
    words = (room.tree, "A", room.store, "--turns", nodes.FEW, "--journal", room.folder)
    assert run_node(*words) == ([], ["journal fault"], 3)


@pytest.mark.parametrize("words", [["--journal-sync"], ["--journal"], ["--journal", "a", "--journal", "b"]])
def test_journals_that_are_no_form_are_wrong_lines(room, run_node, words):
    assert run_node(room.tree, "A", room.store, "--turns", nodes.FEW, *words) == ([], ["wrong line"], 2)


def test_without_a_journal_none_is_written(room):
    node = room.start(room.tree, "A", room.store, "--endless")
    assert node.ask("order ANN take DCS") == "told ANN take DCS 0"
    assert not os.path.exists(room.folder)


def test_a_synced_journal_says_the_same(room):
    node = room.node("--journal-sync")
    assert node.ask("order ANN take DCS") == "told ANN take DCS 0"
    assert sorted(room.said()) == sorted(BOOTED + TAKEN)


def test_a_full_disk_ends_the_file_and_not_the_node(room):
    os.mkdir(room.folder)
    words = ["mount", "-t", "tmpfs", "-o", "size=8k", "tmpfs", room.folder]
    if subprocess.run(words, capture_output=True, check=False).returncode:
        pytest.skip("no disk can be mounted here")
    try:
        node = room.node()
        lines = [node.ask("order ANN %s DCS" % it) for it in ["take", "drop"] * 60]
        assert [it for it in lines if it != "journal fault"][:3] == [
            "told ANN take DCS 0", "told ANN drop DCS 0", "told ANN take DCS 0"]
        assert running.is_so(lambda: node.err == ["journal fault"])
        assert node.child.poll() is None
    finally:
        node.kill()
        subprocess.run(["umount", room.folder], check=True)
