"""What tree a store is of and how old it is: labels that nodes make, find and refuse, and stores whose files are taken
away, put back or lost. Labels are computed here a second time, by docs/FORMATS.md, "The label of a store".
"""

import hashlib
import os
import shutil
import socket
import stat
import tempfile
import time

import pytest

import nodes
import stores
from running import read, write

WELL = ([], [], 0)
OTHER = ([], ["store of another tree"], 1)
CHANGED = ([], ["store of a changed tree"], 0)
STOPPED = ["stopped"]
# The row of DCS, and what it says once ANN has taken it and ordered nothing.
DCS, TAKEN = (1, 1, 0), "020100010000000000000001" + 24 * "0"
# And after she has dropped it, and taken it again.
DROPPED, RETAKEN = "020000000000000000000002" + 24 * "0", "020100010000000000000003" + 24 * "0"
EMPTY = ([], ["store is empty beside its label"], 1)
OLDER = ([], ["store is older than its label"], 1)
DAMAGED = ([], ["store has a damaged log"], 1)
FAULT = ([], ["store fault"], 3)


def mark_of(lines):
    """Returns the mark of a tree file with these lines."""
    said, number = b"", None
    for line in lines:
        words = line.split()
        if not words or words[0].startswith("#"):
            continue
        number = int(words[1]) if words[0] == "tree" else number
        words = words[:2] if words[0] == "station" else words
        said += "".join(word + " " for word in words).encode("ascii") + b"\n"
    return number.to_bytes(2, "big") + hashlib.sha256(said).digest()


def label_of(lines, boot, station=1):
    """Returns the label of a store of this tree on which a station was started last by this boot."""
    return mark_of(lines) + station.to_bytes(2, "big") + boot.to_bytes(4, "big")


def changed(lines, old, new):
    """Returns the lines with one text replaced by another."""
    return [line.replace(old, new) for line in lines]


def in_another_layout(lines):
    """Returns the same lines with other spaces, comments between them, and carriage returns."""
    return ["# a comment", ""] + ["\t" + "  ".join(line.split()) + " \r" for line in lines] + ["#"]


class Room:
    """A folder with a store of a tree, and nodes that are begun on it."""

    def __init__(self, folder, ports, run_node, start_node):
        self.folder, self.ports, self.run_node, self.start_node = folder, ports, run_node, start_node
        self.lines = nodes.tree_lines(self.ports)
        self.store = os.path.join(self.folder, "store")
        self.mark = self.store + "-tree"

    def words(self, lines=None):
        return [nodes.write_tree(self.folder, None, lines or self.lines), "A", self.store]

    def begun(self, lines=None, more=()):
        """Returns how a node ends that is run on the store."""
        return self.run_node(*self.words(lines), "--turns", nodes.FEW, *more)

    def node(self, *turns):
        """Starts a node on the store."""
        return self.start_node(*self.words(), *(turns or ["--endless"]))

    def copied(self, name):
        """Copies the store, its log and its label, under another name."""
        for path in (self.store, self.store + "-wal", self.mark):
            shutil.copy(path, path.replace(self.store, os.path.join(self.folder, name)))

    def put_back(self, name, ends=("", "-wal", "-tree")):
        for end in ends:
            shutil.copy(os.path.join(self.folder, name + end), self.store + end)

    def rows(self, ends=("", "-wal")):
        """Returns the rows that sqlite3 finds in a copy of the store's files, because it would empty the log."""
        with tempfile.TemporaryDirectory() as there:
            for end in ends:
                shutil.copy(self.store + end, os.path.join(there, "store" + end))
            return dict(stores.rows_in(os.path.join(there, "store")))

    def log_bytes(self):
        """Returns how many bytes its log has."""
        return os.path.getsize(self.store + "-wal")

    def boot(self):
        """Returns the boot that the store has of the station."""
        return int(self.rows()[(1, 0, 0)][-8:], 16)


@pytest.fixture
def room(folder, ports, run_node, start_node):
    return Room(folder, ports, run_node, start_node)


def test_made(room, subtests):
    """A mark is made with the store, and stays."""
    with subtests.test("a store that is made"):
        assert room.begun() == WELL
    with subtests.test("its label"):
        assert read(room.mark) == label_of(room.lines, 1)
    with subtests.test("nothing unfinished is left"):
        assert not os.path.exists(room.mark + "-new")
    moved = changed(room.lines, "127.0.0.1:%d" % room.ports[1], "127.4.5.6:9002")
    other_layout = in_another_layout(room.lines)
    for boot, name, lines in [(2, "the same tree", room.lines), (3, "the same in another layout", other_layout),
                              (4, "other addresses", moved)]:
        with subtests.test(name):
            assert [room.begun(lines), read(room.mark)] == [WELL, label_of(room.lines, boot)]
    os.remove(room.mark)
    with subtests.test("a store without a label gets one"):
        assert [room.begun(), read(room.mark)] == [WELL, label_of(room.lines, 5)]
    write(room.mark + "-new", b"half a label")
    os.remove(room.mark)
    with subtests.test("after a label that was not finished"):
        assert [room.begun(), read(room.mark)] == [WELL, label_of(room.lines, 6)]
    write(room.mark, mark_of(room.lines))
    with subtests.test("a label that names no start gets this one"):
        assert [room.begun(), read(room.mark)] == [WELL, label_of(room.lines, 7)]


def test_in_the_way(room, subtests):
    """What is where an unfinished label is written: a plain file is replaced, and nothing else is written to."""
    victim = os.path.join(room.folder, "victim")
    write(victim, b"precious")
    new = room.mark + "-new"

    def with_socket(path):
        with socket.socket(socket.AF_UNIX) as one:
            one.bind(path)

    for name, make, kind in [("a link", lambda path: os.symlink(victim, path), stat.S_ISLNK),
                             ("a link to nothing", lambda path: os.symlink(victim + "-2", path), stat.S_ISLNK),
                             ("a folder", os.mkdir, stat.S_ISDIR), ("a socket", with_socket, stat.S_ISSOCK)]:
        make(new)
        told, stays = room.begun(), os.path.lexists(new) and kind(os.lstat(new).st_mode)
        with subtests.test(name + " is no place for a label"):
            assert [told, stays, os.path.exists(room.mark)] == [FAULT, True, False]
        for path in (new, room.mark):
            if os.path.lexists(path):
                (os.rmdir if name == "a folder" and path == new else os.remove)(path)
    with subtests.test("what a link led to is as before"):
        assert [read(victim), os.path.exists(victim + "-2")] == [b"precious", False]
    os.link(victim, new)
    begun = room.begun()
    with subtests.test("another name of a file gives way"):
        assert [begun, read(victim)] == [WELL, b"precious"]
    with subtests.test("and a label of its own is made"):
        assert [read(room.mark), os.stat(victim).st_nlink] == [label_of(room.lines, room.boot()), 1]


def test_refused(room, subtests):
    """A tree of another number is refused before anything is saved, and so is what is no mark."""
    room.begun()
    rows = stores.rows_in(room.store)
    with subtests.test("another number"):
        assert room.begun(changed(room.lines, "tree 17", "tree 18")) == OTHER
    with subtests.test("another number and other words"):
        assert room.begun(changed(changed(room.lines, "tree 17", "tree 273"), "ANN", "EVE")) == OTHER
    with subtests.test("nothing was saved"):
        assert stores.rows_in(room.store) == rows
    mark = read(room.mark)
    for name, data in [("an empty label", b""), ("a label that is cut", mark[:-1]), ("a longer one", mark + b"\0"),
                       ("a mark that is cut", mark[:33])]:
        write(room.mark, data)
        with subtests.test(name):
            assert [room.begun(), read(room.mark)] == [OTHER, data]
    write(room.mark, mark)
    with subtests.test("the right one again"):
        assert room.begun() == WELL
    os.remove(room.mark)
    os.mkdir(room.mark)
    with subtests.test("a folder in its place"):
        assert room.begun() == FAULT


def test_changed(room, subtests):
    """A tree of the same number with other words is told, and the node goes on if the rows fit."""
    node = room.node("--turns", nodes.SOME)
    with subtests.test("an order"):
        assert node.ask("order ANN take DCS") == "told ANN take DCS 0"
    node.kill()
    renamed = changed(room.lines, "ANN", "EVE")
    with subtests.test("another name for an operator"):
        assert room.begun(renamed) == CHANGED
    with subtests.test("it is told again"):
        assert room.begun(renamed) == CHANGED
    with subtests.test("the label goes on to name its tree"):
        assert read(room.mark) == label_of(room.lines, room.boot())
    more = room.lines + ["device LV TPC DEV"]
    with subtests.test("a device more"):
        assert room.begun(more) == CHANGED
    moved = changed(changed(room.lines, "operator ANN A", "operator ANN B"), "operator BOB B", "operator BOB A")
    told = room.begun(moved)
    with subtests.test("a row that does not fit"):
        assert told[0] == [] and told[1][:1] == CHANGED[1] and told[1][1].startswith("row 1 ") and (told[2] == 1)
    os.remove(room.mark)
    with subtests.test("the label removed"):
        assert [room.begun(renamed), read(room.mark)] == [WELL, label_of(renamed, room.boot())]


def replace(path):
    """Replaces a file by a copy of it."""
    shutil.copy(path, path + "-copy")
    os.replace(path + "-copy", path)


@pytest.mark.parametrize("end", [pytest.param("", id="by its file"), pytest.param("-wal", id="by its log")])
@pytest.mark.parametrize("away", [
    pytest.param(os.remove, id="removed"), pytest.param(replace, id="replaced"),
    pytest.param(lambda path: os.rename(path, path + "-old"), id="moved")])
def test_gone(room, away, end, subtests):
    """A node whose store or its log is taken away, or replaced by another file, stops at its next save."""
    node = room.node()
    told = [node.ask("order ANN take DCS")]
    away(room.store + end)
    told += [node.ask("order ANN ask DCS")]
    with subtests.test("what saves nothing goes on"):
        assert told == ["told ANN take DCS 0", "told ANN ask DCS ANN 1 0 settled 0"]
    node.say("order ANN drop DCS")
    ended = node.end()
    with subtests.test("the station stops"):
        assert ended is not None and ended[1:] == (STOPPED, 3)


@pytest.mark.parametrize("is_asked", [
    pytest.param(True, id="replaced"), pytest.param(False, id="replaced by a copy of an ended node")])
def test_kept(room, is_asked, subtests):
    """What a node had saved is there after its store was replaced under it: the log is not emptied at its path."""
    node = room.node() if is_asked else room.node("--turns", 200)
    told = node.ask("order ANN take DCS")
    with subtests.test("before"):
        assert [told, room.rows().get(DCS)] == ["told ANN take DCS 0", TAKEN]
    replace(room.store)
    if is_asked:
        node.say("order ANN do DCS CONFIGURE")
    ended = node.end()
    with subtests.test("how the node ends"):
        assert (ended and ended[1:]) == ((STOPPED, 3) if is_asked else ([], 0))
    with subtests.test("what was answered is there"):
        assert [room.rows().get(DCS), room.begun(), room.rows().get(DCS)] == [TAKEN, WELL, TAKEN]


def test_lost(room, subtests):
    """A store whose rows are older than its label is refused, unless the line says --accept-older."""
    for boot in (1, 2):
        node = room.node()
        told = [node.ask("order ANN take DCS"), node.ask("order ANN drop DCS")]
        node.kill()
        with subtests.test("start %d" % boot):
            assert [told, room.boot(), read(room.mark)] == [
                ["told ANN take DCS 0", "told ANN drop DCS 0"], boot, label_of(room.lines, boot)]
        room.copied("of start %d" % boot)
    room.put_back("of start 1", ["", "-wal"])
    files = [read(room.store + end) for end in ("", "-wal", "-tree")]
    with subtests.test("an older copy"):
        assert [room.begun(), room.begun()] == [OLDER] * 2
    with subtests.test("which stays as it is"):
        assert [read(room.store + end) for end in ("", "-wal", "-tree")] == files
    room.put_back("of start 2")
    os.remove(room.store + "-wal")
    with subtests.test("a store without its log"):
        assert [room.begun(), room.begun()] == [OLDER] * 2
    for name, lose in [("emptied", lambda path: write(path, b"")), ("removed", os.remove)]:
        for end in ("", "-wal"):
            lose(room.store + end)
        with subtests.test("a store that is " + name):
            assert [room.begun(), room.begun()] == [EMPTY] * 2
        with subtests.test("and is not older, but empty: " + name):
            assert room.begun(more=["--accept-older"]) == EMPTY
    for end in ("", "-wal", "-tree"):
        os.remove(room.store + end)
    with subtests.test("without its label it is new"):
        assert [room.begun(), read(room.mark)] == [WELL, label_of(room.lines, 1)]
    room.put_back("of start 1", ["", "-wal"])
    room.put_back("of start 2", ["-tree"])
    with subtests.test("an older copy that is accepted"):
        assert room.begun(more=["--accept-older"]) == WELL
    with subtests.test("is noted as what it is"):
        assert [room.boot(), read(room.mark)] == [2, label_of(room.lines, 2)]
    with subtests.test("and goes on"):
        assert room.begun() == WELL
    write(room.mark, label_of(room.lines, 9, station=2))
    with subtests.test("a label that names another station's start says nothing of this one's"):
        assert [room.begun(), read(room.mark)] == [WELL, label_of(room.lines, 4)]
    write(room.mark, label_of(room.lines, 5))
    with subtests.test("a boot one behind its label"):
        assert room.begun() == OLDER
    write(room.mark, label_of(room.lines, 3))
    with subtests.test("a boot one before its label"):
        assert [room.begun(), read(room.mark)] == [WELL, label_of(room.lines, 5)]


def test_tail(room, subtests):
    """A log that lost its tail in a start: the rows are older than the label if the boot row was lost with it."""
    room.begun()
    node = room.node()
    told = node.ask("order ANN take DCS")
    node.kill()
    log = read(room.store + "-wal")
    write(room.store + "-wal", log[:100])
    with subtests.test("a log that is cut in its first frame"):
        assert [told, room.begun(), room.begun()] == ["told ANN take DCS 0", OLDER, OLDER]
    write(room.store + "-wal", log[:100] + bytes([log[100] ^ 1]) + log[101:])
    with subtests.test("a bad bit in that frame, before later ones"):
        assert room.begun() == DAMAGED
    write(room.store + "-wal", log)
    with subtests.test("the log as it was"):
        assert room.begun() == WELL


def test_copied(room, subtests):
    """What was saved before a start is in the file once the node has started, and needs no log any more."""
    node = room.node()
    told = node.ask("order ANN take DCS")
    node.kill()
    with subtests.test("before the next start it is in the log"):
        assert [told, room.rows().get(DCS), room.rows([""]).get(DCS)] == ["told ANN take DCS 0", TAKEN, None]
    node = room.node()
    told = node.ask("order ANN ask DCS")
    with subtests.test("and then in the file"):
        assert [told, room.rows([""]).get(DCS)] == ["told ANN ask DCS ANN 1 0 settled 0", TAKEN]


# How many bytes a log has whose rows are all in the file, and how many seconds a node at rest needs at most for that.
EMPTIED, QUIET = 41, 10


def is_soon(holds):
    """Returns whether something comes to hold while nothing is saved, on a busy machine too."""
    end = time.monotonic() + 3 * QUIET
    while not holds() and time.monotonic() < end:
        time.sleep(0.0005)
    return holds()


def test_copied_at_rest(room, subtests):
    """What a node has saved is in its file some seconds later, and needs no log. It goes on then, and saves no less."""
    node = room.node()
    for order, want in [("take", TAKEN), ("drop", DROPPED)]:
        with subtests.test("%s is saved" % order):
            assert node.ask("order ANN %s DCS" % order) == "told ANN %s DCS 0" % order
        with subtests.test("it is copied after %s" % order):
            assert [is_soon(lambda: room.log_bytes() == EMPTIED), room.rows([""]).get(DCS)] == [True, want]
        with subtests.test("the log holds nothing else after %s" % order):
            assert room.rows() == room.rows([""])
    size, before = room.log_bytes(), read(room.store)
    time.sleep(QUIET)
    with subtests.test("a node that saves nothing copies nothing"):
        assert [room.log_bytes(), read(room.store)] == [size, before]
    told = node.ask("order ANN take DCS")
    node.kill()
    with subtests.test("what is saved after a copy is in the log"):
        assert [told, room.rows().get(DCS), room.rows([""]).get(DCS)] == ["told ANN take DCS 0", RETAKEN, DROPPED]
    with subtests.test("and the next start finds it"):
        assert [room.begun(), room.rows().get(DCS)] == [WELL, RETAKEN]


def test_busy(room, subtests):
    """A node that saves all the time does not copy its log meanwhile: that waits until it is quiet."""
    node = room.node()
    told, orders = [], ["take", "drop"] * 8
    for order in orders:
        told.append(node.ask("order ANN %s DCS" % order))
        time.sleep(0.7)
    with subtests.test("all is saved, in the log alone"):
        assert [told, DCS in room.rows(), DCS in room.rows([""])] == [
            ["told ANN %s DCS 0" % order for order in orders], True, False]
    with subtests.test("until it is quiet"):
        assert is_soon(lambda: DCS in room.rows([""]))


def test_copy_killed(room, subtests):
    """A node that is killed while it copies its log, or just then, finds all at its next start."""
    for boot, wait in enumerate([0, 0.0002, 0.0005, 0.001, 0.002, 0.004], start=1):
        node = room.node()
        told = [node.ask("order ANN %s DCS" % order) for order in ("take", "drop", "take", "drop")]
        saved, before = room.rows(), read(room.store)
        copied = is_soon(lambda before=before: read(room.store) != before)
        time.sleep(wait)
        node.kill()
        with subtests.test("start %d" % boot):
            assert [len(told), copied, room.rows() == saved, room.boot()] == [4, True, True, boot]
    with subtests.test("the last start"):
        assert room.begun() == WELL


@pytest.mark.parametrize("end", [pytest.param("", id="of a store"), pytest.param("-wal", id="of a log")])
def test_copied_nowhere(room, end, subtests):
    """A node whose store or log was replaced copies nothing: neither into the file that it has, nor at the path."""
    node = room.node()
    told = node.ask("order ANN take DCS")
    replace(room.store + end)
    files = [read(room.store + it) for it in ("", "-wal")]
    time.sleep(QUIET)
    with subtests.test("both stay as they are"):
        assert [told, [read(room.store + it) for it in ("", "-wal")] == files] == ["told ANN take DCS 0", True]
    node.say("order ANN do DCS CONFIGURE")
    ended = node.end()
    with subtests.test("the station stops at its next save"):
        assert ended is not None and ended[1:] == (STOPPED, 3)
    with subtests.test("what was answered is there"):
        assert [room.begun(), room.rows().get(DCS)] == [WELL, TAKEN]
