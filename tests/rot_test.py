"""Bits that a disk forgets: flips in the log of a store and in its file, and what is no damage, as a torn end.

Logs are read a second time, by their layout (tests/rot.py). The sum of a store is computed by docs/FORMATS.md, "The sum
of a store".
"""

import hashlib
import os
import random

import pytest

import nodes
import screens
from marks_test import DAMAGED, Room, WELL
from rot import flipped, frames_of
from running import is_so, read, write

SEED = 20261130
# How many takes and drops fill the log, and how many flips and cuts are tried.
ROUNDS, FLIPS, CUTS = 30, 60, 30
DIFFERS = ([], ["store differs from its sum"], 1)
ENDS = ("", "-wal", "-tree", "-sum")
ACCEPTED = ["--accept-older"]


@pytest.fixture
def room(folder, ports, run_node, start_node):
    return Room(folder, ports, run_node, start_node)


@pytest.fixture
def filled(room):
    """Returns a room whose store has a log with many saves, as a kill leaves it."""
    node = room.node()
    for _ in range(ROUNDS):
        assert [node.ask("order ANN take DCS"), node.ask("order ANN drop DCS")] == [
            "told ANN take DCS 0", "told ANN drop DCS 0"]
    node.kill()
    room.copied("whole")
    return room


def put(room, log):
    """Puts the store back as it was, with this log."""
    room.put_back("whole")
    write(room.store + "-wal", log)
    if os.path.exists(room.store + "-sum"):
        os.remove(room.store + "-sum")


def test_log(filled, subtests):
    """A flipped bit in a log is told, unless it is in one of the last saves: it may be what a crash left then."""
    log = read(filled.store + "-wal")
    frames, size = frames_of(log)
    ends = [number for number, (_, is_end) in enumerate(frames) if is_end]
    with subtests.test("the log has a save for each take and drop at least"):
        assert len(ends) >= 2 * ROUNDS and ends[-1] == len(frames) - 1
    # a flip may spoil the frame after it too; then a save has to end, and another one begin
    told = ends[-2] - 2
    numbers, random_bits = iter(range(FLIPS)), random.Random(SEED)
    for number in numbers:
        frame, byte, bit = random_bits.randrange(told), random_bits.randrange(size), random_bits.randrange(8)
        put(filled, flipped(log, frames[frame][0] + byte, bit))
        files = [read(filled.store + end) for end in ENDS[:3]]
        with subtests.test("flip %d, of bit %d in byte %d of frame %d" % (number, bit, byte, frame)):
            assert filled.begun() == DAMAGED
            assert [read(filled.store + end) for end in ENDS[:3]] == files
    with subtests.test("what is damaged is started on if the line says so"):
        assert filled.begun(more=ACCEPTED) == WELL
    put(filled, log)
    with subtests.test("a whole log is started on"):
        assert filled.begun() == WELL


def test_torn(filled, subtests):
    """A log that ends anywhere, or in zeros, is none that is damaged."""
    log = read(filled.store + "-wal")
    frames, size = frames_of(log)
    random_bits = random.Random(SEED)
    for number in range(CUTS):
        frame = random_bits.randrange(len(frames) // 2, len(frames))
        at = frames[frame][0] + random_bits.randrange(size)
        torn = log[:at] + (b"" if number % 2 else bytes(len(log) - at))
        put(filled, torn)
        with subtests.test("cut %d, at byte %d of %d" % (number, at, len(log))):
            assert filled.begun() == WELL
    # the last save of a crash: its first frame is not there yet, and the second is
    put(filled, log[:frames[-1][0]] + bytes(size) + log[frames[-1][0] + size:])
    with subtests.test("the last frame alone is lost"):
        assert filled.begun() == WELL


def test_file(room, subtests):
    """The file of a store into which its log was copied has a sum, and each flipped bit of the file is told."""
    assert room.begun() == WELL
    file, log, label, note = (read(room.store + end) for end in ENDS)
    with subtests.test("the sum is that of the file, and beside the salts of the log"):
        assert note == log[16:24] + hashlib.sha256(file).digest()
    with subtests.test("nothing unfinished is left"):
        assert not os.path.exists(room.store + "-sum-new")
    random_bits = random.Random(SEED)
    for number in range(FLIPS):
        at, bit = random_bits.randrange(len(file)), random_bits.randrange(8)
        write(room.store, flipped(file, at, bit))
        with subtests.test("flip %d, of bit %d in byte %d" % (number, bit, at)):
            assert room.begun() == DIFFERS
            assert [read(room.store + end) for end in ("", "-wal", "-sum")] == [flipped(file, at, bit), log, note]
    write(room.store, file)
    write(room.store + "-sum", note[:8] + bytes(32))
    with subtests.test("a sum that differs is refused, unless the line says otherwise"):
        assert [room.begun(), room.begun(more=ACCEPTED)] == [DIFFERS, WELL]
    for end, data in zip(ENDS, (file, log, label, note[:-1])):
        write(room.store + end, data)
    with subtests.test("what is no sum is not compared"):
        assert room.begun() == WELL
    write(room.store + "-sum", bytes(8) + note[8:])
    with subtests.test("the sum of another time is not compared"):
        assert room.begun() == WELL
    with subtests.test("and there is a new one"):
        assert read(room.store + "-sum") == (
            read(room.store + "-wal")[16:24] + hashlib.sha256(read(room.store)).digest())


def test_screen(smi, folder, subtests):
    """A screen refuses a damaged store as a node does, and leaves it as it is."""
    ports = nodes.free_ports(3)
    tree = nodes.write_tree(folder, None, screens.with_screen(nodes.tree_lines(ports[:2]), ports[2]))
    store = screens.store_of(folder, "screen")

    def looked(*more):
        return smi("screen", tree, "SCREEN", store, "--http", "127.0.0.1:%d" % screens.tcp_port(), "--turns", "3", *more)

    assert looked() == (b"", b"", 0)
    note = read(store + "-sum")
    write(store + "-sum", note[:8] + bytes(32))
    files = [read(store + end) for end in ENDS]
    with subtests.test("refused"):
        assert looked() == (b"", b"store differs from its sum\n", 1)
    with subtests.test("and left as it is"):
        assert [read(store + end) for end in ENDS] == files
    with subtests.test("accepted"):
        assert looked(*ACCEPTED) == (b"", b"", 0)


def test_quiet(room, subtests):
    """A node that has saved nothing for a while notes the sum too, and a kill after later saves is no damage."""
    node = room.node()
    assert node.ask("order ANN take DCS") == "told ANN take DCS 0"
    before = read(room.store + "-wal")[16:24]

    def is_noted():
        return read(room.store + "-sum")[:8] == read(room.store + "-wal")[16:24] != before

    with subtests.test("the sum is noted once the log is copied"):
        assert is_so(is_noted)
    note = read(room.store + "-sum")
    assert node.ask("order ANN drop DCS") == "told ANN drop DCS 0"
    node.kill()
    with subtests.test("a later save leaves the sum as it was"):
        assert read(room.store + "-sum") == note
    with subtests.test("and is found"):
        assert room.begun() == WELL
