"""Power that is cut at any moment: nothing told is ahead of the disk, and a node starts on what the disk may have.

The tool is tests/power_cuts.py. That it sees what is wrong is tested with a library that leaves out syncs, and with
stores that are put together by hand.
"""

import os
import random

import pytest

import layout
import power_cuts
from ledgers import Saved
from power_cuts import AT_THE_END, Disk, File, Record, Told

SEED = 20261201
# How many moments are looked at, how often the node lives, and how many answers it gives in all.
MOMENTS, LIVES, ANSWERS = 120, 3, 240
# How many moments are looked at if syncs are left out, and of how many syncs one is.
FEW, UNSYNCED = 60, (1, 2)
# How often a node lives, and how many answers it gives in all, if only what it does to small files is looked at.
FEW_LIVES, FEW_ANSWERS = 3, 12


def played(program, folder, moments, unsynced=0):
    draw = random.Random(SEED)
    records, strange = power_cuts.recorded(program, folder, draw, LIVES, ANSWERS, unsynced)
    return (*power_cuts.judged(program, os.path.join(folder, "judged"), draw, records, moments), records, strange)


def test_cuts(program, folder, subtests):
    """All moments of some lives."""
    judge, told, records, strange = played(program, folder, MOMENTS)
    with subtests.test("all answers are known"):
        assert strange == []
    with subtests.test("much was told, on both kinds of sockets"):
        assert told.answers > ANSWERS // 2 and told.record > (0, 0)
    with subtests.test("writes, syncs, names and sayings were recorded"):
        assert {"W", "S", "N", "A"} <= {it.done for it in records}
    with subtests.test("in all ways"):
        assert (judge.moments, set(judge.ways), judge.starts) == (
            MOMENTS, set(power_cuts.WAYS), MOMENTS // power_cuts.STARTS)
    with subtests.test("nothing is wrong"):
        assert judge.wrong == []


@pytest.mark.parametrize("unsynced", UNSYNCED)
def test_syncs_that_are_left_out_are_seen(program, folder, unsynced):
    """A node whose disk leaves out syncs has told what is not on the disk, and this is found."""
    judge, told, _, strange = played(program, folder, FEW, unsynced)
    assert strange == [] and told.answers > ANSWERS // 2
    assert any(it.split(": ", 1)[1].startswith("told ") for it in judge.wrong), judge.wrong


def is_synced(records, kind):
    """Returns true if the last thing that was done to a file is that it was synced."""
    deeds = [it.done for it in records if it.kind == kind and it.done in "WTS"]
    return deeds[-1:] == ["S"]


def test_small_files_are_synced_before_their_names(program, folder, subtests):
    """A label and a sum are on the disk, whole, before each gets its name."""
    records, strange = power_cuts.recorded(program, folder, random.Random(SEED), FEW_LIVES, FEW_ANSWERS)
    assert strange == []
    for end, least in [("-tree", FEW_LIVES), ("-sum", 1)]:
        kind = next(it for it, name in power_cuts.NAMES.items() if name == end + "-new")
        named = [place for place, it in enumerate(records) if (it.done, it.kind) == ("N", kind)]
        with subtests.test("STORE%s gets its name" % end):
            assert len(named) >= least
        with subtests.test("STORE%s is synced before" % end):
            assert all(is_synced(records[:place], kind) for place in named)


def record(done, kind=1, place=0, data=b""):
    return Record(done, kind, place, data)


def test_what_was_told(subtests):
    """What was told has to be in what is saved: the record, what ANN knows of it, and what a datagram tells."""
    told = Told()
    for text in [b"told ANN take DCS 0\n@0 told ANN do DCS CONFIGURE 0\n@1 told ANN do D", b"CS START 1\n",
                 b"@2 told ANN do DCS STOP 22\nboard DCS none\n"]:
        told.take(record("A", power_cuts.CONNECTED, data=text))
    for name, saved, wanted in [
            ("what was told", {}, True), ("more", {"epoch": 2, "last": 0, "known": (2, 0)}, True),
            ("a command less", {"last": 1}, False), ("no change of hands", {"epoch": 0, "last": 9}, False),
            ("an answer that she does not know", {"known": (1, 1)}, False)]:
        with subtests.test(name):
            assert told.is_in(Saved(**{"epoch": 1, "last": 2, "known": (1, 2), **saved})) == wanted
    with subtests.test("four answers"):
        assert told.answers == 4
    told.take(record("A", power_cuts.ANY, data=layout.datagram(
        layout.TELL, **{"from": 1}, to=2, subject=1, holder_kind=1, holder=1, epoch=1, number=3)))
    with subtests.test("what a datagram told"):
        assert [told.is_in(Saved(epoch=1, last=last, known=(1, 2))) for last in (2, 3)] == [False, True]


def test_writes(subtests):
    """What a file has after writes and cuts."""
    for name, records, wanted in [
            ("a write", [record("W", data=b"abc")], b"abc"),
            ("a write after the end", [record("W", place=2, data=b"ab")], b"\0\0ab"),
            ("a write at the end", [record("W", data=b"ab"), record("W", place=AT_THE_END, data=b"cd")], b"abcd"),
            ("a cut", [record("W", data=b"abcd"), record("T", place=1)], b"a"),
            ("a cut that grows", [record("W", data=b"ab"), record("T", place=3)], b"ab\0")]:
        data = bytearray()
        for it in records:
            power_cuts.write_to(data, it)
        with subtests.test(name):
            assert bytes(data) == wanted


def test_what_a_disk_may_have(subtests):
    """A disk has what was synced, and any part of the rest."""
    draw, file = random.Random(SEED), File(1)
    file.pending = [record("W", data=b"a" * 1024)]
    file.sync()
    file.pending = [record("W", data=b"b" * 1024), record("W", place=1024, data=b"c" * 512)]
    with subtests.test("nothing of it, or all"):
        assert (file.left(draw, "none"), file.left(draw, "all")) == (b"a" * 1024, b"b" * 1024 + b"c" * 512)
    found = {file.left(draw, "any parts") for _ in range(2000)}
    with subtests.test("a later write without an earlier one"):
        assert b"a" * 1024 + b"c" * 512 in found
    with subtests.test("one sector of two"):
        assert b"b" * 512 + b"a" * 512 in found and b"a" * 512 + b"b" * 512 in found
    with subtests.test("a part of a sector"):
        assert any(0 < it[:512].count(b"b") < 512 for it in found)
    found = {file.left(draw, "a beginning") for _ in range(500)}
    with subtests.test("no later write if it came up to some write"):
        assert all(b"c" not in it or it.startswith(b"b" * 1024) for it in found) and len(found) > 100


def test_names(subtests):
    """A name is on the disk once its file or the folder was synced, and may be there before."""
    draw, disk = random.Random(SEED), Disk()
    for it in [record("W", 3, data=b"old"), record("S", 3), record("W", 4, data=b"new"), record("S", 4),
               record("N", 4, 3)]:
        disk.take(it)
    found = [disk.left(draw, "a beginning") for _ in range(100)]
    with subtests.test("the old name of a file, or the new one, and never both"):
        assert {tuple(sorted(it.items())) for it in found} == {
            (("-tree", b"old"), ("-tree-new", b"new")), (("-tree", b"new"),)}
    disk.take(record("D", 99))
    with subtests.test("the new one alone once the folder is synced"):
        assert disk.left(draw, "none") == {"-tree": b"new"}
    disk.take(record("U", 3))
    with subtests.test("a removal that may not be there yet"):
        assert [disk.left(draw, "none"), disk.left(draw, "all")] == [{"-tree": b"new"}, {}]
