"""The program and the oracle say the same of drawn cases, and an oracle with a bug is told as different.

The tool is tests/differences.py. That the oracle is right of what the documents show is tested without the program.
"""

import os
import sys

import pytest

import differences
import layout
import running
import trees
from command_lines_test import TABLE
from oracle import answers, grants, refusals, rows, schedule, simulation, station, text
from oracle import tree as tree_files
from schedules_test import OPENING, TREE, as_said, read_plays

TOOL = os.path.join(running.HERE, "differences.py")
SEED = "gate"
# How many cases of each kind are compared, and at least how many of them end in another way than well.
PART = {"trees": (80, 40), "schedules": (50, 5), "drawn": (12, 0), "answers": (80, 40), "datagrams": (4000, 0),
        "stores": (12, 3), "forged": (3, 0)}


def compared(program, folder, kind, count):
    """Compares some cases of a kind. Differences are kept in `kept` of the folder."""
    comparison = differences.Comparison(program, os.path.join(folder, "kept"))
    comparison.compare_kind(kind, count, SEED, folder)
    return comparison


@pytest.mark.parametrize("kind", PART)
def test_alike(program, folder, kind):
    """All cases are alike, and many of them are refused."""
    count, least = PART[kind]
    found = compared(program, folder, kind, count)
    assert found.failed == 0, [running.text_of(os.path.join(path, it)) for path, _, files in os.walk(found.kept)
                               for it in files if it in ("came", "wanted")]
    assert found.passed == (1 if kind == "datagrams" else count)
    assert sum(found.ends.values()) - found.ends["well"] >= least


def last_rule(unit, state, members, right=tree_files.UnitClass.state_after):
    """Returns the state that the last rule that holds gives, in place of the first."""
    return right(tree_files.UnitClass(unit.first, unit.accepted, unit.rules[::-1]), state, members)


def admits_again(record, holder, epoch, number):
    """Returns true also if a command of this number has run already."""
    return (record.holder, record.epoch, record.is_busy) == (holder, epoch, False) and number <= record.last + 1


def takes_late(record, holder, _):
    """Returns the record after a `TAKE`, whatever epoch was seen."""
    return record if record.holder != grants.FREE else grants.Record(record.epoch + 1, holder)


# Bugs of an oracle: where they are, what they replace, and by what; and the kind and the count of cases that show it.
BUGS = {
    "a CR that ends the file": (text, "lines_of", lambda data: [it.removesuffix(b"\r") for it in data.split(b"\n")],
                                "trees", 20),
    "no fault of counts": (tree_files, "FORMS", {**tree_files.FORMS, b"state": ["new state", "state"]}, "trees", 5),
    "a take of an older epoch": (grants.Record, "taken", takes_late, "datagrams", 1000),
    "another outcome": (answers, "NOT_BELOW", 4, "datagrams", 1000),
    "unused fields": (layout, "refusal", lambda data, test=layout.refusal: test(data) % 6, "answers", 60),
    "a command that runs again": (grants.Record, "admits", admits_again, "schedules", 20),
    "an outcome that was not seen": (grants, "NOT_SEEN", 0, "schedules", 30),
    "the last rule": (tree_files.UnitClass, "state_after", last_rule, "schedules", 30),
    "a unit that does not follow": (station.Station, "evaluate", lambda *_: None, "schedules", 20),
    "another order of entries": (station.Outcome, "in_order", lambda self: self.entries[::-1], "schedules", 20),
    "no fault of unknown names": (schedule, "number_of", lambda *_: 1, "schedules", 20),
    "another generator": (schedule, "SEEDING", schedule.SEEDING + 2, "drawn", 12),
    "rows of an earlier schema": (rows, "DOMAIN_SCHEMA", 1, "stores", 3),
    "no fault of what the tree lacks": (rows, "is_holder", lambda *_: False, "stores", 8),
    "a holder that nobody has": (refusals, "has_a_say", lambda *_: False, "forged", 1),
    "watchers that are not taken": (station, "MOST_WATCHERS", 0, "forged", 1)}


@pytest.mark.parametrize("name", BUGS)
def test_a_bug_is_told(program, folder, monkeypatch, name):
    """The cases of an oracle with a bug differ, and what shows it is kept."""
    where, what, wrong, kind, count = BUGS[name]
    monkeypatch.setattr(where, what, wrong)
    found = compared(program, folder, kind, count)
    assert found.failed > 0
    kept = [os.listdir(os.path.join(found.kept, it)) for it in os.listdir(found.kept)]
    assert len(kept) == found.failed and all({"came", "wanted"} < set(it) for it in kept)


@pytest.mark.parametrize("other, wanted", [(False, (b"3 passed, 0 failed", 0)), (True, (b"0 passed, 3 failed", 1))])
def test_tool(program, folder, other, wanted):
    """The tool ends with the counts, and with status 1 if the program says something else."""
    words = [sys.executable, TOOL, "true" if other else program, "--trees", "3", "--seed", SEED]
    if other:
        words[2] = running.write(os.path.join(folder, "other"), "#!/bin/sh\necho nothing\n")
        os.chmod(words[2], 0o755)
    out, err, status = running.run(words, env={**os.environ, "TMPDIR": folder})
    lines = out.splitlines()
    assert (lines[0], lines[-1], err, status) == (b"seed " + SEED.encode(), wanted[0], b"", wanted[1])
    assert (b"kept in" in out) == other


def test_tool_without_cases(program, folder):
    """No case is no proof."""
    out, _, status = running.run([sys.executable, TOOL, program], env={**os.environ, "TMPDIR": folder})
    assert out.endswith(b"0 passed, 0 failed\n") and status == 1


# Of the oracle alone.

@pytest.mark.parametrize("data, wanted", [
    pytest.param(data, (out.encode(), err.encode() if status else b"", status), id=name)
    for name, data, out, err, status in trees.all_trees()])
def test_tree(data, wanted):
    assert tree_files.check(data) == wanted


@pytest.mark.parametrize("case", [pytest.param(it, id=it["name"]) for it in TABLE
                                  if it["args"] == ["answer"] and not {"from", "to"} & set(it)])
def test_answer(case):
    assert answers.answer(case["in"]) == (case["out"], case["err"].encode(), case["status"])


@pytest.mark.parametrize("items", [pytest.param(items, id=name) for name, items in read_plays().items()])
def test_play(items):
    """Each line of a play leaves what is said of it."""
    tree, before, given = tree_files.read_tree(running.read(TREE)), OPENING, b""
    for item, said in items:
        given += item.encode() + b"\n"
        out, err, status = simulation.by_schedule(tree, given)
        assert (out[:len(before)], err, status) == (before, b"", 0)
        came, wanted = as_said(out[len(before):].decode().splitlines(), said or "nothing")
        assert said is None or came == wanted, item
        before = out


@pytest.mark.parametrize("word, item", [
    (529_436, b"order BOB do TPC START"), (31, b"restart B"), (11, b"report HV OFF"), (24, b"deliver 2")])
def test_word(word, item):
    """A word draws an item."""
    tree = tree_files.read_tree(running.read(TREE))
    assert (schedule.drawn_item(tree, word), 0) == schedule.read_line(tree, item)
