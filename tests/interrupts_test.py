"""Commands whose reads are interrupted, as by a signal, and a schedule of many megabytes.

A read that is interrupted is made again (docs/NUMBERS.md), so each command does what it does otherwise. Everything
that is expected is in the examples: the answers of examples/one-domain.datagrams are those of an uninterrupted run,
which tests/command_lines_test.py compares with the documents, and a schedule that begins with megabytes of comments
leaves the trace that it leaves without them.
"""

import os
import subprocess

import pytest

import running

TREE, SCHEDULE, DATAGRAMS = map(running.example, ("worked.tree", "worked.schedule", "one-domain.datagrams"))
# A schedule of this many bytes needs more than 4,096 reads of any size that a pipe or a reader of lines uses.
MANY = 6_000_000


@pytest.fixture(scope="module")
def interrupting(tmp_path_factory):
    """Returns the environment in which each read is interrupted once, and the file that this makes."""
    folder = str(tmp_path_factory.mktemp("library"))
    subprocess.run(["cc", "-shared", "-fPIC", "-O1", "-o", os.path.join(folder, "interrupts.so"),
                    os.path.join(running.HERE, "interrupts.c")], check=True)
    seen = os.path.join(folder, "interrupted")
    # by its name, because a list of paths is split at each space
    return {**os.environ, "LD_PRELOAD": "interrupts.so", "LD_LIBRARY_PATH": folder, "INTERRUPTED": seen}, seen


def test_answer(smi, interrupting):
    env, seen = interrupting
    given = running.read(DATAGRAMS)
    answers = smi("answer", given=given)
    assert (len(answers[0]) // 44 > 0, *answers[1:]) == (True, b"", 0)
    assert smi("answer", given=given, env=env) == answers
    assert os.path.exists(seen)


def test_many_answers(smi, interrupting):
    given = running.read(DATAGRAMS) * 5_000
    answers = smi("answer", given=given)
    assert (len(answers[0]) // 44 > 5_000, *answers[1:]) == (True, b"", 0)
    assert smi("answer", given=given, env=interrupting[0]) == answers


def test_sim(smi, interrupting):
    trace = smi("sim", TREE, SCHEDULE)
    assert (b"\n" in trace[0], *trace[1:]) == (True, b"", 0)
    assert smi("sim", TREE, SCHEDULE, env=interrupting[0]) == trace


def test_check(smi, interrupting):
    told = smi("check", TREE)
    assert told[1:] == (b"", 0)
    assert smi("check", TREE, env=interrupting[0]) == told


def test_a_large_schedule(smi, folder):
    """A schedule of megabytes is read to its end, and its last line has its number."""
    trace, line = smi("sim", TREE, SCHEDULE), b"# " + b"x" * 120 + b"\n"
    text = line * (MANY // len(line)) + running.read(SCHEDULE)
    path = running.write(os.path.join(folder, "large.schedule"), text)
    assert smi("sim", TREE, path) == trace
    running.write(path, text + b"nonsense\n")
    out, err, status = smi("sim", TREE, path)
    assert (out, err.split(b" fault ")[0], status) == (trace[0], b"schedule line %d" % (text.count(b"\n") + 1), 1)
