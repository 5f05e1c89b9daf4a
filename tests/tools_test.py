"""Tests of the tools of the tests: that no script runs at an import, and what a run of tests counts. No node runs."""

import ast
import glob
import os
import sys
import unittest

import pytest

import running
from running import HERE, ROOT, text_of


class Scripts(unittest.TestCase):
    """No script does anything when it is imported, and each tells of its end in one way."""

    def paths(self):
        return sorted(glob.glob(os.path.join(ROOT, "tools", "*.py")) + glob.glob(os.path.join(HERE, "*.py")))

    def test_nothing_runs_at_an_import(self):
        for path in self.paths():
            body = ast.parse(text_of(path)).body
            calls = [ast.unparse(it) for it in body if isinstance(it, ast.Expr) and isinstance(it.value, ast.Call)]
            self.assertEqual([it for it in calls if not it.startswith("sys.path.insert(")], [], path)

    def test_one_way_to_end(self):
        for path in self.paths():
            own = "passed, %d failed" in text_of(path)
            if path.startswith(HERE) and path != __file__:
                self.assertEqual(own, os.path.basename(path) in ("conftest.py", "running.py"), path)


@pytest.mark.parametrize("cases, told", [
    ([("one", True, 1), ("two", 1, 2)], ("2 passed, 0 failed\n", 0)),
    ([("one", True, 1), ("two", None, [2, 3])], ("FAILED two: [2, 3]\n1 passed, 1 failed\n", 1)),
    ([], ("0 passed, 0 failed\n", 1))], ids=["well", "wrong", "nothing"])
def test_an_end(cases, told):
    """A script tells what failed and what came of it. One without a case has failed."""
    assert running.printed(running.end, cases) == told


def test_what_comes_in_time():
    came = iter(range(10))
    assert [running.at_last(lambda: next(came), 3, pause=0), running.at_last(lambda: 1, 2, 0)] == [3, 1]
    assert [running.is_so(lambda: next(came) == 6, pause=0), running.is_so(lambda: False, 0)] == [True, False]


TESTS = """
import pytest

def test_well():
    pass

def test_wrong():
    assert 1 == 2

def test_checks(subtests):
    for name in ("one", "two", "three"):
        with subtests.test(name):
            assert name != "two"

def test_sound_checks(subtests):
    for name in ("one", "two"):
        with subtests.test(name):
            pass

@pytest.mark.skip(reason="it is not here")
def test_skipped():
    pass
"""


@pytest.fixture
def counted(folder):
    """Returns a function that runs pytest with tests/conftest.py on these tests, and returns its last line and status.
    """
    running.write(os.path.join(folder, "small_test.py"), TESTS)

    def run(*words):
        words = [sys.executable, "-m", "pytest", "-c", os.path.join(ROOT, "pytest.ini"), "--rootdir", folder,
                 "--confcutdir", HERE, "-p", "conftest", "small_test.py", *words]
        out, _, status = running.run(words, cwd=folder, env={**os.environ, "PYTHONPATH": HERE})
        return out.decode().splitlines()[-1], status
    return run


@pytest.mark.parametrize("words, last, status", [
    # three checks and their test pass, and one test without checks; of a test that fails only its failures count
    ([], "4 passed, 2 failed", 1), (["-n", "2"], "4 passed, 2 failed", 1),
    (["-k", "test_well"], "1 passed, 0 failed", 0), (["-k", "checks"], "3 passed, 1 failed", 1),
    (["-k", "skipped"], "0 passed, 0 failed", 0),
    (["-k", "nothing"], "0 passed, 0 failed", 5)], ids=str)
def test_what_is_counted(counted, words, last, status):
    assert counted(*words) == (last, status)


def test_what_failed_is_run_again(counted):
    """`--lf` runs a test again of which one check failed, because pytest alone takes it for passed."""
    counted()
    assert counted("--lf") == ("0 passed, 2 failed", 1)
