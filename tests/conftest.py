"""What pytest needs for these tests: the program, a folder, nodes that end with their test, and the last line.

`make nodes ONLY=killed` runs some tests, and so does `/usr/bin/python3 -m pytest tests/nodes_test.py -k killed`.
"""

import collections
import fcntl
import os
import tempfile

import pytest
import pytest_subtests

import growths
import nights
import nodes
import running
import screens


# How many seconds a run of the program may take that has to end by itself.
LONG = 300


def pytest_addoption(parser):
    parser.addoption("--program", default=os.path.join(running.ROOT, "bin", "smi"), help="the program to test")
    parser.addoption("--page-files", action="store_true", help="serve the page as its files are, not the program's")


def pytest_collection_modifyitems(items):
    """Puts the tests that run alone last, because every worker waits for them."""
    items.sort(key=lambda it: it.get_closest_marker("alone") is not None)


class Counts:
    """Counts the checks of a run: each test is one, and each of its subtests."""

    def __init__(self):
        self.passed, self.failed = collections.Counter(), collections.Counter()

    def pytest_runtest_logreport(self, report):
        if report.failed:
            self.failed[report.nodeid] += 1
        elif report.passed and report.when == "call":
            self.passed[report.nodeid] += 1

    def pytest_collectreport(self, report):
        """Counts a file that can't be read as one that failed."""
        self.failed[report.nodeid] += report.failed

    @pytest.hookimpl(trylast=True)
    def pytest_sessionfinish(self, session):
        """Has `--lf` run each test of which a subtest failed, because pytest alone takes such a test for passed."""
        if session.config.pluginmanager.hasplugin("cacheprovider"):
            session.config.cache.set("cache/lastfailed", {it: True for it, count in self.failed.items() if count})

    def pytest_unconfigure(self):
        """Prints the line that tools/gate.py reads. A test that failed counts with its failures alone."""
        passed = sum(count for name, count in self.passed.items() if not self.failed[name])
        print("%d passed, %d failed" % (passed, sum(self.failed.values())))


def pytest_configure(config):
    """Counts in a run, but not in its workers, nor if pytest only lists."""
    if not hasattr(config, "workerinput") and not config.option.collectonly:
        config.pluginmanager.register(Counts(), "counts")


@pytest.hookimpl(tryfirst=True)
def pytest_report_teststatus(report):
    """Prints no sign for a check that passed, because a run has thousands of them."""
    if isinstance(report, pytest_subtests.SubTestReport) and report.passed:
        return "subtests passed", "", "SUBPASS"
    return None


@pytest.fixture(autouse=True)
def turn(request, worker_id, tmp_path_factory):
    """Lets tests run side by side, but each that is marked `alone` by itself: a lock is shared, or held by one."""
    if worker_id == "master":
        yield
        return
    how = fcntl.LOCK_EX if request.node.get_closest_marker("alone") else fcntl.LOCK_SH
    with open(tmp_path_factory.getbasetemp().parent / "turn", "w", encoding="ascii") as lock:
        fcntl.flock(lock, how)
        yield


@pytest.fixture(scope="session")
def program(request):
    """Returns the path of the program, which is absolute because tests run it in folders of their own."""
    path = os.path.abspath(request.config.getoption("program"))
    assert os.path.isfile(path), "there is no %s: run make smi" % path
    return path


@pytest.fixture
def smi(program):
    """Returns a function that runs the program to its end, and returns standard output, standard error and status."""
    return lambda *words, timeout=LONG, **how: running.run([program, *words], timeout=timeout, **how)


@pytest.fixture
def folder():
    """Returns an empty folder. Its path is short, because that of a socket has at most 107 bytes."""
    with tempfile.TemporaryDirectory() as path:
        yield path


@pytest.fixture
def ports():
    """Returns a port for each of two stations."""
    return nodes.free_ports(2)


@pytest.fixture
def tree(folder, ports):
    """Returns the path of the worked tree with these ports."""
    return nodes.write_tree(folder, ports)


@pytest.fixture(scope="session")
def refusing(tmp_path_factory):
    """Returns the path of the library that refuses an allocation (tests/refuse.c)."""
    return growths.library(str(tmp_path_factory.mktemp("library")))


@pytest.fixture
def run_node(program):
    """Returns a function that runs a node to its end, and returns its lines on both outputs, and its status."""
    return lambda *words, given="", **how: nodes.ran(program, words, given, **how)


@pytest.fixture
def start_node(program, folder):
    """Returns a function that starts a node of these words. The nodes are killed when the test ends."""
    begun = []

    def start(*words, **how):
        begun.append(nodes.Node(program, words, **how))
        return begun[-1]

    yield start
    for node in begun:
        node.kill()


@pytest.fixture
def start_screen(program):
    """Returns a function that starts a screen of a tree on a store. The screens are killed when the test ends."""
    begun = []

    def start(tree, store, **how):
        begun.append(screens.Screen(program, tree, store, **how))
        return begun[-1]

    yield start
    for screen in begun:
        screen.end()


@pytest.fixture(scope="module")
def made_night():
    """A browser at the page of a detector after a shift."""
    it = nights.Night()
    yield it
    it.end()


@pytest.fixture
def night(made_night):
    """A page after a shift, with the past not open yet."""
    made_night.begin()
    return made_night
