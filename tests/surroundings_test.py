"""A node under what its surroundings do to it: places that are closed, a small stack, and files that may not grow."""

import os
import resource
import signal
import subprocess

import pytest

import consoles
from running import EXAMPLES, is_so

# The least stack, in bytes, with which docs/RUNNING.md says that a node runs, and the file that may grow no more.
STACK, FILE = 512 * 1024, 400_000
ORDERS, MOST = ["order ANN take DCS", "order ANN drop DCS"], 5_000


@pytest.fixture
def begun(program, folder, tree):
    """Returns a function that starts a node with a call before it, and kills it when the test ends."""
    started = []

    def start(before):
        place = os.path.join(folder, "here")
        words = [program, "node", tree, "A", os.path.join(folder, "store"), "--endless", "--console", place]
        if os.path.exists(place):
            os.remove(place)
        started.append(subprocess.Popen(words, preexec_fn=before, stdin=subprocess.DEVNULL, stdout=subprocess.PIPE,
                                        stderr=subprocess.PIPE))
        assert is_so(lambda: os.path.exists(place))
        return started[-1], consoles.Console(place)

    yield start
    for one in started:
        one.kill()
        one.communicate()


@pytest.mark.parametrize("closed", [(0,), (1,), (2,), (1, 2), (0, 1, 2)])
def test_closed(begun, closed):
    """No socket and no store gets the place of an input or output that was left closed."""
    one, console = begun(lambda: [os.close(it) for it in closed])
    found = [os.readlink("/proc/%d/fd/%d" % (one.pid, place)) for place in closed]
    assert found == ["/dev/null"] * len(closed)
    assert console.ask("order ANN take DCS") == "told ANN take DCS 0"


@pytest.mark.parametrize("closed", [0, 1])
def test_closed_is_a_fault(program, closed):
    """A closed input is no empty one, and a closed output none that takes all."""
    with open(os.path.join(EXAMPLES, "one-domain.datagrams"), "rb") as given:
        one = subprocess.run([program, "answer"], preexec_fn=lambda: os.close(closed), stdin=given,
                             stdout=subprocess.PIPE, stderr=subprocess.PIPE, check=False)
    assert (one.stderr, one.returncode) == ([b"read fault\n", b"write fault\n"][closed], 3)


def test_stack(begun):
    """A node runs with a small stack."""
    one, console = begun(lambda: resource.setrlimit(resource.RLIMIT_STACK, (STACK, STACK)))
    assert console.ask("order ANN take DCS") == "told ANN take DCS 0"
    assert one.poll() is None


def test_file_size(begun):
    """A limit on the size of files ends a node by its signal. Nothing that was told is lost."""
    one, console = begun(lambda: resource.setrlimit(resource.RLIMIT_FSIZE, (FILE, FILE)))
    told = 0
    while console.ask(ORDERS[told % 2]) == "told %s 0" % ORDERS[told % 2][6:] and told < MOST:
        told += 1
    assert is_so(lambda: one.poll() is not None)
    assert (one.poll(), 0 < told < MOST) == (-signal.SIGXFSZ, True)
    _, console = begun(lambda: None)
    # what was ordered last may have been saved, and was not told
    assert console.ask("order ANN ask DCS").split()[-4] in (str(told), str(told + 1))
