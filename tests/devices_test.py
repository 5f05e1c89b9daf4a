"""Device programs over tools/devices.py: 48 channels of a crate that hangs, a node that goes, and docs/DEVICES.md."""

import os
import re
import shutil
import signal
import subprocess
import sys

import pytest

import devices
import lunskaf
import nodes
import running
from running import ROOT, at_last, example, is_so, text_of

CHANNELS = 48
# The crate is left alone for a second after two in which it did not answer: a channel after the other would take 96.
AWAY_WITHIN = 20

HEAD = """tree 5
state UNKNOWN
state OFF
state STANDBY
state RAMPING
state READY
state ERROR
action GO_STANDBY
action CONFIGURE
station A 127.0.0.1:%d
operator ANN A
devclass HV UNKNOWN
move HV OFF GO_STANDBY STANDBY
move HV STANDBY CONFIGURE RAMPING
unitclass UNIT UNKNOWN
accept UNIT GO_STANDBY
accept UNIT CONFIGURE
domain TOP A UNIT -
"""


class Place:
    """A node with 48 devices, a crate and the program between them."""

    def __init__(self, program, folder):
        self.program, self.folder = program, folder
        self.names = ["C%d" % number for number in range(1, CHANNELS + 1)]
        lines = (HEAD % tuple(nodes.free_ports(1))).splitlines()
        lines += ["domain D%d A UNIT TOP" % part for part in range(CHANNELS // 16)]
        lines += ["device %s D%d HV" % (name, place // 16) for place, name in enumerate(self.names)]
        self.tree, self.console = nodes.write_tree(folder, None, lines), os.path.join(folder, "console")
        self.crate_at, self.children = os.path.join(folder, "crate"), {}
        self.client = lunskaf.Node(self.console)

    def begin(self, name, words):
        self.children[name] = subprocess.Popen(words, stdin=subprocess.DEVNULL, stdout=subprocess.DEVNULL,
                                               stderr=subprocess.DEVNULL)

    def node(self):
        self.begin("node", [self.program, "node", self.tree, "A", os.path.join(self.folder, "A"), "--endless",
                            "--console", self.console])

    def crate(self):
        self.begin("crate", [sys.executable, example("crate.py"), self.crate_at, "0.1"])

    def kill(self, name):
        self.children[name].send_signal(signal.SIGKILL)
        self.children.pop(name).wait()

    def channel(self, word, number):
        """Returns what the crate answers to a word for a channel."""
        with lunskaf.connected(self.crate_at, 2) as line:
            line.sendall(("%s %d\n" % (word, number)).encode())
            return line.makefile().readline().strip()

    def states(self):
        """Returns in which states the devices are, or nothing if the node is away."""
        try:
            return {shown.state for shown in self.client.states() if shown.object in self.names}
        except (lunskaf.Lost, lunskaf.TimeOut):
            return set()

    def come_to(self, *states, seconds=running.DEADLINE):
        return at_last(self.states, set(states), seconds) == set(states)


@pytest.fixture
def place(program, folder):
    made = Place(program, folder)
    made.node()
    made.crate()
    assert is_so(lambda: os.path.exists(made.crate_at) and made.come_to("UNKNOWN", seconds=1))
    yield made
    for name in list(made.children):
        made.kill(name)
    made.client.close()


def test_crate(place, subtests):
    """One program for 48 channels: they ramp, one trips, the crate hangs and ends, and the node starts again."""
    place.begin("program", [sys.executable, example("crate_device.py"), place.console, place.crate_at, *place.names])
    with subtests.test("all channels are reported"):
        assert place.come_to("OFF")
    place.client.take("ANN", "TOP")
    for part in range(CHANNELS // 16):
        place.client.include("ANN", "TOP", "D%d" % part)
    place.client.do("ANN", "TOP", "GO_STANDBY")
    with subtests.test("an action is given to all channels"):
        assert place.come_to("STANDBY")
        assert at_last(lambda: {place.channel("STATE", it) for it in range(1, 49)}, {"STANDBY"}) == {"STANDBY"}
    place.client.do("ANN", "TOP", "CONFIGURE")
    with subtests.test("they ramp by themselves"):
        assert place.come_to("READY")
    place.channel("TRIP", 7)
    with subtests.test("one that trips"):
        assert place.come_to("READY", "ERROR")
    with subtests.test("it is the seventh"):
        assert [it.object for it in place.client.states() if it.state == "ERROR"] == ["C7"]
    place.children["crate"].send_signal(signal.SIGSTOP)
    with subtests.test("a crate that hangs"):
        assert place.come_to("UNKNOWN", seconds=AWAY_WITHIN)
    place.children["crate"].send_signal(signal.SIGCONT)
    with subtests.test("and goes on"):
        assert place.come_to("READY", "ERROR")
    place.kill("crate")
    with subtests.test("a crate that has ended"):
        assert place.come_to("UNKNOWN")
    place.crate()
    with subtests.test("and is there again"):
        assert place.come_to("OFF")
    place.kill("node")
    place.node()
    with subtests.test("a node that is started again is told again"):
        assert place.come_to("OFF")


class Odd:
    """Hardware that raises what nobody thought of."""

    def state(self):
        raise ZeroDivisionError("odd")

    command = None


class Told:
    """A node that takes reports."""

    def __init__(self):
        self.reports = []

    def report(self, name, state):
        self.reports.append((name, state))


def test_hardware_that_raises(capsys):
    """Whatever hardware raises, its device is away, the reason is told once, and the program goes on."""
    node = Told()
    kept = devices.Kept(node, "HV", devices.Kind({"on": "READY"}, {"GO": "go"}, "UNKNOWN", 60), Odd())
    for deed in (kept.look, kept.look, lambda: kept.command("GO"), lambda: kept.command("NOTHING")):
        deed()
    assert node.reports == [("HV", "UNKNOWN")] * 3
    assert capsys.readouterr().err.splitlines() == ["HV: odd", "HV: go: 'NoneType' object is not callable"]


@pytest.mark.parametrize("text, said", [
    ("device HV X\n", "line 1: a kind comes first"), ("# a map\nkind A\nstate ON\n", "line 3: state ON"),
    ("kind A\ndevice HV\n", "line 2: device HV"), ("kind A\n\nvoltage 3\n", "line 3: voltage 3")])
def test_wrong_map(folder, text, said):
    with pytest.raises(devices.Wrong) as wrong:
        devices.read_map(running.write(os.path.join(folder, "map"), text))
    assert str(wrong.value) == said


def test_map(folder):
    path = running.write(os.path.join(folder, "map"), "kind A\nstate on READY\naway UNKNOWN\nperiod 2\ndevice X there\n"
                         "kind B\naction GO go\n# no state\ndevice Y here\n")
    found = [(name, where, kind.states, kind.actions, kind.away, kind.period)
             for name, kind, where in devices.read_map(path)]
    assert found == [("X", "there", {"on": "READY"}, {}, "UNKNOWN", 2.0), ("Y", "here", {}, {"GO": "go"}, None, 0.5)]


def test_page():
    """The program that docs/DEVICES.md shows is examples/channel.py, which has twenty lines, as the page says."""
    shown = re.findall(r"^```python\n(.*?)^```$", text_of("docs/DEVICES.md"), flags=re.M | re.S)
    text = text_of("examples/channel.py")
    assert len(shown) == 2 and all("\n" + it in text for it in shown)
    assert len([it for it in text.splitlines() if it]) <= 20


def test_unit(folder):
    """systemd takes the unit, and what it is given is what docs/DEVICES.md says."""
    unit = text_of("examples/smi-device@.service")
    named = set(re.findall(r"\$([A-Z]+)", unit)) - {"D"}
    page = re.findall(r"^    ([A-Z]+)=", text_of("docs/DEVICES.md"), flags=re.M)
    assert named == set(page) == {"CONSOLE", "HARDWARE", "DEVICES"}
    if not shutil.which("systemd-analyze"):
        pytest.skip("there is no systemd-analyze")
    path = running.write(os.path.join(folder, "smi-device@hv.service"), unit)
    told = running.run(["systemd-analyze", "verify", "--man=no", path], cwd=ROOT)
    assert told == (b"", b"", 0)
