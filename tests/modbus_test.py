"""The bridge to Modbus TCP, between a node and a real server of pymodbus, which is the PLC of tests/plc.py.

Supplies are commanded, ramp and trip; the PLC hangs, ends and comes back, and so does the node.
"""

import importlib.util
import os
import signal
import subprocess
import sys

import pytest

import devices
import lunskaf
import nodes
import running
import screens
import supplies
from running import at_last, is_so

BRIDGE, PLC = os.path.join(running.ROOT, "tools", "modbus_bridge.py"), os.path.join(running.HERE, "plc.py")

# pymodbus imports the second module, and its package only recommends that one.
pytestmark = pytest.mark.skipif(
    not all(map(importlib.util.find_spec, ["pymodbus", "serial_asyncio"])),
    reason="there is no whole pymodbus (Debian's python3-pymodbus and python3-serial-asyncio)")

KIND = """kind SUPPLY
period 0.1
state 0 OFF
state 1 RAMPING
state 2 READY
state 9 ERROR
away UNKNOWN
action CONFIGURE 1
action STANDBY 2
"""
# What one supply reads as a holding register, the other one reads as an input register.
MAP = KIND + "device HV 127.0.0.1:%(port)d/1/10/11\ndevice LV 127.0.0.1:%(port)d/1/i20/21\n"


class Place:
    """A node, a PLC and the bridge between them."""

    def __init__(self, program, folder):
        self.program, self.folder, self.port, self.children = program, folder, screens.tcp_port(), {}
        self.tree = nodes.write_tree(folder, None, (supplies.TREE % tuple(nodes.free_ports(1))).splitlines())
        self.console = os.path.join(folder, "console")
        self.map = running.write(os.path.join(folder, "map"), MAP % {"port": self.port})
        self.client = lunskaf.Node(self.console)

    def begin(self, name, words):
        told = open(os.path.join(self.folder, name + ".told"), "ab")
        with told:
            self.children[name] = subprocess.Popen(list(map(str, words)), stdin=subprocess.DEVNULL,
                                                   stdout=subprocess.DEVNULL, stderr=told)

    def told(self, name):
        return running.read(os.path.join(self.folder, name + ".told")).decode().splitlines()

    def node(self):
        self.begin("node", [self.program, "node", self.tree, "A", os.path.join(self.folder, "A"), "--endless",
                            "--console", self.console])

    def plc(self):
        self.begin("plc", [sys.executable, PLC, "--serve", self.port])
        assert is_so(lambda: self.read(10) == "0")

    def read(self, register):
        """Returns what is in a register."""
        return running.run([sys.executable, PLC, "--read", str(self.port), str(register)])[0].decode().strip()

    def write(self, register, number):
        running.run([sys.executable, PLC, "--write", str(self.port), str(register), str(number)])

    def kill(self, name):
        self.children[name].send_signal(signal.SIGKILL)
        self.children.pop(name).wait()

    def comes_to(self, *states):
        """Waits until HV, LV and their domain are in these states, and returns in which they are."""
        def look():
            try:
                found = {shown.object: shown.state for shown in self.client.states()}
            except lunskaf.AWAY:
                found = {}
            return [found.get(it) for it in ("HV", "LV", "TPC")]
        return at_last(look, list(states))


@pytest.fixture
def place(program, folder):
    made = Place(program, folder)
    made.node()
    made.plc()
    yield made
    for name in list(made.children):
        made.kill(name)
    made.client.close()


def test_devices(place, subtests):
    """Two supplies of a PLC as devices of a node: they ramp, one trips, and the PLC hangs, ends and comes back."""
    place.begin("bridge", [sys.executable, BRIDGE, place.console, place.map])
    with subtests.test("their states are reported"):
        assert place.comes_to("OFF", "OFF", "OFF") == ["OFF"] * 3
    place.client.take("ANN", "TPC")
    place.client.do("ANN", "TPC", "CONFIGURE")
    with subtests.test("an action is written into their registers"):
        assert at_last(lambda: [place.read(11), place.read(21)], ["1", "1"]) == ["1", "1"]
    with subtests.test("they ramp by themselves"):
        assert place.comes_to("READY", "READY", "READY") == ["READY"] * 3
    place.write(21, 9)
    with subtests.test("a trip is reported"):
        assert place.comes_to("READY", "ERROR", "ERROR") == ["READY", "ERROR", "ERROR"]
    place.write(21, 2)
    with subtests.test("what the PLC does by itself is reported"):
        assert place.comes_to("READY", "OFF", "OFF") == ["READY", "OFF", "OFF"]
    place.children["plc"].send_signal(signal.SIGSTOP)
    with subtests.test("a PLC that hangs"):
        assert place.comes_to("UNKNOWN", "UNKNOWN", "UNKNOWN") == ["UNKNOWN"] * 3
    place.children["plc"].send_signal(signal.SIGCONT)
    with subtests.test("and goes on"):
        assert place.comes_to("READY", "OFF", "OFF") == ["READY", "OFF", "OFF"]
    place.kill("plc")
    with subtests.test("a PLC that has ended"):
        assert place.comes_to("UNKNOWN", "UNKNOWN", "UNKNOWN") == ["UNKNOWN"] * 3
    place.client.do("ANN", "TPC", "STANDBY")
    with subtests.test("an action of that time is told on standard error"):
        assert is_so(lambda: any(it.startswith("HV: 2: ") for it in place.told("bridge"))), place.told("bridge")
    place.plc()
    with subtests.test("and is there again"):
        assert place.comes_to("OFF", "OFF", "OFF") == ["OFF"] * 3
    with subtests.test("and what was told then is not written later"):
        assert [place.read(11), place.read(21)] == ["0", "0"]
    place.kill("node")
    place.node()
    with subtests.test("a node that is started again is told again"):
        assert place.comes_to("OFF", "OFF", "OFF") == ["OFF"] * 3
    with subtests.test("nothing is told over and over"):
        assert len(place.told("bridge")) < 20


def test_refused(place, subtests):
    """A register that the PLC does not have: its device is away, and the reason is told."""
    text = KIND + "device HV 127.0.0.1:%d/1/5000/11\ndevice LV 127.0.0.1:%d/1/20/21\n" % (place.port, place.port)
    place.begin("bridge", [sys.executable, BRIDGE, place.console, running.write(place.map, text)])
    with subtests.test("the other one is reported"):
        assert place.comes_to("UNKNOWN", "OFF", "UNKNOWN") == ["UNKNOWN", "OFF", "UNKNOWN"]
    with subtests.test("the reason is told"):
        assert is_so(lambda: any(it.startswith("HV: 127.0.0.1:%d refuses: " % place.port) for it in
                                 place.told("bridge")))


@pytest.mark.parametrize("text, said", [
    ("device HV plc\n", "HV: plc is not HOST:PORT/UNIT/STATE/COMMAND"),
    ("device HV a:502/1/2\n", "HV: a:502/1/2 is not HOST:PORT/UNIT/STATE/COMMAND"),
    ("action GO on\ndevice HV a:502/1/2/3\n", "HV: an action is a number, and not on")])
def test_wrong_map(folder, text, said):
    import modbus_bridge

    path = running.write(os.path.join(folder, "map"), "kind SUPPLY\n" + text)
    with pytest.raises(devices.Wrong) as wrong:
        modbus_bridge.hardware_of(devices.read_map(path))
    assert str(wrong.value) == said


@pytest.mark.parametrize("words", [[], ["console"], ["console", "map", "more"]], ids=str)
def test_wrong_words(words):
    told = running.run([sys.executable, BRIDGE, *words])
    assert told == (b"", b"usage: modbus_bridge.py CONSOLE MAP\n", 1)
