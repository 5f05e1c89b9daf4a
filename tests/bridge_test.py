"""The bridge to TANGO, between a node and real TANGO device servers without a database.

A power supply of TANGO is a device of a node: its State is reported, actions are its commands, and it fails, goes away
and comes back. Domains of a screen are read as TANGO devices. It needs PyTango (Debian's python3-tango).
"""

import importlib.util
import os
import signal
import subprocess
import sys

import pytest

import lunskaf
import nodes
import running
import screens
import supplies
from running import at_last

BRIDGE, SUPPLIES = os.path.join(running.ROOT, "tools", "tango_bridge.py"), os.path.join(running.HERE, "bridge.py")

MAP = """# two supplies of one server
kind SUPPLY
period 0.1
state OFF OFF
state ON READY
state MOVING RAMPING
state FAULT ERROR
away UNKNOWN
action CONFIGURE On
action STANDBY Off
device HV tango://127.0.0.1:%(port)d/test/supply/hv#dbase=no
device LV tango://127.0.0.1:%(port)d/test/supply/lv#dbase=no
"""


def seen(look):
    """Returns a function that looks, and returns words if the node or the screen is away."""
    def looked():
        try:
            return look()
        except (OSError, lunskaf.Lost, lunskaf.TimeOut):
            return "no answer"
    return looked


class Place:
    """A node, a server of supplies, and the bridge between them."""

    def __init__(self, program, folder, subtests):
        self.program, self.folder, self.subtests = program, folder, subtests
        self.ports = nodes.free_ports(2)
        self.tree = nodes.write_tree(folder, None, (supplies.SCREENED % tuple(self.ports)).splitlines())
        self.console = os.path.join(folder, "console")
        self.tango_port, self.domain_port = screens.tcp_port(), screens.tcp_port()
        self.map = os.path.join(folder, "map")
        running.write(self.map, MAP % {"port": self.tango_port})
        self.children = {}
        self.client = lunskaf.Node(self.console)

    def begin(self, name, words):
        self.children[name] = subprocess.Popen(list(map(str, words)), stdin=subprocess.DEVNULL,
                                               stdout=subprocess.DEVNULL, stderr=subprocess.DEVNULL)

    def node(self):
        self.begin("node", [self.program, "node", self.tree, "A", os.path.join(self.folder, "A"), "--endless",
                            "--console", self.console])

    def server(self):
        self.begin("server", [sys.executable, SUPPLIES, "--serve", self.tango_port])

    def bridge(self):
        self.begin("bridge", [sys.executable, BRIDGE, "devices", self.console, self.map])

    def end(self, name):
        self.children[name].send_signal(signal.SIGKILL)
        self.children.pop(name).wait()

    def tango(self, name, word, port=None):
        """Returns what a call of a TANGO device prints."""
        words = [sys.executable, SUPPLIES, "--call", str(port or self.tango_port), name, word]
        return running.run(words)[0].decode().strip()

    def states(self):
        return {shown.object: shown.state for shown in self.client.states()}

    def comes_to(self, name, **wanted):
        """Checks that these objects come into these states."""
        def look():
            states = self.states()
            return {it: states.get(it) for it in wanted}
        with self.subtests.test(name):
            assert at_last(seen(look), wanted) == wanted


def check_devices(place, subtests):
    """Supplies of TANGO as devices of a node: they ramp, trip, go away and come back."""
    place.node()
    place.server()
    place.bridge()
    place.comes_to("both supplies are reported", HV="OFF", LV="OFF", TPC="OFF")
    place.client.take("ANN", "TPC")
    place.client.do("ANN", "TPC", "CONFIGURE")
    with subtests.test("an action moves the devices and the domain"):
        assert place.states()["TPC"] in ("RAMPING", "READY")
    place.comes_to("the supplies ramp and are ready", HV="READY", LV="READY", TPC="READY")
    with subtests.test("each was started once"):
        assert [place.tango("test/supply/" + it, "started") for it in ("hv", "lv")] == ["1", "1"]
    place.tango("test/supply/hv", "Trip")
    place.comes_to("a trip is reported", HV="ERROR", LV="READY", TPC="ERROR")
    place.client.do("ANN", "TPC", "STANDBY")
    place.comes_to("another action", HV="OFF", LV="OFF", TPC="OFF")
    place.end("server")
    place.comes_to("a server that is gone", HV="UNKNOWN", LV="UNKNOWN", TPC="UNKNOWN")
    place.server()
    place.comes_to("and comes back", HV="OFF", LV="OFF", TPC="OFF")
    place.tango("test/supply/lv", "On")
    place.comes_to("what TANGO does by itself is reported", HV="OFF", LV="READY")
    place.end("node")
    place.node()
    place.comes_to("a node that is started again is told anew", HV="OFF", LV="READY")


def check_domains(place, screen, subtests):
    """Domains of a screen as TANGO devices."""
    with subtests.test("a screen is up"):
        assert screen.is_up()
    place.begin("domains", [sys.executable, BRIDGE, "domains", screen.host, place.domain_port])

    def told(word):
        return place.tango("smi/domain/TPC", word, place.domain_port)

    with subtests.test("a domain as a TANGO device"):
        assert at_last(seen(lambda: told("commander")), "ANN") == "ANN"
    with subtests.test("its state"):
        assert at_last(seen(lambda: told("smi_state") == place.states()["TPC"]), True) is True
    place.tango("test/supply/hv", "Trip")
    with subtests.test("an alarm is a fault"):
        assert at_last(seen(lambda: (told("State"), told("smi_state"))), ("FAULT", "ERROR")) == ("FAULT", "ERROR")
    place.end("node")
    with subtests.test("a silent station is unknown"):
        assert at_last(seen(lambda: told("State")), "UNKNOWN") == "UNKNOWN"


@pytest.mark.skipif(not importlib.util.find_spec("tango"), reason="there is no PyTango (Debian's python3-tango)")
def test_bridge(program, folder, start_screen, subtests):
    place = Place(program, folder, subtests)
    try:
        check_devices(place, subtests)
        check_domains(place, start_screen(place.tree, os.path.join(folder, "SCREEN")), subtests)
    finally:
        for name in list(place.children):
            place.end(name)
        place.client.close()
