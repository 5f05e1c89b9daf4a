"""The bridge to MQTT, between a node and a real broker: Debian's mosquitto, with Paho as the hardware.

A supply publishes its states and takes commands; it vanishes, the broker goes away, and so does the node. What a node
shows is read from the broker by a client that subscribes later.
"""

import importlib.util
import os
import shutil
import signal
import subprocess
import sys
import time

import pytest

import lunskaf
import nodes
import running
import screens
import supplies
from running import at_last, is_so

BRIDGE = os.path.join(running.ROOT, "tools", "mqtt_bridge.py")
BROKER = shutil.which("mosquitto", path=os.environ["PATH"] + ":/usr/sbin:/usr/local/sbin")

pytestmark = pytest.mark.skipif(
    not BROKER or not importlib.util.find_spec("paho"),
    reason="there is no MQTT (Debian's mosquitto and python3-paho-mqtt)")

# One of the two supplies is there.
TREE = supplies.TREE.replace("device LV TPC SUPPLY\n", "")
MAP = """kind SUPPLY
period 0.1
state off OFF
state on READY
state ramping RAMPING
state tripped ERROR
away UNKNOWN
action CONFIGURE on
action STANDBY off
device HV hall/hv
"""
# Prints the retained message of a topic, or nothing if there is none within a second.
SUBSCRIBE = """
import sys, threading
from paho.mqtt import client as paho
versions = getattr(paho, "CallbackAPIVersion", None)
client, told = paho.Client(versions.VERSION1) if versions else paho.Client(), threading.Event()
client.on_connect = lambda *_: client.subscribe(sys.argv[1], qos=1)
client.on_message = lambda _, __, message: (print(message.payload.decode()), told.set())
client.connect("127.0.0.1", int(sys.argv[2]))
client.loop_start()
told.wait(1)
"""


class Supply:
    """Hardware that speaks MQTT: it says `ramping` at a command `on`, and is `on` when the test says so."""

    def __init__(self, port):
        from paho.mqtt import client as paho

        versions = getattr(paho, "CallbackAPIVersion", None)
        self.client = paho.Client(versions.VERSION1) if versions else paho.Client()
        self.client.will_set("hall/hv/state", "gone", qos=1, retain=True)
        self.client.on_connect, self.client.on_message = self.connected, self.hear
        self.client.reconnect_delay_set(1, 1)
        self.heard, self.state = [], "off"
        self.client.connect("127.0.0.1", port)
        self.client.loop_start()

    def connected(self, *_):
        self.client.subscribe("hall/hv/command", qos=1)
        self.tell(self.state)

    def hear(self, _, __, message):
        self.heard.append(message.payload.decode())
        self.tell("ramping" if self.heard[-1] == "on" else self.heard[-1])

    def tell(self, state):
        self.state = state
        self.client.publish("hall/hv/state", state, qos=1, retain=True)

    def vanish(self):
        """Ends without a word, as if its plug was pulled."""
        self.client.loop_stop()
        self.client.socket().close()


class Place:
    """A node, a broker and bridges between them."""

    def __init__(self, program, folder):
        self.program, self.folder = program, folder
        self.tree = nodes.write_tree(folder, None, (TREE % tuple(nodes.free_ports(1))).splitlines())
        self.console, self.port = os.path.join(folder, "console"), screens.tcp_port()
        self.map, self.children = running.write(os.path.join(folder, "map"), MAP), {}
        self.client = lunskaf.Node(self.console)

    def begin(self, name, words):
        self.children[name] = subprocess.Popen(list(map(str, words)), stdin=subprocess.DEVNULL,
                                               stdout=subprocess.DEVNULL, stderr=subprocess.DEVNULL)

    def node(self):
        self.begin("node", [self.program, "node", self.tree, "A", os.path.join(self.folder, "A"), "--endless",
                            "--console", self.console])

    def broker(self):
        text = "listener %d 127.0.0.1\nallow_anonymous true\npersistence false\n" % self.port
        self.begin("broker", [BROKER, "-c", running.write(os.path.join(self.folder, "broker"), text)])

    def bridge(self, *words):
        self.begin(words[0], [sys.executable, BRIDGE, *words])

    def end(self, name):
        self.children[name].send_signal(signal.SIGKILL)
        self.children.pop(name).wait()

    def states(self):
        try:
            return {shown.object: shown.state for shown in self.client.states()}
        except (lunskaf.Lost, lunskaf.TimeOut):
            return {}

    def comes_to(self, state):
        """Waits until the device and its domain are in a state, and returns in which they are."""
        return at_last(lambda: [self.states().get(it) for it in ("HV", "TPC")], [state, state])

    def published(self, topic):
        """Returns what a client that subscribes now is told of a topic: the retained word, or None."""
        words = [sys.executable, "-c", SUBSCRIBE, topic, str(self.port)]
        came = running.run(words)
        return came and came[0].decode().strip()


@pytest.fixture
def place(program, folder):
    """Returns a place whose node and broker run. All that was begun is killed when the test ends."""
    made = Place(program, folder)
    made.node()
    made.broker()
    assert is_so(lambda: is_open(made.port))
    yield made
    for name in list(made.children):
        made.end(name)
    made.client.close()


def is_open(port):
    """Returns true if somebody listens at a port of this machine."""
    try:
        lunskaf.connected("127.0.0.1:%d" % port, 1).close()
        return True
    except lunskaf.Lost:
        return False


def test_devices(place, subtests):
    """A supply over MQTT as a device of a node: it ramps, trips, vanishes and comes back."""
    place.bridge("devices", place.console, place.map, "127.0.0.1:%d" % place.port)
    supply = Supply(place.port)
    with subtests.test("its state is reported"):
        assert place.comes_to("OFF") == ["OFF", "OFF"]
    place.client.take("ANN", "TPC")
    place.client.do("ANN", "TPC", "CONFIGURE")
    with subtests.test("an action is a command"):
        assert at_last(lambda: list(supply.heard), ["on"]) == ["on"]
        assert place.comes_to("RAMPING") == ["RAMPING", "RAMPING"]
    supply.tell("on")
    with subtests.test("what it does by itself is reported"):
        assert place.comes_to("READY") == ["READY", "READY"]
    supply.tell("tripped")
    with subtests.test("a trip is reported"):
        assert place.comes_to("ERROR") == ["ERROR", "ERROR"]
    supply.vanish()
    with subtests.test("its last will is that it is away"):
        assert place.comes_to("UNKNOWN") == ["UNKNOWN", "UNKNOWN"]
    supply = Supply(place.port)
    with subtests.test("it comes back"):
        assert place.comes_to("OFF") == ["OFF", "OFF"]
    place.end("broker")
    with subtests.test("a broker that is gone"):
        assert place.comes_to("UNKNOWN") == ["UNKNOWN", "UNKNOWN"]
    place.client.do("ANN", "TPC", "STANDBY")
    place.broker()
    with subtests.test("and comes back"):
        assert place.comes_to("OFF") == ["OFF", "OFF"]
    with subtests.test("an action of that time is not given later"):
        time.sleep(0.5)
        assert supply.heard == []
    place.end("node")
    place.node()
    with subtests.test("a node that is started again is told again"):
        assert place.comes_to("OFF") == ["OFF", "OFF"]
    supply.vanish()


def test_states(place, subtests):
    """What a node shows, as retained messages."""
    place.bridge("states", place.console, "127.0.0.1:%d" % place.port, "hall")

    def told(**wanted):
        """Returns what the broker has at these topics, once that is as wanted."""
        return at_last(lambda: {it: place.published("hall/" + it) for it in wanted}, wanted) == wanted

    with subtests.test("each object is published"):
        assert told(HV="UNKNOWN", TPC="UNKNOWN", online="1")
    place.client.report("HV", "ERROR")
    with subtests.test("a change is published"):
        assert told(HV="ERROR", TPC="ERROR")
    place.end("broker")
    place.broker()
    with subtests.test("a broker that has forgotten all is told again"):
        assert told(HV="ERROR", TPC="ERROR", online="1")
    place.end("node")
    with subtests.test("a node that does not answer"):
        assert told(online="0")
    place.node()
    with subtests.test("and answers again"):
        assert told(online="1", HV="UNKNOWN")
    place.end("states")
    with subtests.test("a bridge that has ended: its last will"):
        assert told(online="0")
