"""A bridge to TANGO: devices of a node that are TANGO devices, and domains as TANGO devices of their own.

usage: tango_bridge.py devices CONSOLE MAP
       tango_bridge.py domains SCREEN PORT [PREFIX]

`devices` runs beside the node whose station keeps the devices; CONSOLE is the node's console, a path or A.B.C.D:PORT.
The State of each TANGO device is looked at every PERIOD seconds and is reported where it changes, and after each start
of the node; an action that came to the device is run as a command of the TANGO device. The file MAP says which:

    kind SUPPLY
    period 0.5
    state OFF OFF
    state ON READY
    state MOVING RAMPING
    state FAULT ERROR
    away UNKNOWN
    action CONFIGURE On
    action STANDBY Off
    device PIXEL_HV tango://hvhost:10000/trk/hv/1

tools/devices.py says what these lines mean. An action that is not listed does nothing in TANGO.

`domains` serves each domain of a screen's tree as the TANGO device PREFIX/domain/NAME, without a database, at that
port: the attributes smi_state, commander, busy, outcome and silent_seconds, and State: that of TANGO by the same name,
FAULT for a state with ERROR, FAULT, ALARM or TRIP in its name, UNKNOWN where none was shown or the station is silent,
and else ON. PREFIX is smi where none is named. Nothing can be ordered there.

It needs PyTango (Debian: python3-tango).
"""

import os
import re
import sys
import threading
import time

sys.path.insert(0, os.path.dirname(os.path.abspath(__file__)))

import tango
import tango.server

import devices
import status

PERIOD = 0.5
# How long a TANGO device has to answer, in milliseconds.
PATIENCE = 3000
ALARM = re.compile(status.ALARM)


class TangoDevice:
    """A TANGO device, which is connected with again after it was away."""

    def __init__(self, where):
        self.where, self.proxy = where, None

    def called(self, call):
        """Returns what a call of the device answers."""
        try:
            if self.proxy is None:
                proxy = tango.DeviceProxy(self.where)
                proxy.set_timeout_millis(PATIENCE)
                self.proxy = proxy
            return call(self.proxy)
        except tango.DevFailed as failed:
            raise Failed(failed.args[0].desc.strip()) from None

    def state(self):
        try:
            return str(self.called(lambda proxy: proxy.state()))
        except Failed:
            self.proxy = None
            raise

    def command(self, word):
        self.called(lambda proxy: proxy.command_inout(word))


class Failed(Exception):
    """What TANGO says of a call that failed."""


def bridge_devices(console, path):
    """Runs until it is ended."""
    devices.keep(console, [(name, kind, TangoDevice(where)) for name, kind, where in devices.read_map(path)])


def scene_of(where):
    """What a screen shows now; none where it does not answer."""
    try:
        return status.Detector(status.fetched(where, "/api/tree", 5), status.fetched(where, "/api/picture", 5))
    except status.Unread:
        return None


class Scenes:
    """What a screen shows, looked at so often at most."""

    def __init__(self, where):
        self.where, self.scene, self.at, self.lock = where, None, 0.0, threading.Lock()

    def now(self):
        with self.lock:
            if time.monotonic() - self.at > PERIOD:
                self.scene, self.at = scene_of(self.where), time.monotonic()
            return self.scene


class SmiDomain(tango.server.Device):
    """A domain, as a screen shows it."""

    scenes, names = None, {}

    def init_device(self):
        super().init_device()
        self.domain = self.names[self.get_name().rpartition("/")[2].upper()]

    def told(self):
        """The scene and the domain in it; none where the screen does not answer."""
        scene = self.scenes.now()
        return (scene, scene.domains[self.domain]) if scene else (None, None)

    def is_silent(self, scene):
        return scene is None or scene.tree[self.domain]["station"] in scene.silent_stations()

    def dev_state(self):
        scene, domain = self.told()
        if self.is_silent(scene) or domain["shown"] is None:
            return tango.DevState.UNKNOWN
        state = domain["shown"]["state"]
        if ALARM.search(state):
            return tango.DevState.FAULT
        return getattr(tango.DevState, state, tango.DevState.ON)

    @tango.server.attribute(dtype=str)
    def smi_state(self):
        _, domain = self.told()
        return domain["shown"]["state"] if domain and domain["shown"] else ""

    @tango.server.attribute(dtype=str)
    def commander(self):
        scene, _ = self.told()
        return scene.commander(self.domain) if scene else "?"

    @tango.server.attribute(dtype=bool)
    def busy(self):
        _, domain = self.told()
        return bool(domain and domain["told"] and domain["told"]["busy"])

    @tango.server.attribute(dtype=int)
    def outcome(self):
        _, domain = self.told()
        return domain["told"]["outcome"] if domain and domain["told"] else 0

    @tango.server.attribute(dtype=float, doc="how long its station was not heard; negative where it never was")
    def silent_seconds(self):
        scene, _ = self.told()
        age = scene.age(scene.tree[self.domain]["station"]) if scene else None
        return -1.0 if age is None else age


def serve_domains(where, port, prefix):
    """Runs until it is ended."""
    scene = None
    while scene is None:
        scene = scene_of(where)
        if scene is None:
            time.sleep(PERIOD)
    SmiDomain.scenes, SmiDomain.names = Scenes(where), {name.upper(): name for name in scene.domains}
    names = ",".join("%s/domain/%s" % (prefix, name) for name in scene.domains)
    words = ["SmiDomain", "screen", "-ORBendPoint", "giop:tcp:127.0.0.1:%s" % port, "-nodb", "-dlist", names]
    tango.server.run((SmiDomain,), args=words)


def main():
    words = sys.argv[1:]
    if words[:1] == ["devices"] and len(words) == 3:
        bridge_devices(*words[1:])
    elif words[:1] == ["domains"] and len(words) in (3, 4):
        serve_domains(words[1], words[2], words[3] if len(words) == 4 else "smi")
    else:
        sys.exit("\n\n".join(__doc__.split("\n\n")[1:2]))


if __name__ == "__main__":
    try:
        main()
    except KeyboardInterrupt:
        pass
    except devices.Wrong as wrong:
        sys.exit(str(wrong))
