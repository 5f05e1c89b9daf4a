"""A device program: a high-voltage supply that ramps. It is a model of one: put your own supply in its place.

usage: supply.py WHERE DEVICE [SECONDS]

WHERE is the console of the node whose station keeps the DEVICE, of the class HIGH_VOLTAGE of detector.tree. The program
reports what the supply is in, off at first, and whenever the node has been started again. An action that sets the
device RAMPING begins a ramp, which takes SECONDS, 2 if none are given. When the supply has arrived, the program reports
it. A line `trip` on its standard input has the supply trip: ERROR. It prints each state that the supply comes into. If
the program ends, the node reports the device UNKNOWN, which is its last will.
"""

import os
import sys
import threading

sys.path.insert(0, os.path.join(os.path.dirname(os.path.abspath(__file__)), os.pardir, "tools"))

import lunskaf

# Where each action has the supply ramp to. It does nothing at an action that is not here.
GOALS = {"GO_STANDBY": "STANDBY", "CONFIGURE": "READY", "SWITCH_OFF": "OFF", "RECOVER": "OFF"}


class Supply:
    """A supply, the state that it is really in, and its ramp if it is on its way.

    Actions, the end of a ramp and trips come in threads of their own: one at a time changes the state and reports it,
    so that reports are in the order of the states.
    """

    def __init__(self, device, seconds):
        self.device, self.seconds = device, seconds
        self.state, self.ramp, self.turn = "OFF", None, threading.RLock()
        device.on_start(self.start)
        device.on(None, self.act)

    def halt(self):
        if self.ramp is not None:
            self.ramp.cancel()
        self.ramp = None

    def come_to(self, state):
        self.state = state
        print(self.device.name, state, flush=True)

    def report(self, state):
        """The supply has come into a state, which is printed once the node knows of it. If the node is away, that is
        reported once it is there again."""
        with self.turn:
            self.state = state
            try:
                self.device.report(state)
            except lunskaf.AWAY as away:
                print(away, file=sys.stderr)
            self.come_to(state)

    def start(self):
        """A node that has just begun does not know what the supply is in."""
        self.report(self.state)

    def act(self, acted):
        """It ramps, if that is what the action has it do. RECOVER does nothing if it has not tripped."""
        with self.turn:
            is_asked = acted.action in GOALS and (acted.action != "RECOVER" or self.state == "ERROR")
            if is_asked and acted.state == "RAMPING":
                self.halt()
                self.come_to("RAMPING")
                self.ramp = threading.Timer(self.seconds, self.arrive, [GOALS[acted.action]])
                self.ramp.daemon = True
                self.ramp.start()

    def arrive(self, state):
        """The ramp is at its end, if it was not halted."""
        with self.turn:
            if self.ramp is threading.current_thread():
                self.ramp = None
                self.report(state)

    def trip(self):
        with self.turn:
            self.halt()
            self.report("ERROR")


def trips(supply):
    for line in sys.stdin:
        if line.strip() == "trip":
            supply.trip()


def main():
    if len(sys.argv) not in (3, 4):
        sys.exit(__doc__.split("\n\n")[1])
    where, name = sys.argv[1:3]
    seconds = float(sys.argv[3]) if len(sys.argv) == 4 else 2.0
    with lunskaf.Node(where) as node:
        device = lunskaf.Device(node, name)
        supply = Supply(device, seconds)
        threading.Thread(target=trips, args=[supply], daemon=True).start()
        device.run()


if __name__ == "__main__":
    try:
        main()
    except KeyboardInterrupt:
        pass
