"""Keeps devices of a node by their hardware: what device programs and bridges have in common (docs/DEVICES.md).

`keep` is given devices, each as its name in the tree, its Kind and its hardware. Hardware has two methods: `state`
returns its own word for its state, and `command` has it do something. Whatever `state` raises means that it is away.

A map is a file that says the same of many devices:

    kind SUPPLY
    period 0.5
    state OFF OFF
    state ON READY
    away UNKNOWN
    action CONFIGURE On
    device PIXEL_HV WHERE

After `kind` is what its devices have in common: which state of the tree is reported for a state of the hardware, which
for hardware that is away or has a state that is not listed (`away`; without it nothing is reported), and which command
an action is. An action that is not listed does nothing. A command that fails is told on standard error; what state the
device is in then is for the hardware to say. Lines that begin with # are comments.

All devices share one connection with the node. Each has its `away` for a last will there: if the program ends, however
it ends, the node reports the device in that state.
"""

import queue
import sys
import threading
import time

import lunskaf

# How often the hardware is looked at if a kind does not say, in seconds.
PERIOD = 0.5


class Wrong(Exception):
    """A line of a map that is none."""


class Kind:
    """What devices of one kind have in common."""

    def __init__(self, states=(), actions=(), away=None, period=PERIOD):
        self.states, self.actions, self.away, self.period = dict(states), dict(actions), away, period

    def take(self, word, more):
        """Takes a line of a map, and returns true if it is one of a kind."""
        if word == "state" and len(more) == 2:
            self.states[more[0]] = more[1]
        elif word == "action" and len(more) == 2:
            self.actions[more[0]] = more[1]
        elif word == "away" and len(more) == 1:
            self.away = more[0]
        elif word == "period" and len(more) == 1:
            self.period = float(more[0])
        else:
            return False
        return True


def read_map(path):
    """Returns the devices of a map, each with its kind and where its hardware is."""
    kind, devices = None, []
    with open(path, encoding="ascii") as file:
        for number, line in enumerate(file, 1):
            word, *more = line.split() or ["#"]
            if word.startswith("#"):
                continue
            if word == "kind":
                kind = Kind()
            elif kind is None:
                raise Wrong("line %d: a kind comes first" % number)
            elif word == "device" and len(more) == 2:
                devices.append((more[0], kind, more[1]))
            elif not kind.take(word, more):
                raise Wrong("line %d: %s" % (number, line.strip()))
    return devices


class Kept:
    """A device that is kept. One thread does all with it, one thing after the other, so reports are in order."""

    def __init__(self, node, name, kind, hardware):
        self.node, self.name, self.kind, self.hardware = node, name, kind, hardware
        self.reported, self.complaints, self.asked, self.is_begun = None, {}, queue.Queue(), False
        threading.Thread(target=self.run, daemon=True).start()

    def run(self):
        while True:
            try:
                # nothing is reported before the node tells actions, because a device that is READY has to hear them
                deed, *words = self.asked.get(timeout=self.kind.period if self.is_begun else None)
            except queue.Empty:
                deed, words = self.look, ()
            deed(*words)

    def begin(self):
        """Reports the state again, because a node that has begun does not know it."""
        self.is_begun = True
        self.asked.put([self.look_again])

    def look_soon(self):
        """Looks at the hardware before its period is over, because it has something to tell."""
        if self.is_begun:
            self.asked.put([self.look])

    def act(self, action):
        """Has the hardware do what an action asks."""
        self.asked.put([self.command, action])

    def complain(self, about, error):
        """Tells what is wrong with the hardware, a command or the node, but not the same over and over."""
        text = "%s: %s" % (self.name, error)
        if text != self.complaints.get(about):
            print(text, file=sys.stderr, flush=True)
        self.complaints[about] = text

    def state(self):
        """Returns the state of the tree that the hardware is in, or None if nothing is to be reported."""
        try:
            state = self.hardware.state()
        # whatever is raised: a program that ended would leave its last state in the tree for ever
        except Exception as error:  # pylint: disable=broad-except
            self.complain("hardware", error)
            return self.kind.away
        self.complaints.pop("hardware", None)
        return self.kind.states.get(state, self.kind.away)

    def look(self):
        """Reports the state if it is another one than was reported last."""
        state = self.state()
        if state is None or state == self.reported:
            return
        try:
            self.node.report(self.name, state)
            self.reported = state
            self.complaints.pop("node", None)
        except lunskaf.FAILURES as error:
            self.reported = None
            self.complain("node", error)

    def look_again(self):
        self.reported = None
        self.look()

    def command(self, action):
        """Runs an action as a command. Then it reports the state again, because the tree has moved the device."""
        command = self.kind.actions.get(action)
        if command is not None:
            try:
                self.hardware.command(command)
                self.complaints.pop("command", None)
            except Exception as error:  # pylint: disable=broad-except
                self.complain("command", "%s: %s" % (command, error))
        self.look_again()


def give_wills(node, kept):
    """Gives the node the last will of each device. An older node takes none."""
    try:
        for one in kept:
            if one.kind.away is not None:
                node.will(one.name, one.kind.away)
    except lunskaf.Fault as fault:
        if fault.code not in lunskaf.UNKNOWN_LINE:
            raise
    except lunskaf.AWAY as away:
        # the next connection gives them
        print(away, file=sys.stderr, flush=True)


def keep(console, devices, on_made=lambda kept: None):
    """Keeps devices until the program is ended. `on_made` is called once with them all, by their names.

    A node that is full is told once on standard error, and tried again each second.
    """
    with lunskaf.Node(console) as node:
        kept = {name: Kept(node, name, kind, hardware) for name, kind, hardware in devices}
        on_made(kept)

        def begin():
            give_wills(node, kept.values())
            for one in kept.values():
                one.begin()

        is_full = False
        while True:
            try:
                for acted in node.actions(*kept, on_start=begin, own=False):
                    is_full = False
                    kept[acted.device].act(acted.action)
            except lunskaf.Missed as missed:
                print(missed, file=sys.stderr, flush=True)
            except lunskaf.Full as full:
                if not is_full:
                    print(full, file=sys.stderr, flush=True)
                is_full = True
                time.sleep(lunskaf.FULL_PAUSE)
