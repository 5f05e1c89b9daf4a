"""Plays what a crew does on the simulator and writes it down as a schedule, with every delivery in it.

usage: record.py SMI TREE PLAN > SCHEDULE

A line of PLAN is one of a schedule, after which every datagram that was sent and not lost is delivered, in the order
in which they were sent, until none is left; or one of these:

    place NAME                        a comment of the schedule, by which tests/shift.py finds the place
    tick all                          a tick of each station
    report all DOMAIN STATE           a report of each device of the domain
    lose KIND NAME LINE               LINE, in which the first datagram of that kind about that name is not delivered
    stop STATION at KIND NAME LINE    LINE, in which the station stops after it has saved what such a datagram asks
    together LINE; LINE..             all of these lines, and only then the deliveries

Comments stand in the schedule as they stand here.
"""

import os
import subprocess
import sys
import tempfile

import hierarchy

# Deliveries end after this many rounds, or the plan never does.
ROUNDS = 100


class Recorder:
    """The lines of a schedule so far, and which datagrams were delivered or lost."""

    def __init__(self, program, tree, path):
        self.program, self.tree, self.path = program, tree, path
        self.lines, self.done = [], set()

    def sent(self):
        """The datagrams that the lines so far have sent: number, kind, sender, receiver and name."""
        with open(self.path, "w", encoding="ascii") as file:
            file.write("\n".join(self.lines) + "\n")
        words = [self.program, "sim", self.tree, self.path]
        told = subprocess.run(words, stdout=subprocess.PIPE, check=True).stdout.decode()
        return [tuple(line.split()[1:]) for line in told.splitlines() if line.startswith("sent ")]

    def deliver(self, lost=None, stopping=None):
        """Delivers all that is under way, but the first `lost` one; the first `stopping` one stops its receiver."""
        for _ in range(ROUNDS):
            waiting = [it for it in self.sent() if it[0] not in self.done]
            if not waiting:
                return
            for number, kind, _, receiver, name in waiting:
                self.done.add(number)
                if (kind, name) == lost:
                    lost = None
                elif (receiver, kind, name) == stopping:
                    self.lines.append("stop %s after deliver %s" % (receiver, number))
                    stopping = None
                else:
                    self.lines.append("deliver %s" % number)
        sys.exit("record.py: there is always one more datagram")


def made_of(line, tree):
    """The lines of the schedule that a line of the plan stands for."""
    words = line.split()
    if words[0] == "together":
        return [one.strip() for one in " ".join(words[1:]).split(";")]
    if words == ["tick", "all"]:
        return ["tick " + name for name in tree.stations]
    if words[:2] == ["report", "all"]:
        return ["report %s %s" % (device, words[3]) for device in tree.devices_of(words[2])]
    return [line]


def play(recorder, line, tree):
    """One line of the plan."""
    words = line.split()
    lost = stopping = None
    if not words or words[0].startswith("#"):
        recorder.lines.append(line)
        return
    if words[0] == "place":
        recorder.lines.append("# " + line)
        return
    if words[0] == "lose":
        lost, line = tuple(words[1:3]), " ".join(words[3:])
    elif words[0] == "stop" and words[2] == "at":
        stopping, line = (words[1], *words[3:5]), " ".join(words[5:])
    recorder.lines += made_of(line, tree)
    recorder.deliver(lost, stopping)


def schedule(program, tree, plan):
    """The schedule of a plan, as lines."""
    with tempfile.TemporaryDirectory() as folder, open(plan, encoding="ascii") as file:
        recorder = Recorder(os.path.abspath(program), os.path.abspath(tree), os.path.join(folder, "schedule"))
        known = hierarchy.read(tree)
        for line in file:
            play(recorder, line.rstrip("\n"), known)
    return recorder.lines


def main():
    if len(sys.argv) != 4:
        sys.exit(__doc__.split("\n\n")[1])
    print("\n".join(schedule(*sys.argv[1:])))


if __name__ == "__main__":
    main()
