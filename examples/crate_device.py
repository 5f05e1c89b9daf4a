"""One program for all channels of the crate of examples/crate.py: the n-th DEVICE that is named is channel n.

usage: crate_device.py CONSOLE CRATE DEVICE..

CONSOLE is that of the node whose station keeps the devices, CRATE the path of the crate's socket. All channels share
one connection with the crate, and all devices one with the node.
"""

import os
import sys
import threading
import time

sys.path.insert(0, os.path.join(os.path.dirname(os.path.abspath(__file__)), os.pardir, "tools"))

import devices
import lunskaf
from channel import HIGH_VOLTAGE

# How long the crate has to answer, and how long it is left alone after it did not, in seconds.
PATIENCE, PAUSE = 2, 1


class Crate:
    """A connection with the crate, which is made again after it was lost. One channel asks at a time."""

    def __init__(self, path):
        self.path, self.answers, self.socket, self.turn, self.again = path, None, None, threading.Lock(), 0.0

    def ask(self, word, number):
        """Returns what the crate answers to a word for a channel."""
        with self.turn:
            # one channel alone waits for a crate that hangs, and the others are away at once
            if time.monotonic() < self.again:
                raise lunskaf.Lost("the crate does not answer")
            try:
                if self.socket is None:
                    self.socket = lunskaf.connected(self.path, PATIENCE)
                    self.socket.settimeout(PATIENCE)
                    self.answers = self.socket.makefile()
                self.socket.sendall(("%s %d\n" % (word, number)).encode())
                answer = self.answers.readline()
                if not answer:
                    raise lunskaf.Lost("the crate has ended the connection")
                return answer.strip()
            except (OSError, lunskaf.Lost):
                # what comes later on this connection would answer another question
                self.socket, self.again = None, time.monotonic() + PAUSE
                raise


class Channel:
    """A channel of a crate."""

    def __init__(self, crate, number):
        self.crate, self.number = crate, number

    def state(self):
        return self.crate.ask("STATE", self.number)

    def command(self, word):
        self.crate.ask(word, self.number)


def main():
    if len(sys.argv) < 4:
        sys.exit(__doc__.split("\n\n")[1])
    crate = Crate(sys.argv[2])
    channels = [(name, HIGH_VOLTAGE, Channel(crate, number)) for number, name in enumerate(sys.argv[3:], 1)]
    devices.keep(sys.argv[1], channels)


if __name__ == "__main__":
    main()
