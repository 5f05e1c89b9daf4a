"""A model of a crate with 48 channels of high voltage: what examples/channel.py and examples/crate_device.py speak to.

usage: crate.py PATH [SECONDS]

It listens at a socket with this path. A line `STATE N`, `STANDBY N`, `ON N`, `OFF N` or `TRIP N` is answered with the
state of channel N: OFF, STANDBY, RAMPING, ON or TRIP. A ramp takes so many SECONDS, 1 if none are given.
"""

import os
import socketserver
import sys
import time

CHANNELS = 48
STATES = {"OFF": "OFF", "STANDBY": "STANDBY", "ON": "RAMPING", "TRIP": "TRIP"}


class Crate(socketserver.ThreadingUnixStreamServer):
    """The channels, each as its state and when its ramp ends."""

    daemon_threads = True

    def __init__(self, path, seconds):
        super().__init__(path, Client)
        self.seconds, self.channels = seconds, {str(number): ("OFF", 0.0) for number in range(1, CHANNELS + 1)}

    def answer(self, word, channel):
        """Does what a line says, and returns the state of the channel then."""
        state, until = self.channels[channel]
        if word in STATES:
            state, until = STATES[word], time.monotonic() + self.seconds
        elif state == "RAMPING" and time.monotonic() > until:
            state = "ON"
        self.channels[channel] = state, until
        return state


class Client(socketserver.StreamRequestHandler):
    """A connection, whose lines are answered one after the other."""

    def handle(self):
        for line in self.rfile:
            words = line.decode("ascii", "replace").split()
            is_line = len(words) == 2 and words[1] in self.server.channels
            self.wfile.write((self.server.answer(*words) if is_line else "?").encode() + b"\n")


def main():
    if len(sys.argv) not in (2, 3):
        sys.exit(__doc__.split("\n\n")[1])
    if os.path.exists(sys.argv[1]):
        os.remove(sys.argv[1])
    Crate(sys.argv[1], float(sys.argv[2]) if len(sys.argv) == 3 else 1.0).serve_forever()


if __name__ == "__main__":
    main()
