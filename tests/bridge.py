"""A server of two power supplies of TANGO, and calls of TANGO devices: what tests/bridge_test.py runs with PyTango.

usage: bridge.py --serve PORT
       bridge.py --call PORT DEVICE WORD
"""

import sys
import time


def serve(port):
    """Runs a server of two power supplies, which ramp for half a second."""
    import tango
    import tango.server

    class Supply(tango.server.Device):
        def init_device(self):
            super().init_device()
            self.until, self.starts = 0.0, 0
            self.set_state(tango.DevState.OFF)

        def dev_state(self):
            if self.until and time.monotonic() > self.until:
                self.until = 0.0
                self.set_state(tango.DevState.ON)
            return self.get_state()

        @tango.server.attribute(dtype=int)
        def started(self):
            return self.starts

        @tango.server.command
        def On(self):
            self.starts += 1
            self.until = time.monotonic() + 0.5
            self.set_state(tango.DevState.MOVING)

        @tango.server.command
        def Off(self):
            self.until = 0.0
            self.set_state(tango.DevState.OFF)

        @tango.server.command
        def Trip(self):
            self.until = 0.0
            self.set_state(tango.DevState.FAULT)

    words = ["Supply", "test", "-ORBendPoint", "giop:tcp:127.0.0.1:%s" % port, "-nodb", "-dlist",
             "test/supply/hv,test/supply/lv"]
    tango.server.run((Supply,), args=words)


def call(port, name, word):
    """Gives a command to a supply, or prints what an attribute of it or of a domain says."""
    import tango

    device = tango.DeviceProxy("tango://127.0.0.1:%s/%s#dbase=no" % (port, name))
    if word == "State":
        print(device.state())
    elif word[0].isupper():
        device.command_inout(word)
    else:
        print(device.read_attribute(word).value)


def main():
    if sys.argv[1] == "--serve":
        serve(sys.argv[2])
    else:
        call(*sys.argv[2:])


if __name__ == "__main__":
    main()
