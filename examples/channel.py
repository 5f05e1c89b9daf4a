"""A device program: one channel of the crate of examples/crate.py.  usage: channel.py CONSOLE CRATE DEVICE CHANNEL"""
import os, sys
sys.path.insert(0, os.path.join(os.path.dirname(os.path.abspath(__file__)), os.pardir, "tools"))
import devices, lunskaf

HIGH_VOLTAGE = devices.Kind(
    states={"OFF": "OFF", "STANDBY": "STANDBY", "RAMPING": "RAMPING", "ON": "READY", "TRIP": "ERROR"}, away="UNKNOWN",
    actions={"GO_STANDBY": "STANDBY", "CONFIGURE": "ON", "SWITCH_OFF": "OFF", "RECOVER": "OFF"}, period=0.2)

class Channel:
    def __init__(self, crate, number):
        self.crate, self.number = crate, number
    def command(self, word):
        with lunskaf.connected(self.crate, 2) as line:
            line.settimeout(2)
            line.sendall(("%s %s\n" % (word, self.number)).encode())
            return line.makefile().readline().strip()
    def state(self):
        return self.command("STATE")

if __name__ == "__main__":
    devices.keep(sys.argv[1], [(sys.argv[3], HIGH_VOLTAGE, Channel(sys.argv[2], sys.argv[4]))])
