"""A bridge to Modbus TCP: devices of a node that are registers of a PLC.

usage: modbus_bridge.py CONSOLE MAP

CONSOLE is a node's console, a path or A.B.C.D:PORT. The head of tools/devices.py has the lines of a MAP. In

    kind SUPPLY
    state 0 OFF
    state 2 READY
    away UNKNOWN
    action CONFIGURE 1
    device PIXEL_HV 10.20.0.40:502/1/100/101

the last word is HOST:PORT/UNIT/STATE/COMMAND. UNIT is the number of the unit at that place. STATE is the holding
register in which the PLC has the state, a number; with an `i` before it, as `i100`, it is an input register. COMMAND is
the holding register into which the number of an action is written. Both are numbered from 0, as in the protocol.

All devices of one place share one connection, and one asks at a time. A place that does not answer is left alone for a
second, so that one device alone waits for it and the others are away at once.

It needs pymodbus (Debian: python3-pymodbus and python3-serial-asyncio).
"""

import logging
import os
import re
import sys
import threading
import time

sys.path.insert(0, os.path.dirname(os.path.abspath(__file__)))

from pymodbus.client import ModbusTcpClient
from pymodbus.exceptions import ModbusException

import devices

# How long a place has to answer, and how long it is left alone after it did not, in seconds.
PATIENCE, PAUSE = 2, 1
WHERE = re.compile(r"([^/]+):(\d+)/(\d+)/(i?)(\d+)/(\d+)")


class Away(Exception):
    """A place does not answer, or refuses."""


class Plc:
    """A connection with a place, which is made again after it was lost. One device asks at a time."""

    def __init__(self, host, port):
        self.where, self.turn, self.again = "%s:%d" % (host, port), threading.Lock(), 0.0
        self.client = ModbusTcpClient(host, port=port, timeout=PATIENCE, retries=0)

    def ask(self, question):
        """Returns what the place answers to a question, which is a call of the client."""
        with self.turn:
            if time.monotonic() < self.again:
                raise Away("%s does not answer" % self.where)
            try:
                # what it raises if there is no connection is of no one kind
                answer = question(self.client) if self.client.connect() else None
            except (ModbusException, OSError) as error:
                answer = error
            if answer is None or isinstance(answer, Exception):
                # what comes later on this connection would answer another question
                self.client.close()
                self.again = time.monotonic() + PAUSE
                raise Away("%s does not answer" % self.where)
        if answer.isError():
            raise Away("%s refuses: %s" % (self.where, answer))
        return answer


class Registers:
    """A device as two registers of a PLC: one has its state, and the other takes commands."""

    def __init__(self, plc, unit, is_input, state_at, command_at):
        self.plc, self.unit, self.is_input = plc, unit, is_input
        self.state_at, self.command_at = state_at, command_at

    def state(self):
        """Returns the number of the state, in digits."""
        def read(client):
            call = client.read_input_registers if self.is_input else client.read_holding_registers
            return call(self.state_at, count=1, slave=self.unit)
        return str(self.plc.ask(read).registers[0])

    def command(self, word):
        self.plc.ask(lambda client: client.write_register(self.command_at, int(word), slave=self.unit))


def hardware_of(found):
    """Returns the devices of a map with their registers. Devices of one place share its connection."""
    plcs, made = {}, []
    for name, kind, where in found:
        parts = WHERE.fullmatch(where)
        if parts is None:
            raise devices.Wrong("%s: %s is not HOST:PORT/UNIT/STATE/COMMAND" % (name, where))
        host, port, unit, is_input, state_at, command_at = parts.groups()
        wrong = [it for it in kind.actions.values() if not it.isdigit()]
        if wrong:
            raise devices.Wrong("%s: an action is a number, and not %s" % (name, wrong[0]))
        plc = plcs.setdefault((host, port), Plc(host, int(port)))
        made.append((name, kind, Registers(plc, int(unit), bool(is_input), int(state_at), int(command_at))))
    return made


def main():
    if len(sys.argv) != 3:
        sys.exit("\n\n".join(__doc__.split("\n\n")[1:2]))
    # a place that is away is told once, and not by each of its calls
    logging.getLogger("pymodbus").setLevel(logging.CRITICAL)
    devices.keep(sys.argv[1], hardware_of(devices.read_map(sys.argv[2])))


if __name__ == "__main__":
    try:
        main()
    except KeyboardInterrupt:
        pass
    except devices.Wrong as wrong:
        sys.exit(str(wrong))
