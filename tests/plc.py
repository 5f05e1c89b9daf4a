"""A PLC of pymodbus with supplies, and reads and writes of its registers: what tests/modbus_test.py runs.

usage: plc.py --serve PORT
       plc.py --read PORT REGISTER
       plc.py --write PORT REGISTER NUMBER

Supply K has its state in register 2 K, and takes commands in register 2 K + 1. States are 0 off, 1 ramping, 2 on and 9
tripped; commands are 1 on, 2 off and 9 trip. A ramp takes half a second.
"""

import logging
import sys
import time

SUPPLIES, RAMP = 50, 0.5
STATES = {1: 1, 2: 0, 9: 9}


def serve(port):
    """Runs a server of the supplies."""
    from pymodbus.datastore import ModbusSequentialDataBlock, ModbusServerContext, ModbusSlaveContext
    from pymodbus.server import StartTcpServer

    class Supplies(ModbusSequentialDataBlock):
        def __init__(self):
            super().__init__(0, [0] * 2 * SUPPLIES)
            self.until = {}

        def setValues(self, address, values):
            super().setValues(address, values)
            command = values[0] if isinstance(values, list) else values
            if address % 2 and command in STATES:
                self.values[address - 1] = STATES[command]
                self.until[address - 1] = time.monotonic() + RAMP

        def getValues(self, address, count=1):
            for place in range(address, address + count):
                if self.values[place] == 1 and place % 2 == 0 and time.monotonic() > self.until[place]:
                    self.values[place] = 2
            return super().getValues(address, count)

    block = Supplies()
    store = ModbusSlaveContext(hr=block, ir=block, zero_mode=True)
    StartTcpServer(context=ModbusServerContext(slaves=store, single=True), address=("127.0.0.1", int(port)))


def client_at(port):
    from pymodbus.client import ModbusTcpClient

    logging.getLogger("pymodbus").setLevel(logging.CRITICAL)
    client = ModbusTcpClient("127.0.0.1", port=int(port), timeout=2)
    return client if client.connect() else sys.exit("no server")


def main():
    word, port, *numbers = sys.argv[1:]
    numbers = [int(it) for it in numbers]
    if word == "--serve":
        serve(port)
    elif word == "--read":
        print(client_at(port).read_holding_registers(numbers[0], count=1, slave=1).registers[0])
    else:
        client_at(port).write_register(*numbers, slave=1)


if __name__ == "__main__":
    main()
