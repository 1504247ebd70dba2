"""The mill's controller, played by pymodbus: client.py PATH. It asks for what client.c asks for, and prints the same."""

import sys

from pymodbus.client import ModbusSerialClient
from pymodbus.exceptions import ModbusIOException
from pymodbus.pdu import ExceptionResponse

STATION = 1
OTHER_STATION = 2


def tell(what, answer):
    """What came of a request: its registers if it read some, the exception's code, or silence."""
    if isinstance(answer, ExceptionResponse):
        told = f"exception {answer.exception_code}"
    elif isinstance(answer, ModbusIOException):
        told = "silence"
    elif hasattr(answer, "registers"):
        told = " ".join(str(register) for register in answer.registers)
    else:
        told = "done"
    print(f"{what}: {told}")


def mask(line, address, and_mask, or_mask):
    # Of the calls, this one alone knows the station as a unit.
    return line.mask_write_register(address, and_mask, or_mask, unit=STATION)


def use_registers(line):
    def read_them():
        tell("read them", line.read_holding_registers(100, 3, slave=STATION))

    tell("read before", line.read_holding_registers(100, 3, slave=STATION))
    tell("write 3 registers", line.write_registers(100, [1, 2, 3], slave=STATION))
    read_them()
    tell("write one", line.write_register(101, 0x0012, slave=STATION))
    tell("mask it", mask(line, 101, 0x00F2, 0x0025))
    read_them()


def use_most(line):
    most = [1000 + i for i in range(123)]
    tell("write 123 registers", line.write_registers(4096 - 123, most, slave=STATION))
    tell("read 125", line.read_holding_registers(4096 - 125, 125, slave=STATION))
    tell("read the last", line.read_holding_registers(8191, 1, slave=STATION))


def clear(line):
    tell("clear 3 registers", line.write_registers(100, [0] * 3, slave=STATION))
    tell("clear 123", line.write_registers(4096 - 123, [0] * 123, slave=STATION))


def be_refused(line):
    tell("another function", line.read_input_registers(100, 1, slave=STATION))
    tell("read none", line.read_holding_registers(100, 0, slave=STATION))
    tell("read behind the last", line.read_holding_registers(8191, 2, slave=STATION))
    tell("write behind the last", line.write_register(4096, 1, slave=STATION))
    tell("write across it", line.write_registers(4095, [0, 0], slave=STATION))
    tell("mask behind it", mask(line, 4096, 0, 1))
    tell("another station", line.read_holding_registers(100, 1, slave=OTHER_STATION))


def main():
    line = ModbusSerialClient(sys.argv[1], baudrate=19200, timeout=2, retries=0)
    line.connect()
    use_registers(line)
    use_most(line)
    clear(line)
    be_refused(line)
    line.close()


main()
