"""A master with pymodbus, for host/clients: makes one request and prints what came of it as a line, or makes many (soak).

    clients_pymodbus.py DEVICE STATION MILLISECONDS 01|02|03|04 START QUANTITY    prints the values
                                                    05|06 START VALUE             prints "written"
                                                    0F|10 START VALUE...          prints "written"
                                                    07                            (a function that the station does not have)
                                                    soak SEED COUNT               prints what was counted

An exception prints "exception" and its code, a time-out "silent".
"""
import logging
import math
import random
import sys

from pymodbus.client import ModbusSerialClient
from pymodbus.exceptions import ModbusIOException

SPEED = 19200
WORD_BITS = 16

# What the soak reads and writes: a read-write area of the stand, and the most of a request.
SOAK_FIRST = 200
SOAK_WORDS = 200
SOAK_MOST_WORDS = 80
SOAK_MOST_BITS = 256

READS = ("01", "02", "03", "04")
WRITES_OF_ONE = ("05", "06")
WRITES_OF_RUNS = ("0F", "10")
OF_BITS = ("01", "02", "05", "0F")


def make_request(master, station, function, start, values):
    """The reply to a request; `values` is the quantity of a read, alone, or what is written."""
    calls = {
        "01": lambda: master.read_coils(start, values[0], slave=station),
        "02": lambda: master.read_discrete_inputs(start, values[0], slave=station),
        "03": lambda: master.read_holding_registers(start, values[0], slave=station),
        "04": lambda: master.read_input_registers(start, values[0], slave=station),
        "05": lambda: master.write_coil(start, bool(values[0]), slave=station),
        "06": lambda: master.write_register(start, values[0], slave=station),
        "07": lambda: master.read_exception_status(slave=station),
        "0F": lambda: master.write_coils(start, [bool(v) for v in values], slave=station),
        "10": lambda: master.write_registers(start, values, slave=station),
    }
    return calls[function]()


def values_of(function, reply, quantity):
    """The values that a reply to a read carries, without the spare bits."""
    if function in OF_BITS:
        return [int(bit) for bit in reply.bits[:quantity]]
    return reply.registers


def said(function, reply, quantity):
    """What came of a request, as a line."""
    if isinstance(reply, ModbusIOException):
        return "silent"
    if reply.isError():
        return f"exception {reply.exception_code}"
    if function in READS:
        return " ".join(str(value) for value in values_of(function, reply, quantity))
    return "written"


def draw_request(draw):
    """A function, a start and values (for a read: the quantity) inside the soak's area."""
    function = draw.choice(READS + WRITES_OF_ONE + WRITES_OF_RUNS)
    of_bits = function in OF_BITS
    width = WORD_BITS if of_bits else 1
    most = SOAK_MOST_BITS if of_bits else SOAK_MOST_WORDS
    count = 1 if function in WRITES_OF_ONE else draw.randint(1, most)
    start = draw.randint(SOAK_FIRST * width, (SOAK_FIRST + SOAK_WORDS) * width - count)
    if function in READS:
        return function, start, [count]
    return function, start, [draw.randrange(2 if of_bits else 65536) for _ in range(count)]


def store(bits, function, start, values):
    """Writes values into the image that the soak keeps, a list of bits from the area's first on."""
    if function in OF_BITS:
        at = start - SOAK_FIRST * WORD_BITS
        bits[at : at + len(values)] = values
        return
    at = (start - SOAK_FIRST) * WORD_BITS
    bits[at : at + len(values) * WORD_BITS] = [value >> k & 1 for value in values for k in range(WORD_BITS)]


def held(bits, function, start, quantity):
    """The values that a read should give."""
    if function in OF_BITS:
        at = start - SOAK_FIRST * WORD_BITS
        return bits[at : at + quantity]
    first = start - SOAK_FIRST
    return [sum(bits[w * WORD_BITS + k] << k for k in range(WORD_BITS)) for w in range(first, first + quantity)]


def soak(master, station, seed, count):
    """The area is written once, so that what it holds is known; then come drawn reads and writes."""
    draw = random.Random(seed)
    bits = [0] * (SOAK_WORDS * WORD_BITS)
    lost = wrong = 0
    for at in range(0, SOAK_WORDS, SOAK_MOST_WORDS):
        zeros = [0] * min(SOAK_MOST_WORDS, SOAK_WORDS - at)
        lost += make_request(master, station, "10", SOAK_FIRST + at, zeros).isError()
    for _ in range(count):
        function, start, values = draw_request(draw)
        reply = make_request(master, station, function, start, values)
        if reply.isError():
            lost += 1
        elif function in READS:
            wrong += values_of(function, reply, values[0]) != held(bits, function, start, values[0])
        else:
            store(bits, function, start, values)
    return f"{count} requests, {lost} lost, {wrong} wrong"


def main():
    device, station, milliseconds, what, *words = sys.argv[1:]
    numbers = [int(word) for word in words]
    logging.disable(logging.CRITICAL)
    # It knows time-outs of whole seconds only.
    seconds = math.ceil(int(milliseconds) / 1000)
    master = ModbusSerialClient(device, baudrate=SPEED, parity="N", timeout=seconds, retries=0)
    master.connect()
    if what == "soak":
        print(soak(master, int(station), *numbers))
    else:
        start, *values = numbers or [0]
        reply = make_request(master, int(station), what, start, values)
        print(said(what, reply, values[0] if values else 0))
    master.close()


main()
