"""Programs that load parts of a map's counters, and what Linux answers: the number that each returns, or that it is refused.

A row has a program as this product takes it, and the bytes of the first value of map 0, of two counters. Linux gets an array of two
such values in the map's place. Loads of bytes of both counters at once have no row, nor have loads by a value's address that was changed:
Linux takes them, and this product refuses them.
"""
import ctypes
import os
import struct

from bpf_call import answered, bpf, slot

MAP_CREATE, MAP_UPDATE, ARRAY, VALUES = 0, 2, 2, 2
WIDE_LOAD, OF_MAP, LOOKUP = 0x18, 1, 1
COUNTER_BYTES = 8
# opcode, bytes
LOADS = [(0x71, 1), (0x69, 2), (0x61, 4), (0x91, 1), (0x89, 2), (0x81, 4)]
EXIT = slot(0x95)
VALUE = bytes(range(0x7A, 0x8A))  # the highest bit of some is set
PACKET = bytes(14)


def on_value(code):
    """`code` with the first value of map 0 in r0."""
    head = slot(0x62, 10, 0, -4) + slot(0xBF, 2, 10) + slot(0x07, 2, imm=-4) + slot(WIDE_LOAD, 1, OF_MAP) + slot(0)
    return head + slot(0x85, imm=LOOKUP) + slot(0x55, 0, 0, 1) + EXIT + code + EXIT


def crosses(off, size):
    """Whether bytes lie in two counters of the value."""
    return 0 <= off <= len(VALUE) - size and off % COUNTER_BYTES + size > COUNTER_BYTES


def programs():
    """Each load at each place, the upper half of what it leaves, and changes of a part."""
    for opcode, size in LOADS:
        for off in range(-1, len(VALUE) + 1):
            if not crosses(off, size):
                yield on_value(slot(opcode, 0, 0, off))
        for off in (0, COUNTER_BYTES - size, len(VALUE) - size):
            yield on_value(slot(opcode, 0, 0, off) + slot(0x77, 0, imm=32))
        yield on_value(slot(opcode, 6, 0, 2) + slot(0xBF, 0, 6))


def map_of(value):
    """An array whose first value has these bytes."""
    fd, _ = bpf(MAP_CREATE, struct.pack("<IIIII", ARRAY, 4, len(value), VALUES, 0))
    key, held = ctypes.create_string_buffer(4), ctypes.create_string_buffer(value, len(value))
    bpf(MAP_UPDATE, struct.pack("<IIQQQ", fd, 0, ctypes.addressof(key), ctypes.addressof(held), 0))
    return fd


def for_linux(code, fd):
    """The program with Linux's map in place of map 0."""
    head = slot(WIDE_LOAD, 1, OF_MAP)
    return code.replace(head, slot(WIDE_LOAD, 1, OF_MAP, imm=fd), 1)


def answer(code, fd):
    found = answered(for_linux(code, fd), PACKET)
    return "refused" if found is None else str(found[0])


def rows_of_parts():
    fd = map_of(VALUE)
    for code in programs():
        yield f"parts {code.hex()} {VALUE.hex()} = {answer(code, fd)}"
    os.close(fd)
