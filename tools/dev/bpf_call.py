"""Linux's system call bpf(), and the slots of programs (RFC 9669, section 3.1)."""
import ctypes
import os
import struct

SYS_BPF, PROG_LOAD, PROG_TEST_RUN, TYPE_XDP = 321, 5, 10, 6
LIBC = ctypes.CDLL(None, use_errno=True)
MOST_LEFT = 1 << 12  # bytes of a packet as a program leaves it


class Attributes(ctypes.Structure):
    _fields_ = [("bytes", ctypes.c_ubyte * 128)]


def slot(opcode, dst=0, src=0, off=0, imm=0):
    return struct.pack("<BBhi", opcode, dst | src << 4, off, imm)


def bpf(command, attributes):
    attr = Attributes()
    ctypes.memmove(attr.bytes, attributes, len(attributes))
    found = LIBC.syscall(SYS_BPF, command, ctypes.byref(attr), len(attr.bytes))
    if found < 0:
        raise OSError(ctypes.get_errno(), os.strerror(ctypes.get_errno()))
    return found, bytes(attr.bytes)


def load(code):
    text, license_text = ctypes.create_string_buffer(code, len(code)), ctypes.create_string_buffer(b"GPL")
    fd, _ = bpf(PROG_LOAD, struct.pack("<IIQQ", TYPE_XDP, len(code) // 8, ctypes.addressof(text), ctypes.addressof(license_text)))
    return fd


def run(fd, packet):
    """The number that a program answers on a packet, and the packet as it leaves it."""
    data, left = ctypes.create_string_buffer(packet, len(packet)), ctypes.create_string_buffer(MOST_LEFT)
    given = struct.pack("<IIIIQQII", fd, 0, len(packet), MOST_LEFT, ctypes.addressof(data), ctypes.addressof(left), 1, 0)
    _, after = bpf(PROG_TEST_RUN, given)
    return struct.unpack_from("<I", after, 4)[0], left.raw[: struct.unpack_from("<I", after, 12)[0]]


def answered(code, packet):
    """What a program answers on a packet, as `run` has it; None if Linux refuses the program."""
    try:
        program = load(code)
    except PermissionError:
        return None
    try:
        return run(program, packet)
    finally:
        os.close(program)
