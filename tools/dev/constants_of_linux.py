"""Programs that read constants, and what Linux answers: the number that each returns on a packet and the packet that it leaves, or
that it is refused.

A row has a program as this product takes it: byte i of the constants of map m is at the address START + STRIDE * m + i. Linux gets a
wide load of a map's value in its place (RFC 9669, section 5.4: src_reg 2), and each map's constants as an array of one value, which
programs only read and which is frozen, as libbpf makes of `.rodata`. No program takes an address past the end, which Linux refuses.
"""
import ctypes
import os
import struct

from bpf_call import answered, bpf, slot

START, STRIDE = 0x3800_0000, 0x1_0000
MAP_CREATE, MAP_UPDATE, MAP_FREEZE, ARRAY, READ_ONLY = 0, 2, 22, 2, 1 << 7
WIDE_LOAD, MAP_VALUE = 0x18, 2
# opcode, bytes, opcode of a store of as many
LOADS = [(0x71, 1, 0x73), (0x69, 2, 0x6B), (0x61, 4, 0x63), (0x79, 8, 0x7B), (0x91, 1, 0x73), (0x89, 2, 0x6B), (0x81, 4, 0x63)]
EXIT = slot(0x95)
FEW = bytes(range(0x81, 0x8A))  # the highest bit of each is set
TABLE = bytes((7 * at + 3) * (at + 1) % 256 for at in range(32))
PACKET = bytes(range(0x10, 0x1E))
ASKED = 3  # the byte of the packet that says what is read


def wide(dst, number):
    return slot(WIDE_LOAD, dst, imm=number) + slot(0)


def on_packet(code):
    """`code` with the packet in r2 and its byte in r5, or else 2 for a packet that is too short."""
    head = slot(0x61, 2, 1, 0) + slot(0x61, 3, 1, 4) + slot(0xBF, 4, 2) + slot(0x07, 4, imm=len(PACKET))
    return head + slot(0x3D, 3, 4, 2) + slot(0xB7, 0, imm=2) + EXIT + slot(0x71, 5, 2, ASKED) + code


def with_byte(byte):
    return PACKET[:ASKED] + bytes([byte]) + PACKET[ASKED + 1 :]


def at_known_places():
    """A load at each end, beyond each end, and both halves of the number; of the second of two maps."""
    for opcode, size, _ in LOADS:
        for place, off in ((0, 0), (len(FEW) - size, 0), (0, len(FEW) - size), (4, -4), (8, 1 - size), (8, 2 - size), (0, -1)):
            yield wide(1, START + place) + slot(opcode, 0, 1, off) + EXIT, [FEW], PACKET
        yield wide(1, START + 1) + slot(opcode, 0, 1) + slot(0x77, 0, imm=32) + EXIT, [FEW], PACKET
        for map_, off in ((0, 0), (0, 4 - size), (0, 5 - size), (1, 0), (1, -1)):
            yield wide(1, START + STRIDE * map_) + slot(opcode, 0, 1, off) + EXIT, [bytes(FEW[:4]), FEW], PACKET


def at_numbers():
    """A load at a place that the packet says, bounded by a mask or by a jump; of rows of eight bytes; by an address that was spilled."""
    for opcode, size, _ in LOADS:
        for mask in (0x1F, 0x18, 0x3F):
            code = slot(0x57, 5, imm=mask) + wide(6, START) + slot(0x0F, 6, 5) + slot(opcode, 0, 6) + EXIT
            yield from ((on_packet(code), [TABLE], with_byte(byte)) for byte in (0, 9, 0xFF))
        for most in (len(TABLE) - size, len(TABLE) - size + 1):
            code = slot(0x25, 5, 0, 5, most) + wide(6, START) + slot(0x0F, 6, 5) + slot(opcode, 0, 6) + EXIT + slot(0xB7, 0, imm=7) + EXIT
            yield from ((on_packet(code), [TABLE], with_byte(byte)) for byte in (0, most, most + 1))
        for off in (8 - size, 9 - size, -1):
            code = slot(0x57, 5, imm=3) + slot(0x67, 5, imm=3) + wide(6, START) + slot(0x0F, 6, 5) + slot(opcode, 0, 6, off) + EXIT
            yield from ((on_packet(code), [TABLE], with_byte(byte)) for byte in (0, 3))
        code = slot(0x57, 5, imm=0x18) + wide(6, START) + slot(0x0F, 6, 5) + slot(0x7B, 10, 6, -8) + slot(0x79, 7, 10, -8) + slot(opcode, 0, 7) + EXIT
        yield on_packet(code), [TABLE], with_byte(0x0F)


def written():
    """What is read is written to the packet; constants aren't written or added to."""
    for opcode, _, store in LOADS:
        code = slot(0x57, 5, imm=0xF) + wide(6, START + 7) + slot(0x0F, 6, 5) + slot(opcode, 7, 6, 1) + slot(store, 2, 7, 4) + slot(0xB7, 0, imm=2) + EXIT
        yield from ((on_packet(code), [TABLE], with_byte(byte)) for byte in (0, 0xA))
    for change in (*(slot(opcode, 1, 2) for opcode in (0x73, 0x6B, 0x63, 0x7B, 0xDB)), *(slot(opcode, 1, imm=5) for opcode in (0x72, 0x6A, 0x62, 0x7A))):
        yield wide(1, START) + slot(0xB7, 2, imm=5) + change + slot(0xB7, 0, imm=2) + EXIT, [FEW], PACKET


def summed():
    """A sum over places of a table, and one over two maps."""
    code = wide(6, START) + slot(0xB7, 0)
    for place in range(0, len(TABLE), 5):
        code += slot(0x71, 8, 6, place) + slot(0x27, 0, imm=3) + slot(0x0F, 0, 8)
    yield code + EXIT, [TABLE], PACKET
    loads = wide(1, START) + wide(2, START + STRIDE) + slot(0x69, 0, 1, 2) + slot(0x61, 3, 2, 5)
    yield loads + slot(0x0F, 0, 3) + EXIT, [bytes(FEW[:4]), FEW], PACKET


def map_of(constants):
    """A frozen array of one value."""
    fd, _ = bpf(MAP_CREATE, struct.pack("<IIIII", ARRAY, 4, len(constants), 1, READ_ONLY))
    key, value = ctypes.create_string_buffer(4), ctypes.create_string_buffer(constants, len(constants))
    bpf(MAP_UPDATE, struct.pack("<IIQQQ", fd, 0, ctypes.addressof(key), ctypes.addressof(value), 0))
    bpf(MAP_FREEZE, struct.pack("<I", fd))
    return fd


def for_linux(code, maps):
    """The program with wide loads of maps' values in place of the addresses of constants."""
    slots = [code[at : at + 8] for at in range(0, len(code), 8)]
    for at, text in enumerate(slots):
        number = struct.unpack_from("<I", text, 4)[0] - START
        if text[0] == WIDE_LOAD and 0 <= number < STRIDE * len(maps):
            slots[at] = slot(WIDE_LOAD, text[1], MAP_VALUE, imm=maps[number // STRIDE])
            slots[at + 1] = slot(0, imm=number % STRIDE)
    return b"".join(slots)


def answer(code, maps, packet):
    found = answered(for_linux(code, maps), packet)
    return "refused" if found is None else f"{found[0]} {found[1].hex()}"


def rows_of_constants():
    for programs in (at_known_places(), at_numbers(), written(), summed()):
        for code, constants, packet in programs:
            maps = [map_of(bytes_) for bytes_ in constants]
            yield f"constants {code.hex()} {packet.hex()} {','.join(it.hex() for it in constants)} = {answer(code, maps, packet)}"
            for fd in maps:
                os.close(fd)
