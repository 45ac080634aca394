"""Makes slots of a BPF program of text, as `xdpbox` and llvm-objdump print it: `r0 += 7`, `w5 ^= w3`, `r4 = be16 r4`,
`r3 = *(u8 *)(r2 + 12)`, `*(u64 *)(r10 - 8) = r3`, `if r3 > 7 goto +1`, `if w3 > 7 goto +1`, `goto +1`, `exit`."""
import functools
import re
import struct

ALU, ALU64, LOAD, STORE, JUMP, JUMP32, EXIT, BIG_ENDIAN, REGISTER = 0x04, 0x07, 0x61, 0x63, 0x05, 0x06, 0x95, 0xDC, 0x08
OPERATIONS = {"+=": 0x00, "-=": 0x10, "*=": 0x20, "/=": 0x30, "|=": 0x40, "&=": 0x50, "<<=": 0x60, ">>=": 0x70,
              "%=": 0x90, "^=": 0xA0, "=": 0xB0}
CONDITIONS = {"==": 0x10, ">": 0x20, ">=": 0x30, "!=": 0x50, "<": 0xA0, "<=": 0xB0}
SIZES = {"u32": 0x00, "u16": 0x08, "u8": 0x10, "u64": 0x18}


def slot(code, to=0, of=0, offset=0, constant=0):
    return struct.pack("<BBhi", code, of << 4 | to, offset, constant)


def with_operand(code, to, operand, offset=0):
    """An instruction whose second operand is a register, as `r3` or `w3`, or a constant."""
    if operand[0] in "rw":
        return slot(code | REGISTER, to, int(operand[1:]), offset)
    return slot(code, to, 0, offset, int(operand))


def load(to, size, base, sign, offset):
    return slot(LOAD | SIZES[size], int(to), int(base), int(sign + offset))


def store(size, base, sign, offset, of):
    return slot(STORE | SIZES[size], int(base), int(of), int(sign + offset))


def operation(width, to, name, operand):
    return with_operand((ALU64 if width == "r" else ALU) | OPERATIONS[name], int(to), operand)


def jump_if(width, first, condition, operand, distance):
    return with_operand((JUMP if width == "r" else JUMP32) | CONDITIONS[condition], int(first), operand, int(distance))


MEMORY = r"\*\((u\d+) \*\)\(r(\d+) ([+-]) (\d+)\)"
FORMS = [
    (rf"r(\d+) = {MEMORY}", load),
    (rf"{MEMORY} = r(\d+)", store),
    (r"r(\d+) = be(\d+) r\1", lambda to, bits: slot(BIG_ENDIAN, int(to), 0, 0, int(bits))),
    (r"([rw])(\d+) (\S+) ([rw]?-?\d+)", operation),
    (r"if ([rw])(\d+) (\S+) ([rw]?\d+) goto \+(\d+)", jump_if),
    (r"goto \+(\d+)", lambda distance: slot(JUMP, offset=int(distance))),
    (r"exit", lambda: slot(EXIT)),
]


@functools.cache
def assembled(text):
    """The slot of one instruction."""
    for form, make in FORMS:
        found = re.fullmatch(form, text)
        if found:
            return make(*found.groups())
    raise ValueError(f"no instruction: {text}")
