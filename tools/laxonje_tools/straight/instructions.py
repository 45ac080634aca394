"""Instructions: from bytes to fields and back, what each reads and writes, and what it computes of constants.

Names and numbers are those of RFC 9669, sections 3 to 5."""
from __future__ import annotations

import struct
from dataclasses import dataclass
from functools import cached_property
from typing import NamedTuple, Optional

MASK_64, MASK_32 = (1 << 64) - 1, (1 << 32) - 1
FRAME_POINTER, CONTEXT_ARGUMENT, REGISTERS = 10, 1, 11

# the classes: the three low bits of an opcode
LD, LDX, ST, STX, ALU, JMP, JMP32, ALU64 = range(8)
# operations of ALU and ALU64: the four high bits
ADD, SUB, MUL, DIV, OR, AND, LSH, RSH, NEG, MOD, XOR, MOV, ARSH, END = range(0x00, 0xE0, 0x10)
# operations of JMP and JMP32
JEQ, JGT, JGE, JSET, JNE, JSGT, JSGE = range(0x10, 0x80, 0x10)
JLT, JLE, JSLT, JSLE = range(0xA0, 0xE0, 0x10)
BY_REGISTER = 0x08

# whole opcodes
EXIT, CALL, JUMP, FAR_JUMP, WIDE_LOAD = 0x95, 0x85, 0x05, 0x06, 0x18
LOAD_WORD, LOAD_DOUBLE, STORE_DOUBLE, STORE_DOUBLE_CONSTANT, ATOMIC_DOUBLE = 0x61, 0x79, 0x7B, 0x7A, 0xDB
ATOMIC_WORD = 0xC3
FETCH, MEMSX = 0x01, 4  # of an atomic operation; the mode of a load with sign
MOVE_REGISTER, MOVE_CONSTANT = ALU64 | MOV | BY_REGISTER, ALU64 | MOV
ADD_REGISTER, ADD_CONSTANT, SUB_REGISTER = ALU64 | ADD | BY_REGISTER, ALU64 | ADD, ALU64 | SUB | BY_REGISTER
XOR_REGISTER, AND_CONSTANT = ALU64 | XOR | BY_REGISTER, ALU64 | AND
IF_EQUAL_CONSTANT, IF_ABOVE_CONSTANT, IF_ABOVE_REGISTER = JMP | JEQ, JMP | JGT, JMP | JGT | BY_REGISTER

ACCESS_SIZES = {0x00: 4, 0x08: 2, 0x10: 1, 0x18: 8}


class Table(NamedTuple):
    """Constants in memory: a section, and the part of it that one variable has."""

    name: str
    section: str
    data: bytes
    first: int
    end: int

    def number(self, place: int, load: Instruction) -> Optional[int]:
        """What a load gives from a place of the section; None outside of it."""
        raw = self.data[place : place + load.size] if place >= 0 else b""
        number = int.from_bytes(raw, "little")
        if len(raw) < load.size:
            return None
        return signed(number, 8 * load.size) & MASK_64 if load.with_sign else number


@dataclass(eq=False)
class Instruction:
    """One instruction, of one slot or, for a wide load, two."""

    opcode: int
    destination: int = 0
    source: int = 0
    offset: int = 0
    immediate: int = 0
    upper: Optional[int] = None  # the second slot's constant, of a wide load
    map: Optional[str] = None  # the map that its relocation names
    table: Optional[Table] = None  # of a wide load of the address of constants; where in the section is the immediate
    counter: Optional[str] = None  # of one of a global's address: the map that the global is here

    @cached_property
    def kind(self) -> int:
        """The instruction's class."""
        return self.opcode & 7

    @cached_property
    def operation(self) -> int:
        return self.opcode & 0xF0

    @cached_property
    def by_register(self) -> bool:
        return bool(self.opcode & BY_REGISTER)

    @property
    def slots(self) -> int:
        return 1 if self.upper is None else 2

    @cached_property
    def is_arithmetic(self) -> bool:
        return self.kind in (ALU, ALU64)

    @cached_property
    def is_load(self) -> bool:
        return self.kind == LDX

    @cached_property
    def is_store(self) -> bool:
        """Whether it stores, by itself or as an atomic operation."""
        return self.kind in (ST, STX)

    @cached_property
    def is_branch(self) -> bool:
        """Whether it is a jump with a condition."""
        return self.kind in (JMP, JMP32) and self.opcode not in (EXIT, CALL, JUMP)

    @cached_property
    def is_atomic(self) -> bool:
        """Whether it is an atomic operation."""
        return self.opcode in (ATOMIC_WORD, ATOMIC_DOUBLE)

    @property
    def fetches(self) -> bool:
        """Whether it is an atomic operation that loads what was there."""
        return self.opcode == ATOMIC_DOUBLE and bool(self.immediate & FETCH)

    @property
    def adds_word(self) -> bool:
        """Whether it is an atomic addition of four bytes, which there isn't here."""
        return self.opcode == ATOMIC_WORD and not self.immediate

    @property
    def with_sign(self) -> bool:
        """Whether it is a load that extends a sign."""
        return self.opcode >> 5 == MEMSX

    @cached_property
    def size(self) -> int:
        """How many bytes a load or a store reaches."""
        return ACCESS_SIZES[self.opcode & 0x18]

    @cached_property
    def base(self) -> int:
        """The register that has the address of a load or a store."""
        return self.source if self.is_load else self.destination

    def words(self, offset: Optional[int] = None) -> list[str]:
        """Its slots in hex, with another offset if one is given."""
        registers, offset = self.destination | self.source << 4, self.offset if offset is None else offset
        slots = [struct.pack("<BBhi", self.opcode, registers, offset, self.immediate)]
        if self.upper is not None:
            slots.append(struct.pack("<BBhi", 0, 0, 0, self.upper))
        return [slot.hex() for slot in slots]


Code = dict[int, Instruction]  # a program, by slots


def reads(instruction: Instruction) -> set[int]:
    """The registers that an instruction reads. A call is the map lookup: it has two arguments."""
    source = {instruction.source} if instruction.by_register else set()
    if instruction.opcode == EXIT:
        return {0}
    if instruction.opcode == CALL:
        return {1, 2}
    if instruction.opcode == JUMP or instruction.kind == LD:
        return set()
    if instruction.is_arithmetic and instruction.operation == MOV:
        return source
    if instruction.is_arithmetic and instruction.operation in (NEG, END):
        return {instruction.destination}
    if instruction.is_load:
        return {instruction.source}
    if instruction.kind == ST:
        return {instruction.destination}
    if instruction.kind == STX:
        return {instruction.destination, instruction.source}
    return {instruction.destination} | source


def writes(instruction: Instruction) -> set[int]:
    """The registers that an instruction writes, or leaves without a value."""
    if instruction.opcode == CALL:
        return set(range(6))
    if instruction.is_arithmetic or instruction.is_load or instruction.kind == LD:
        return {instruction.destination}
    return {instruction.source} if instruction.fetches else set()


def signed(value: int, bits: int = 64) -> int:
    """The number of two's complement that has these bits."""
    return (value & ((1 << (bits - 1)) - 1)) - (value & (1 << (bits - 1)))


ARITHMETIC = {
    ADD: lambda a, b, bits: a + b,
    SUB: lambda a, b, bits: a - b,
    MUL: lambda a, b, bits: a * b,
    DIV: lambda a, b, bits: a // b if b else 0,
    OR: lambda a, b, bits: a | b,
    AND: lambda a, b, bits: a & b,
    LSH: lambda a, b, bits: a << b % bits,
    RSH: lambda a, b, bits: a >> b % bits,
    NEG: lambda a, b, bits: -a,
    MOD: lambda a, b, bits: a % b if b else a,
    XOR: lambda a, b, bits: a ^ b,
    MOV: lambda a, b, bits: b,
    ARSH: lambda a, b, bits: signed(a, bits) >> b % bits,
}


def swapped(instruction: Instruction, value: int) -> int:
    """What a byte swap makes of a constant: to big end, to little end, or without condition."""
    raw = (value & ((1 << instruction.immediate) - 1)).to_bytes(instruction.immediate // 8, "little")
    return int.from_bytes(raw, "big" if instruction.by_register or instruction.kind == ALU64 else "little")


def compute(instruction: Instruction, a: int, b: int) -> Optional[int]:
    """What arithmetic leaves of two constants, or None if this text doesn't know it: signed division."""
    bits = 64 if instruction.kind == ALU64 else 32
    mask = (1 << bits) - 1
    if instruction.operation == END:
        return swapped(instruction, a)
    if instruction.offset:  # a move that extends a sign, or a signed division
        return signed(b, instruction.offset) & mask if instruction.operation == MOV else None
    return ARITHMETIC[instruction.operation](a & mask, b & mask, bits) & mask


CONDITIONS = {
    JEQ: lambda a, b, bits: a == b,
    JGT: lambda a, b, bits: a > b,
    JGE: lambda a, b, bits: a >= b,
    JSET: lambda a, b, bits: bool(a & b),
    JNE: lambda a, b, bits: a != b,
    JSGT: lambda a, b, bits: signed(a, bits) > signed(b, bits),
    JSGE: lambda a, b, bits: signed(a, bits) >= signed(b, bits),
    JLT: lambda a, b, bits: a < b,
    JLE: lambda a, b, bits: a <= b,
    JSLT: lambda a, b, bits: signed(a, bits) < signed(b, bits),
    JSLE: lambda a, b, bits: signed(a, bits) <= signed(b, bits),
}


def holds(instruction: Instruction, a: int, b: int) -> bool:
    """Whether a jump's condition holds of two constants."""
    bits = 64 if instruction.kind == JMP else 32
    mask = (1 << bits) - 1
    return CONDITIONS[instruction.operation](a & mask, b & mask, bits)
