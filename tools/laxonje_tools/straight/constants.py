"""Which constants registers and stack slots have at a slot, and what an instruction makes of them.

A constant is a number, or an `Address` that is known as far as copies need it."""
from __future__ import annotations

from typing import TYPE_CHECKING, AbstractSet, Container, NamedTuple, Optional, Union

from .instructions import (
    ADD,
    ALU64,
    CALL,
    CONTEXT_ARGUMENT,
    END,
    FRAME_POINTER,
    JEQ,
    JGE,
    JGT,
    JLE,
    JLT,
    JMP,
    JNE,
    LOAD_DOUBLE,
    LOAD_WORD,
    MASK_32,
    MASK_64,
    MOV,
    NEG,
    STORE_DOUBLE,
    STORE_DOUBLE_CONSTANT,
    STX,
    SUB,
    WIDE_LOAD,
    compute,
    holds,
    signed,
)

if TYPE_CHECKING:
    from .instructions import Instruction

# FAR: so far after the packet's start that it lies past every packet's end. VALUE: of a map, with the distance that
# the original added and the result adds to the offset of each access instead. NONE: 0, as a lookup gave it
FRAME, CONTEXT, PACKET_END, FAR, VALUE, MAP, NONE = "frame", "context", "packet's end", "far", "value", "map", "none"
# what is followed of lookups: their results, or also of which map these are
RESULTS, MAPS = 1, 2
END_FIELD = 4  # of the context
MAP_ARGUMENT = 1  # of a lookup: its register
ORDERED = {JEQ, JGT, JGE, JNE, JLT, JLE}


class Address(NamedTuple):
    base: str  # one of the names above
    offset: int = 0
    map: Optional[str] = None  # of a map, or of a value if maps are followed


Constant = Union[int, Address]


def is_number(value: object) -> bool:
    return isinstance(value, int)


def is_address(value: object, *bases: str) -> bool:
    return isinstance(value, Address) and value.base in bases


class Constants:
    """The constants at one slot: of registers, and of stack slots by their offset from the frame's end.

    values  what is followed of lookups: RESULTS, MAPS, or nothing
    passed  how often the way to here came by named slots, as (name, times) in order"""

    def __init__(
        self, registers: dict[int, Constant], stack: dict[int, Constant], values: int = 0, passed: tuple = ()
    ) -> None:
        self.registers, self.stack, self.values, self.passed = registers, stack, values, passed

    @classmethod
    def at_start(cls, values: int = 0) -> Constants:
        return cls({CONTEXT_ARGUMENT: Address(CONTEXT), FRAME_POINTER: Address(FRAME)}, {}, values)

    @classmethod
    def at_end(cls, values: int) -> Constants:
        """Where the program ends whatever there was."""
        return cls({FRAME_POINTER: Address(FRAME)}, {}, values)

    def with_register(self, register: int, value: Constant) -> Constants:
        return Constants({**self.registers, register: value}, self.stack, self.values, self.passed)

    def passing(self, name: object) -> Constants:
        """The same after a named slot."""
        times = dict(self.passed)
        times[name] = times.get(name, 0) + 1
        return Constants(self.registers, self.stack, self.values, tuple(sorted(times.items(), key=repr)))

    def times(self, name: object) -> int:
        return dict(self.passed).get(name, 0)

    def kept(self, wanted: AbstractSet[int], registers: Container[int], places: Optional[Container[int]], names: Container) -> Constants:
        """Those of the wanted registers, of which numbers only of these, and those of the stack, numbers only in these
        places, in all if they are None; and what was passed of these names."""
        kept = {r: v for r, v in self.registers.items() if r in wanted and (r in registers or not isinstance(v, int))}
        stack = self.stack
        if places is not None and stack:
            stack = {at: v for at, v in stack.items() if at in places or not isinstance(v, int)}
        passed = tuple(row for row in self.passed if row[0] in names) if self.passed else ()
        return Constants(kept, stack, self.values, passed)

    def with_stack(self, wanted: AbstractSet[int]) -> Constants:
        """Those of the stack in these places alone."""
        if wanted.issuperset(self.stack):
            return self
        return Constants(self.registers, {at: v for at, v in self.stack.items() if at in wanted}, self.values, self.passed)

    def key(self) -> tuple:
        """What tells constants apart. Sets keep their hashes."""
        return frozenset(self.registers.items()), frozenset(self.stack.items()), self.passed

    def operands(self, instruction: Instruction) -> tuple[Optional[Constant], Optional[Constant]]:
        """The two operands of arithmetic or of a jump, None if they aren't constant."""
        second = self.registers.get(instruction.source) if instruction.by_register else instruction.immediate & MASK_64
        return self.registers.get(instruction.destination), second

    def stack_offset(self, instruction: Instruction) -> Optional[int]:
        """Where on the stack a load or a store begins, or None."""
        base = self.registers.get(instruction.base)
        return base.offset + instruction.offset if is_address(base, FRAME) else None

    def decided(self, jump: Instruction) -> Optional[bool]:
        """Whether a jump with a condition is taken, if constants say so."""
        a, b = self.operands(jump)
        if is_number(a) and is_number(b):
            return holds(jump, a, b)
        if b == 0 and jump.kind == JMP and jump.operation in (JEQ, JNE) and is_address(a, NONE):
            return jump.operation == JEQ
        if jump.kind == JMP and jump.operation in ORDERED:
            if is_address(a, FAR) and a.offset >= 0 and is_address(b, PACKET_END):
                return holds(jump, 2, 1)
            if is_address(a, PACKET_END) and is_address(b, FAR) and b.offset >= 0:
                return holds(jump, 1, 2)
        return None

    def after_none(self, jump: Instruction, way: int) -> Constants:
        """The same on a way of a jump, where what a lookup gave may have been found to be 0."""
        is_test = jump.kind == JMP and jump.operation in (JEQ, JNE) and not jump.by_register and jump.immediate == 0
        found = self.registers.get(jump.destination)
        if not is_test or bool(way) != (jump.operation == JEQ) or not is_address(found, VALUE) or found.offset:
            return self
        return self.with_register(jump.destination, Address(NONE))

    # --- after an instruction

    def after(self, instruction: Instruction, elsewhere: bool = False) -> Constants:
        """`elsewhere`: of a store, whether it surely doesn't go to the stack."""
        following = Constants(dict(self.registers), dict(self.stack), self.values, self.passed)
        if instruction.is_arithmetic:
            following._put(instruction.destination, self._result(instruction))
        elif instruction.is_load:
            following._put(instruction.destination, self._loaded(instruction))
        elif instruction.opcode == WIDE_LOAD:
            following._put(instruction.destination, self._wide(instruction))
        elif instruction.is_store:
            following._store(instruction, elsewhere)
        elif instruction.opcode == CALL:
            looked_in = self.registers.get(MAP_ARGUMENT)
            for register in range(6):
                following._put(register, None)
            name = looked_in.map if is_address(looked_in, MAP) else None
            following._put(0, Address(VALUE, 0, name) if self.values else None)
        return following

    def _put(self, register: int, value: Optional[Constant]) -> None:
        if value is None:
            self.registers.pop(register, None)
        else:
            self.registers[register] = value

    def _result(self, instruction: Instruction) -> Optional[Constant]:
        """What arithmetic leaves, or None."""
        a, b = self.operands(instruction)
        wide = instruction.kind == ALU64
        if instruction.operation == MOV:
            if is_number(b):
                return compute(instruction, 0, b)
            return b if wide and not instruction.offset else None
        if instruction.operation in (NEG, END):
            return compute(instruction, a, 0) if is_number(a) else None
        if is_number(a) and is_number(b):
            return compute(instruction, a, b)
        if wide and instruction.operation in (ADD, SUB) and is_address(a, FRAME, FAR, VALUE) and is_number(b):
            return a._replace(offset=a.offset + signed(b) * (1 if instruction.operation == ADD else -1))
        if wide and instruction.operation == ADD and is_number(a) and is_address(b, VALUE):
            return b._replace(offset=b.offset + signed(a))
        return None

    def _wide(self, instruction: Instruction) -> Optional[Constant]:
        """What a wide load gives: a map, a number, or None."""
        if instruction.map is not None and self.values == MAPS:
            return Address(MAP, 0, instruction.map)
        if instruction.source or instruction.map is not None:
            return None
        return instruction.immediate & MASK_32 | (instruction.upper & MASK_32) << 32

    def _loaded(self, load: Instruction) -> Optional[Constant]:
        base = self.registers.get(load.source)
        if is_address(base, CONTEXT) and load.opcode == LOAD_WORD and load.offset == END_FIELD:
            return Address(PACKET_END)
        if is_address(base, FRAME) and load.opcode == LOAD_DOUBLE:
            return self.stack.get(base.offset + load.offset)
        return None

    def _store(self, store: Instruction, elsewhere: bool) -> None:
        at = self.stack_offset(store)
        if at is not None:
            for slot in [slot for slot in self.stack if slot < at + store.size and at < slot + 8]:
                del self.stack[slot]
            value = self.registers.get(store.source) if store.kind == STX else store.immediate & MASK_64
            if store.opcode in (STORE_DOUBLE, STORE_DOUBLE_CONSTANT) and value is not None:
                self.stack[at] = value
        elif not elsewhere:
            self.stack.clear()
        if store.fetches:
            self._put(store.source, None)
