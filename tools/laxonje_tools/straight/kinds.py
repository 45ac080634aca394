"""Which stores surely don't go to the stack: those through an address of the packet or of a map's value, on all ways. And which loads are
of constants in memory.

All other stores whose place isn't known may change what is known of the stack."""
from __future__ import annotations

from typing import TYPE_CHECKING, Optional

from .few import Few
from .graph import following
from .instructions import (
    ADD,
    ALU64,
    CALL,
    CONTEXT_ARGUMENT,
    FRAME_POINTER,
    LOAD_DOUBLE,
    LOAD_WORD,
    MOV,
    STORE_DOUBLE,
    SUB,
    WIDE_LOAD,
    signed,
    writes,
)
from .remembered import remembered

if TYPE_CHECKING:
    from .instructions import Code, Instruction

CONTEXT, FRAME, PACKET, VALUE, ZERO, CONSTANT = "context", "frame", "packet", "value", "zero", "constant"
AMONG = "among"  # one of a few places of the stack
START_FIELDS = (0, 8)  # of the context: data and data_meta


class Kinds(dict):
    """What address registers hold, and the stack's slots by ("stack", offset): its kind; and for one of the
    stack the distance from the frame's end, or the least and the greatest one, for a map's value who gave it and the distance, or None. Who
    gave it is the slot of a lookup, or of an addition of an index. `zeros`: whether registers that are 0 have a kind; `few`: what registers can
    have."""

    def __init__(self, rows: dict, zeros: bool, few: Few) -> None:
        super().__init__(rows)
        self.zeros, self.few = zeros, few

    def stack_offset(self, access: Instruction) -> Optional[int]:
        kind, offset = self.get(access.base, ("", None))
        return offset + access.offset if kind == FRAME and offset is not None else None

    def put(self, place: object, kind: Optional[tuple]) -> None:
        self.pop(place, None)
        if kind is not None:
            self[place] = kind

    def forget_stack(self, low: Optional[int] = None, high: Optional[int] = None) -> None:
        for place in [place for place in self if isinstance(place, tuple)]:
            if low is None or place[1] < high and low < place[1] + 8:
                del self[place]

    def after(self, slot: int, instruction: Instruction) -> Kinds:
        following = Kinds(self, self.zeros, self.few)
        if instruction.is_arithmetic:
            following.put(instruction.destination, self.result(slot, instruction))
        elif instruction.is_load:
            following.put(instruction.destination, self.loaded(instruction))
        elif instruction.is_store:
            following.store(instruction)
        else:
            for register in writes(instruction):
                following.put(register, None)
            if instruction.opcode == CALL:
                following.put(0, (VALUE, (slot, 0)))
            elif instruction.opcode == WIDE_LOAD and instruction.map is None:
                following.put(instruction.destination, (CONSTANT, None))
        return following

    def result(self, slot: int, instruction: Instruction) -> Optional[tuple]:
        a, b = self.get(instruction.destination), self.get(instruction.source) if instruction.by_register else None
        if instruction.kind != ALU64 or instruction.offset or instruction.operation not in (MOV, ADD, SUB):
            return None
        if instruction.operation == MOV:
            return (ZERO, None) if self.zeros and not instruction.by_register and instruction.immediate == 0 else b
        if a and b or b and instruction.operation == SUB:
            return None
        kind, place = a or b or ("", None)
        if kind == FRAME and place is not None and instruction.by_register:
            return self.among(slot, instruction, place, instruction.source if a else instruction.destination)
        constant = instruction.immediate * (1 if instruction.operation == ADD else -1)
        if place is None or instruction.by_register:
            # a place in a map's value that this slot makes
            place = (slot, 0) if kind == VALUE else None
        else:
            place = place + constant if kind == FRAME else (place[0] + constant * (kind == AMONG), place[1] + constant)
        return (kind, place) if kind in (FRAME, AMONG, PACKET, VALUE, CONSTANT) and (kind, place) != (AMONG, None) else None

    def among(self, slot: int, addition: Instruction, place: int, register: int) -> tuple:
        """An address of the stack to which a number is added."""
        numbers = [signed(number) for number in self.few.numbers(slot, register)] if addition.operation == ADD else []
        return (AMONG, (place + min(numbers), place + max(numbers))) if numbers else (FRAME, None)

    def loaded(self, load: Instruction) -> Optional[tuple]:
        if self.get(load.source, ("",))[0] == CONTEXT and load.opcode == LOAD_WORD and load.offset in START_FIELDS:
            return PACKET, None
        return self.get(("stack", self.stack_offset(load))) if load.opcode == LOAD_DOUBLE else None

    def store(self, store: Instruction) -> None:
        at, base = self.stack_offset(store), self.get(store.destination, ("", None))
        if base[0] == AMONG:
            self.forget_stack(base[1][0] + store.offset, base[1][1] + store.offset + store.size)
        elif at is not None:
            kind = self.get(store.source) if store.opcode == STORE_DOUBLE else None
            self.forget_stack(at, at + store.size)
            self.put(("stack", at), kind)
        elif not self.is_elsewhere(store):
            self.forget_stack()
        if store.fetches:
            self.put(store.source, None)

    def is_elsewhere(self, store: Instruction) -> bool:
        return self.get(store.destination, ("",))[0] in (PACKET, VALUE)

    def counter(self, access: Instruction) -> Optional[tuple]:
        """The counter that an access reaches: who gave its value, and how far in it it lies; or None."""
        kind, place = self.get(access.base, ("", None))
        return (place[0], place[1] + access.offset) if kind == VALUE and place is not None else None

    def met(self, other: Kinds) -> Kinds:
        """What holds on both of two ways. What is 0 on one of them is none that is reached."""
        both = {place: (kind, other[place]) for place, kind in self.items() if place in other}
        both = {place: (other if one[0] == ZERO else one, one if other[0] == ZERO else other) for place, (one, other) in both.items()}
        same = {place: one if one == two else (one[0], None) for place, (one, two) in both.items() if one[0] == two[0]}
        return Kinds({place: kind for place, kind in same.items() if kind != (AMONG, None)}, self.zeros, self.few)


@remembered
def kinds_before(code: Code, zeros: bool = False) -> dict[int, Kinds]:
    """The kinds before each slot that can be reached. `zeros`: whether an address on some ways that is 0 on others is one."""
    ways = following(code)
    before, todo = {0: Kinds({CONTEXT_ARGUMENT: (CONTEXT, None), FRAME_POINTER: (FRAME, 0)}, zeros, Few(code))}, [0]
    while todo:
        slot = todo.pop()
        kinds = before[slot].after(slot, code[slot])
        for after in ways[slot]:
            met = before[after].met(kinds) if after in before else kinds
            if met != before.get(after):
                before[after] = met
                todo.append(after)
    return before


def stores_elsewhere(code: Code) -> set[int]:
    """The slots of the stores that surely don't go to the stack."""
    return {slot for slot in accesses_elsewhere(code) if code[slot].is_store}


def accesses_elsewhere(code: Code) -> set[int]:
    """The slots of these, and of the loads of constants in memory."""
    before = kinds_before(code)
    stores = {slot for slot, kinds in before.items() if code[slot].is_store and kinds.is_elsewhere(code[slot])}
    return stores | {slot for slot, kinds in before.items() if code[slot].is_load and kinds.get(code[slot].source, ("",))[0] == CONSTANT}


def accesses_in_packets(code: Code) -> set[int]:
    """The slots of accesses that may be in the packet."""
    accesses = ((slot, kinds.get(code[slot].base, ("",))) for slot, kinds in kinds_before(code).items() if code[slot].is_load or code[slot].is_store)
    return {slot for slot, kind in accesses if kind[0] not in (VALUE, FRAME, AMONG, CONTEXT, CONSTANT)}
