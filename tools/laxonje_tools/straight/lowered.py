"""Stores to counters that may leave less than what stood there: of these the difference that is added may be negative.

Two queues that subtract at once may take such a counter below 0, where it reads as nearly 2^64. In Linux both would
store the same number."""
from __future__ import annotations

from typing import TYPE_CHECKING, Union

from .graph import successors
from .instructions import ADD_CONSTANT, ALU64, FRAME_POINTER, MOVE_CONSTANT, MOVE_REGISTER, OR, STX, reads, writes

if TYPE_CHECKING:
    from .counts import Difference
    from .instructions import Code, Instruction

Home = Union[int, tuple[int]]  # a register, or a place of the stack


def may_lower(code: Code, store: int, row: Difference) -> bool:
    """Whether a store may leave less than what the counter was loaded as before it."""
    if row.told or not row.known or code[store].kind != STX:
        return True
    return code[store].source not in raised_before(code, row.known).get(store, frozenset())


def raised_before(code: Code, known: frozenset) -> dict[int, frozenset[int]]:
    """Of each slot the registers that hold at least what the counter was loaded as, or stored, at the last of the slots
    `known`, but for a sum that wraps."""
    before, todo = {0: frozenset()}, [0]
    while todo:
        slot = todo.pop()
        following = raised_after(code[slot], before[slot], slot in known)
        for after in successors(code, slot):
            met = before[after] & following if after in before else following
            if met != before.get(after):
                before[after] = met
                todo.append(after)
    return before


def raised_after(instruction: Instruction, raised: frozenset[int], is_known: bool) -> frozenset[int]:
    """The same after an instruction. `is_known`: whether it loads or stores the counter."""
    if is_known:
        return frozenset({instruction.destination if instruction.is_load else instruction.source})
    to = instruction.destination
    if instruction.opcode == MOVE_REGISTER and instruction.source in raised:
        return raised | {to}
    grows = instruction.opcode == ADD_CONSTANT and instruction.immediate >= 0
    if grows or instruction.kind == ALU64 and instruction.operation == OR:
        return raised
    return raised - writes(instruction)


# --- numbers that are computed from what was loaded


def is_computed(code: Code, store: int, row: Difference) -> bool:
    """Whether a store may leave a number that is computed from what the counter was loaded as: the difference is a count then."""
    if not row.known or code[store].kind != STX:
        return False
    return code[store].source in computed_before(code, row.known).get(store, frozenset())


def computed_before(code: Code, known: frozenset) -> dict[int, frozenset[Home]]:
    """Of each slot what may hold a number that is computed from what the counter was loaded as, or stored, at one of the slots `known`."""
    before, todo = {0: frozenset()}, [0]
    while todo:
        slot = todo.pop()
        following = computed_after(code[slot], before[slot], slot in known)
        for after in successors(code, slot):
            either = before.get(after, frozenset()) | following
            if after not in before or either != before[after]:
                before[after] = either
                todo.append(after)
    return before


def computed_after(instruction: Instruction, held: frozenset[Home], is_known: bool) -> frozenset[Home]:
    """The same after an instruction. `is_known`: whether it loads or stores the counter."""
    to = instruction.destination
    if is_known:
        return held | {to if instruction.is_load else instruction.source}
    if instruction.is_store and to == FRAME_POINTER:
        place = (instruction.offset,)
        return held | {place} if instruction.source in held else held - {place}
    if instruction.is_load and instruction.source == FRAME_POINTER:
        return held | {to} if (instruction.offset,) in held else held - {to}
    if instruction.is_arithmetic and instruction.opcode != MOVE_CONSTANT and held & reads(instruction):
        return held | {to}
    return held - writes(instruction)
