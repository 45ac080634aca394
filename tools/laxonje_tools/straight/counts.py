"""`*counter += n`: a load, additions and a store of one counter, made one atomic addition.

In the place of the load stands `r = 0`: what is then computed is n, and the store adds it. No slot moves. It is right
if nothing between the two could see or change the counter, and where what was read is not used for anything else.
On a counter of a per-CPU map it is the same count; on a shared one Linux's program could lose counts and this can't."""
from __future__ import annotations

from typing import TYPE_CHECKING, NamedTuple, Optional

from .graph import following, live_registers, predecessors
from .instructions import (
    ADD_CONSTANT,
    ADD_REGISTER,
    ATOMIC_DOUBLE,
    LOAD_DOUBLE,
    MOVE_CONSTANT,
    MOVE_REGISTER,
    STORE_DOUBLE,
    Instruction,
    reads,
    writes,
)
from .kinds import VALUE, kinds_before
from .remembered import remembered

if TYPE_CHECKING:
    from .instructions import Code


def fused(code: Code, store: int) -> Optional[Code]:
    """The program with the store at this slot as an atomic addition, or None if that isn't the same."""
    put = code[store]
    load = load_before(code, store) if put.opcode == STORE_DOUBLE else None
    counted = None if load is None else registers_that_count(code, load, store)
    if not counted or put.source not in counted or put.destination in counted:
        return None
    if counted & live_registers(code)[store + 1]:
        return None
    return with_addition(code, load, store)


@remembered
def with_addition(code: Code, load: int, store: int) -> Code:
    """The same with 0 in the place of the load, and an addition in that of the store."""
    put = code[store]
    added = Instruction(ATOMIC_DOUBLE, put.destination, put.source, put.offset)
    return {**code, load: Instruction(MOVE_CONSTANT, code[load].destination), store: added}


@remembered
def jumped_to(code: Code) -> set[int]:
    """The slots to which jumps lead."""
    rows = ((before, after) for before, ways in following(code).items() for after in ways)
    return {after for before, after in rows if code[before].is_branch or after != before + code[before].slots}


def load_before(code: Code, store: int) -> Optional[int]:
    """The slot of the load of the same counter, on the one way to the store, after which nothing has an effect."""
    put, slot, targets = code[store], store, jumped_to(code)
    while slot - 1 in code and slot not in targets:
        slot -= 1
        instruction = code[slot]
        same = (instruction.source, instruction.offset) == (put.destination, put.offset)
        if instruction.opcode == LOAD_DOUBLE and same and instruction.destination != put.destination:
            return slot
        if not (instruction.is_arithmetic or instruction.is_load) or put.destination in writes(instruction):
            return None
    return None


def registers_that_count(code: Code, load: int, store: int) -> Optional[set[int]]:
    """The registers that hold the counter and a number, at the store; None if the counter is used otherwise."""
    counted = {code[load].destination}
    for slot in range(load + 1, store):
        instruction = code[slot]
        operands = {instruction.destination, instruction.source}
        if instruction.opcode == MOVE_REGISTER and instruction.source in counted:
            counted.add(instruction.destination)
        elif instruction.opcode == ADD_CONSTANT and instruction.destination in counted:
            continue
        elif instruction.opcode == ADD_REGISTER and len(operands & counted) == 1 and len(operands) == 2:
            counted.add(instruction.destination)
        elif reads(instruction) & counted:
            return None
        else:
            counted -= writes(instruction)
    return counted


class Difference(NamedTuple):
    """A store to a counter that is no count: the counter, None if it is one of several, and the slots that load
    or store it before, of which one is the last on a way. `told`: whether there are ways without one too."""

    counter: Optional[tuple]
    known: frozenset
    told: bool


def difference(code: Code, store: int, zeros: bool = False) -> Optional[Difference]:
    """How a store to a counter may become an addition of the difference from what is known to stand
    there, or from what is read there if nothing is known: there are ways on which nothing was loaded, or the value
    is that of one lookup or another. None if it isn't a counter. `zeros`: whether its address may be 0 where it isn't reached."""
    before = kinds_before(code, zeros)
    kinds = before.get(store, {})
    counter = kinds.counter(code[store]) if kinds else None
    if counter is None:
        in_value = kinds and kinds.get(code[store].base, ("",))[0] == VALUE
        return Difference(None, frozenset(), False) if in_value else None
    known, unknown, seen, todo, ways = set(), False, set(), [store], predecessors(code)
    while todo:
        for slot in ways[todo.pop()]:
            if slot in seen or slot not in before:
                continue
            seen.add(slot)
            instruction, kinds = code[slot], before[slot]
            loads = instruction.is_load or instruction.opcode == STORE_DOUBLE == code[store].opcode
            if loads and kinds.counter(instruction) == counter:
                known.add(slot)
            elif slot in (0, counter[0]) or instruction.is_store and kinds.get(instruction.base, ("",))[0] == VALUE:
                unknown = True
            else:
                todo.append(slot)
    return Difference(counter, frozenset(known), bool(known) and unknown)
