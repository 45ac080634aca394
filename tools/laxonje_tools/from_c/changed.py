"""Which variables a function stores to: those whose addresses reach a store's base, by way of registers and places of the stack."""
from __future__ import annotations

from typing import TYPE_CHECKING, Iterator

from .elf import MAP_ADDRESS
from .lines import MOVE, Fault, Line, following_in, lines_of, writes

if TYPE_CHECKING:
    from .elf import Relocation

FRAME = 10
LOADS, STORES, ARITHMETIC, ADD = 1, (2, 3), 7, 0  # classes of opcodes, and an operation
LOAD_DOUBLE, STORE_DOUBLE, BY_REGISTER = 0x79, 0x7B, 8
Where = tuple[bool, int]  # whether it is a place of the stack, and this, or a register


def stored_to(code: bytes, relocations: list[Relocation]) -> set[tuple[str, int]]:
    """The places of sections, as (section, place), whose addresses a store may use as they are or moved; none of a program that leads
    out of itself."""
    try:
        lines = lines_of(code, relocations)
    except Fault:
        return set()
    following = following_in(lines)
    named = [line for line in lines if line.row is not None and line.row.kind == MAP_ADDRESS and line.row.section]
    return {(line.row.section, line.row.place) for line in named if is_stored_to(line, following)}


def is_stored_to(named: Line, following: dict[Line, list[Line]]) -> bool:
    """Whether a store's base may be the address that a line gives."""
    todo = [(line, (False, named.destination)) for line in following[named]]
    seen = set(todo)
    while todo:
        line, place = todo.pop()
        if line.opcode & 7 in STORES and place == (False, line.destination):
            return True
        fresh = {(after, there) for there in places_after(line, place) for after in following[line]} - seen
        seen |= fresh
        todo += fresh
    return False


def places_after(line: Line, place: Where) -> Iterator[Where]:
    """Where an address stands after a line that stood somewhere in front of it."""
    on_stack, register = place
    is_kept = line.opcode & 7 == ARITHMETIC and line.opcode >> 4 != MOVE
    if on_stack or is_kept or not writes(line, register):
        if not (line.opcode == STORE_DOUBLE and line.destination == FRAME and place == (True, line.offset)):
            yield place
    if line.opcode == STORE_DOUBLE and line.destination == FRAME and place == (False, line.source):
        yield True, line.offset
    if line.opcode == LOAD_DOUBLE and line.source == FRAME and place == (True, line.offset):
        yield False, line.destination
    if line.opcode & 7 == ARITHMETIC and line.opcode & BY_REGISTER and line.opcode >> 4 in (MOVE, ADD) and place == (False, line.source):
        yield False, line.destination
