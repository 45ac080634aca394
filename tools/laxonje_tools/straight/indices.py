"""Indices: the number that is added to an address of a map of constants, or to that of a value."""
from __future__ import annotations

from typing import TYPE_CHECKING, NamedTuple, Optional, Sequence

from laxonje_tools.from_c.constants import room_behind

from .addresses import multiple_of
from .constants import VALUE, is_address
from .copies import Wide
from .instructions import ADD, ALU64, CALL, EXIT, JUMP, MOV, WIDE_LOAD, writes

if TYPE_CHECKING:
    from .addresses import Addresses
    from .copies import Copy
    from .instructions import Code, Instruction
    from .marks import Marks

COUNTER_BYTES = 8


class Index(NamedTuple):
    """An addition of a number to an address of constants: its slot, the number's register, and the most that it may be."""

    slot: int
    register: int
    most: int


def bound_index(code: Code, slot: int, settings: dict, marks: Marks) -> bool:
    """Marks the addition of an index in front of an access to constants, for a test of the index; whether that is new."""
    index = index_of(code, slot, settings)
    if index is None or index.most < 0:
        return False
    before = marks.wide.get(index.slot)
    if before is not None and (before.register != index.register or before.most <= index.most):
        return False
    marks.wide[index.slot] = Wide(index.register, False, index.most)
    return True


def index_of(code: Code, slot: int, settings: dict) -> Optional[Index]:
    """The index of an access to constants, by what was written last in front of it."""
    register, end = code[slot].base, code[slot].offset + code[slot].size
    at = last_write(code, slot, register)
    while at is not None and code[at].kind == ALU64:
        instruction = code[at]
        if instruction.operation == MOV and instruction.by_register:
            register = instruction.source
        elif instruction.operation == ADD and instruction.by_register:
            return index_added(code, at, end, settings)
        elif instruction.operation == ADD:
            end += instruction.immediate
        else:
            return None
        at = last_write(code, at, register)
    return None


def index_added(code: Code, at: int, end: int, settings: dict) -> Optional[Index]:
    """The index that this addition adds to an address. `end`: how far after the sum the bytes end that are read."""
    registers = code[at].destination, code[at].source
    for address, number in (registers, registers[::-1]):
        wide = last_write(code, at, address)
        if wide is None or code[wide].opcode != WIDE_LOAD or code[wide].source:
            continue
        room = room_behind(code[wide].immediate, settings["map"])
        if room is not None:
            return Index(at, number, room - end)
    return None


def last_write(code: Code, slot: int, register: int) -> Optional[int]:
    """The last slot in front of this one that writes a register; None if there is none."""
    return next((at for at in range(slot - 1, -1, -1) if at in code and register in writes(code[at])), None)


def places_in_value(here: Copy, code: Code, register: int, addresses: Addresses, settings: dict) -> Sequence[int]:
    """What a register can have that an addition at a copy adds to the address of a map's value, if the access behind it lies in the value."""
    addition = code[here.slot]
    address = addition.source if addition.destination == register else addition.destination
    known = here.constants.registers.get(address)
    if not is_address(known, VALUE) or known.map is None:
        return ()
    row = next(row for row in settings["map"] if row["name"] == known.map)
    stride = multiple_of(addresses.before[here].get(register)) or 1
    access = access_behind(code, here.slot)
    end = 1 if access is None else access.offset + access.size
    return range(0, COUNTER_BYTES * row.get("counters", 1) - known.offset - end + 1, stride)


def access_behind(code: Code, slot: int) -> Optional[Instruction]:
    """The first access through what an instruction gives, of those that surely follow it; None if there is none."""
    base, at = code[slot].destination, slot + code[slot].slots
    while at in code and not code[at].is_branch and code[at].opcode not in (CALL, EXIT, JUMP):
        if (code[at].is_load or code[at].is_store) and code[at].base == base:
            return code[at]
        if base in writes(code[at]):
            return None
        at += code[at].slots
    return None
