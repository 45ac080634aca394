"""Tests in front of accesses to the packet, which `--guard` asks for: the program ends with ABORTED if an access would reach outside.

They are written into the program before all else: what is made of it is shown to be the same as the program with them."""
from __future__ import annotations

from typing import TYPE_CHECKING, AbstractSet, Iterator, NamedTuple, Optional

from .graph import live_registers
from .instructions import (
    ADD_CONSTANT,
    CONTEXT_ARGUMENT,
    EXIT,
    FRAME_POINTER,
    IF_ABOVE_REGISTER,
    LOAD_DOUBLE,
    LOAD_WORD,
    MOVE_CONSTANT,
    MOVE_REGISTER,
    ST,
    STORE_DOUBLE,
    Instruction,
)
from .lines import Line, in_place_of, jump_target
from .own_stack import STACK_BYTES
from .parts import COUNTER_BYTES

if TYPE_CHECKING:
    from .instructions import Code

GUARDED = "guarded: if this would reach outside the packet, the program ends with ABORTED"
MOST_GUARDS, WORDS = 16, 3  # of a program; of the stack: for the context, and for two registers
END_FIELD, ABORTED = 4, 0  # of the context; of the answers


class Guarded(NamedTuple):
    """Settings with tests, and of each of their slots the slot of the program as it was."""

    settings: dict
    origins: list[int]


def with_guards(settings: dict, code: Code, slots: list[int], top: int) -> Optional[Guarded]:
    """Settings with tests in front of accesses at these slots; None if the stack has no room. `top`: below this place of it the program
    has nothing."""
    if top - COUNTER_BYTES * WORDS < -STACK_BYTES:
        return None
    live, end = live_registers(code), max(code) + code[max(code)].slots
    rows = {slot: [Line(insn, jump_target(slot, insn))] for slot, insn in code.items()}
    for slot in slots:
        rows[slot] = [*guard(code[slot], live[slot], top, end), *rows[slot]]
    rows[0] = [Line(Instruction(STORE_DOUBLE, FRAME_POINTER, CONTEXT_ARGUMENT, top - COUNTER_BYTES)), *rows[0]]
    rows[end] = [Line(Instruction(MOVE_CONSTANT, 0, 0, 0, ABORTED)), Line(Instruction(EXIT))]
    made = in_place_of(settings, rows)
    return Guarded(made.settings, made.origins)


def guard(access: Instruction, live: AbstractSet[int], top: int, end: int) -> Iterator[Line]:
    """The test in front of an access: whether what it reaches ends behind the packet. `end`: the slot to which it leads then."""
    own = {access.base} if access.is_load or access.kind == ST else {access.base, access.source}
    usable = sorted((register for register in range(FRAME_POINTER) if register not in own), key=lambda register: register in live)
    reached, behind = usable[:2]
    kept = [(register, top - COUNTER_BYTES * (at + 2)) for at, register in enumerate((reached, behind)) if register in live]
    lines = [
        *((STORE_DOUBLE, FRAME_POINTER, register, place) for register, place in kept),
        (LOAD_DOUBLE, behind, FRAME_POINTER, top - COUNTER_BYTES),
        (LOAD_WORD, behind, behind, END_FIELD),
        (MOVE_REGISTER, reached, access.base),
        (ADD_CONSTANT, reached, 0, 0, access.offset + access.size),
    ]
    yield from (Line(Instruction(*fields)) for fields in lines)
    yield Line(Instruction(IF_ABOVE_REGISTER, reached, behind), end)
    yield from (Line(Instruction(LOAD_DOUBLE, register, FRAME_POINTER, place)) for register, place in kept)
