"""Where what an access has for its address comes from: the registers and the words of the stack that have it on the ways there."""
from __future__ import annotations

from typing import TYPE_CHECKING, NamedTuple, Optional, Union

from .graph import predecessors
from .instructions import FRAME_POINTER, LOAD_DOUBLE, MOVE_REGISTER, STORE_DOUBLE, writes

if TYPE_CHECKING:
    from .instructions import Code, Instruction


WORD_BYTES = 8


class Word(NamedTuple):
    """Eight bytes of the stack."""

    offset: int


class Sources(NamedTuple):
    """What has it before a slot: registers, and offsets of words of the stack."""

    registers: frozenset[int] = frozenset()
    words: frozenset[int] = frozenset()

    def with_(self, other: Sources) -> Sources:
        return Sources(self.registers | other.registers, self.words | other.words)


def sources_of(code: Code, slot: int, register: int) -> dict[int, Sources]:
    """By slot what has before it what a register has before another one."""
    before, found, todo = predecessors(code), {}, [(slot, register)]
    while todo:
        at, place = todo.pop()
        if place not in found.setdefault(at, set()):
            found[at].add(place)
            earlier = ((slot, came_from(code[slot], place)) for slot in before[at])
            todo += [(slot, source) for slot, source in earlier if source is not None]
    return {at: sources_in(places) for at, places in found.items()}


def sources_in(places: set[Union[int, Word]]) -> Sources:
    words = frozenset(place.offset for place in places if isinstance(place, Word))
    return Sources(frozenset(place for place in places if not isinstance(place, Word)), words)


def came_from(insn: Instruction, place: Union[int, Word]) -> Optional[Union[int, Word]]:
    """What has in front of an instruction what a place has behind it; None if that comes from nowhere else."""
    if isinstance(place, Word):
        is_store = insn.is_store and insn.destination == FRAME_POINTER
        if not is_store or insn.offset + insn.size <= place.offset or place.offset + WORD_BYTES <= insn.offset:
            return place
        return insn.source if insn.opcode == STORE_DOUBLE and insn.offset == place.offset else None
    if place not in writes(insn):
        return place
    if insn.opcode == LOAD_DOUBLE and insn.source == FRAME_POINTER:
        return Word(insn.offset)
    return insn.source if insn.opcode == MOVE_REGISTER else None
