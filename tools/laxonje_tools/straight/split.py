"""Stores to several numbers of a map's value at once, as one store for each number: so clang clears a struct, and loads of several, so it
copies one. They are written into the program before all else."""
from __future__ import annotations

from typing import TYPE_CHECKING, Iterator, NamedTuple, Optional

from .graph import live_registers
from .accesses import LSH_CONSTANT
from .instructions import ACCESS_SIZES, ALU64, BY_REGISTER, FRAME_POINTER, LOAD_WORD, MOVE_REGISTER, OR, STX, Instruction
from .lines import Line, in_place_of, jump_target
from .masks import RSH_CONSTANT
from .parts import COUNTER_BYTES

if TYPE_CHECKING:
    from .instructions import Code
    from .parts import Part

SIZE_BITS = {size: bits for bits, size in ACCESS_SIZES.items()}  # by the bytes of an access those of its opcode that say so
OR_REGISTER = ALU64 | BY_REGISTER | OR


class Split(NamedTuple):
    """Settings with such accesses split, and of each of their slots the slot of the program as it was."""

    settings: dict
    origins: list[int]


def with_split(settings: dict, code: Code, several: dict[int, list[Part]]) -> Optional[Split]:
    """Settings in which these loads and stores are split into these parts; None if too few registers are free."""
    live = live_registers(code)
    rows = {slot: [Line(insn, jump_target(slot, insn))] for slot, insn in code.items()}
    for slot, parts in several.items():
        insn = code[slot]
        used = live[slot] | ({insn.destination} if insn.is_load else set())
        each = split(insn, sorted(parts), [register for register in range(FRAME_POINTER) if register not in used])
        if each is None:
            return None
        rows[slot] = [Line(one) for one in each]
    made = in_place_of(settings, rows)
    return Split(made.settings, made.origins)


def split(insn: Instruction, parts: list[Part], free: list[int]) -> Optional[list[Instruction]]:
    """What does the same as a load or a store, part by part. `free`: registers that aren't read later; None if they are too few."""
    if insn.is_load:
        registers = free if insn.destination == insn.source else [insn.destination, *free]
        return None if len(registers) < 2 else list(loads_of(insn, parts, *registers[:2]))
    return None if not free or insn.kind != STX or insn.is_atomic else list(stores_of(insn, parts, free[0]))


def stores_of(insn: Instruction, parts: list[Part], free: int) -> Iterator[Instruction]:
    """The stores that do what one does to these parts. `free`: a register that isn't read later."""
    for part in parts:
        source = insn.source
        if part.place:
            yield Instruction(MOVE_REGISTER, free, insn.source)
            yield Instruction(RSH_CONSTANT, free, 0, 0, 8 * part.place)
            source = free
        yield Instruction(opcode_of(insn.opcode, part), insn.destination, source, insn.offset + part.place)


def loads_of(insn: Instruction, parts: list[Part], whole: int, one: int) -> Iterator[Instruction]:
    """The loads that bring what one brings, from the uppermost part on, which alone may have a sign. `whole`, `one`: registers for all of it,
    and for one part."""
    *below, last = parts
    yield Instruction(opcode_of(insn.opcode, last), whole, insn.source, insn.offset + last.place)
    for part in reversed(below):
        yield Instruction(LSH_CONSTANT, whole, 0, 0, 8 * part.size)
        yield Instruction(opcode_of(LOAD_WORD, part), one, insn.source, insn.offset + part.place)
        yield Instruction(OR_REGISTER, whole, one)
    if whole != insn.destination:
        yield Instruction(MOVE_REGISTER, insn.destination, whole)


def opcode_of(opcode: int, part: Part) -> int:
    """That of an access of the same kind to a part."""
    return opcode & ~SIZE_BITS[COUNTER_BYTES] | SIZE_BITS[part.size]
