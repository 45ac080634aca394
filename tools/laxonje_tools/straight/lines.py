"""A program of which other instructions stand in the place of some: its jumps lead to what stands in the place of their targets."""
from __future__ import annotations

from typing import TYPE_CHECKING, NamedTuple, Optional

from .instructions import JUMP

if TYPE_CHECKING:
    from .instructions import Instruction


class Line(NamedTuple):
    """An instruction, and if it is a jump the slot of the program as it was to which it leads."""

    insn: Instruction
    target: Optional[int] = None


class Relined(NamedTuple):
    """Settings with other lines; by each slot of the program as it was where its lines begin, and of each of theirs which it was."""

    settings: dict
    starts: dict[int, int]
    origins: list[int]


def jump_target(slot: int, insn: Instruction) -> Optional[int]:
    """The slot to which a jump leads, None of another instruction."""
    return slot + 1 + insn.offset if insn.is_branch or insn.opcode == JUMP else None


def in_place_of(settings: dict, rows: dict[int, list[Line]]) -> Relined:
    """Settings with these lines, by the slot in whose place they stand."""
    starts, origins = {}, []
    for slot, lines in rows.items():
        starts[slot] = len(origins)
        origins += [slot] * sum(line.insn.slots for line in lines)
    words, relocations = [], []
    for line in (line for lines in rows.values() for line in lines):
        relocations += [{"slot": len(words), "map": line.insn.map}] if line.insn.map is not None else []
        words += line.insn.words(None if line.target is None else starts[line.target] - len(words) - 1)
    return Relined({**settings, "program": words, "reloc": relocations}, starts, origins)
