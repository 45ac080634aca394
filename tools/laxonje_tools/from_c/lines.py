"""A function's instructions as lines, which may be added, left out and changed, and which registers they read and write."""
from __future__ import annotations

import struct
from dataclasses import dataclass
from typing import TYPE_CHECKING, Optional

from .elf import SLOT_BYTES

if TYPE_CHECKING:
    from .elf import Relocation

CALL, EXIT, JUMP, FAR_JUMP, WIDE = 0x85, 0x95, 0x05, 0x06, 0x18
CHANGED, SAVED = (0, 1, 2, 3, 4, 5), (6, 7, 8, 9)  # registers that a call changes, and those that a function leaves as they were
STACK_BYTES = 512
FRAME, MOVE_REGISTER, ADD_CONSTANT = 10, 0xBF, 0x07
MOVE, MOV_CONSTANT, MOV_CONSTANT_32 = 0xB, 0xB7, 0xB4  # the first: of an arithmetic opcode's upper four bits


class Fault(Exception):
    """Why a call can't be replaced, in words. `slot`: of the function that calls."""

    slot = 0


@dataclass(eq=False)
class Line:
    """An instruction: its slots' bytes, its relocation, where it jumps to, its slot in its function, the slot of the
    whole program's function that it is for, and the end of its function's frame."""

    raw: bytes
    origin: int
    row: Optional[Relocation] = None
    target: Optional[Line] = None
    slot: int = 0
    bottom: int = -STACK_BYTES

    @property
    def opcode(self) -> int:
        return self.raw[0]

    @property
    def destination(self) -> int:
        return self.raw[1] & 15

    @property
    def source(self) -> int:
        return self.raw[1] >> 4

    @property
    def offset(self) -> int:
        return struct.unpack_from("<h", self.raw, 2)[0]

    @property
    def immediate(self) -> int:
        return struct.unpack_from("<i", self.raw, 4)[0]

    @property
    def is_jump(self) -> bool:
        return self.opcode & 7 in (5, 6) and self.opcode not in (CALL, EXIT)

    def put(self, *fields: int) -> None:
        """Makes it another instruction: opcode, destination, source, offset, immediate."""
        self.raw, self.row, self.target = packed(*fields), None, None


def packed(opcode: int, destination: int = 0, source: int = 0, offset: int = 0, immediate: int = 0) -> bytes:
    return struct.pack("<BBhi", opcode, destination | source << 4, offset, immediate)


def lines_of(code: bytes, relocations: list[Relocation]) -> list[Line]:
    """The instructions of a function, with the lines that they jump to."""
    rows, by_slot, slot = {row.slot: row for row in relocations}, {}, 0
    while SLOT_BYTES * slot < len(code):
        size = 2 if code[SLOT_BYTES * slot] == WIDE else 1
        raw = code[SLOT_BYTES * slot : SLOT_BYTES * (slot + size)]
        by_slot[slot] = Line(raw, slot, rows.get(slot), slot=slot)
        slot += size
    for at, line in by_slot.items():
        if line.is_jump:
            after = at + 1 + (line.immediate if line.opcode == FAR_JUMP else line.offset)
            if after not in by_slot:
                raise Fault("jumps out of its function")
            line.target = by_slot[after]
    return list(by_slot.values())


def written_by(line: Line) -> tuple[int, ...]:
    """The registers that a line may change."""
    opcode = line.opcode
    if opcode == CALL:
        return CHANGED
    if opcode & 7 in (0, 1, 4, 7):
        return (line.destination,)
    return (line.source,) if opcode & 7 == 3 and opcode >> 5 == 6 else ()


def writes(line: Line, register: int) -> bool:
    """Whether a line may change a register."""
    return register in written_by(line)


def set_in(lines: list[Line], line: Line, register: int) -> Optional[Line]:
    """The line that surely gave a register what it has at a line, of those in front of it; None if there is none."""
    targets = {row.target for row in lines}
    for row in reversed(lines[: lines.index(line) + 1]):
        if row is not line and row.opcode in (JUMP, FAR_JUMP):
            return None
        if row is not line and writes(row, register):
            return row
        if row in targets:
            return None
    return None


def constant_in(lines: list[Line], line: Line, register: int) -> Optional[int]:
    """The constant that a register has at a line, from the lines in front of it; None if they don't give it one."""
    row = set_in(lines, line, register)
    if row is not None and row.opcode == MOV_CONSTANT_32:
        return row.immediate % (1 << 32)
    return row.immediate if row is not None and row.opcode == MOV_CONSTANT else None


def stack_place_in(lines: list[Line], line: Line, register: int) -> Optional[int]:
    """Where on the stack the address lies that a register has at a line; None if the lines in front of it don't say."""
    place, row = 0, set_in(lines, line, register)
    while row is not None and row.opcode == ADD_CONSTANT:
        place, row = place + row.immediate, set_in(lines, row, register)
    if row is None or row.opcode != MOVE_REGISTER:
        return None
    if row.source == FRAME:
        return place
    from_there = stack_place_in(lines, row, row.source)
    return None if from_there is None else from_there + place


def map_in(lines: list[Line], line: Line, register: int) -> Optional[str]:
    """The map whose address a register has at a line; None if the lines in front of it don't say."""
    row = set_in(lines, line, register)
    return row.row.name if row is not None and row.opcode == WIDE and row.row is not None else None


def reads(line: Line, register: int) -> bool:
    """Whether a line may read a register that functions leave as it was."""
    kind, by_register = line.opcode & 7, line.opcode & 8
    if line.opcode in (CALL, EXIT, JUMP, FAR_JUMP) or kind == 0:
        return False
    is_destination = line.destination == register and kind != 1 and not (kind in (4, 7) and line.opcode >> 4 == MOVE)
    return is_destination or line.source == register and (kind in (1, 3) or kind in (4, 5, 6, 7) and bool(by_register))


def following_in(lines: list[Line]) -> dict[Line, list[Line]]:
    """Of each line those that may come next."""
    following = {line: [line.target] if line.target else [] for line in lines}
    for line, after in zip(lines, lines[1:]):
        leads_on = line.opcode == JUMP and line.target is None  # to the next line
        if leads_on or line.opcode not in (EXIT, JUMP, FAR_JUMP):
            following[line].append(after)
    return following


def read_later(lines: list[Line]) -> dict[Line, set[int]]:
    """Of each line the registers of those that functions leave as they were that may be read behind it, and before they
    are written."""
    following = following_in(lines)
    later, changes = {line: set() for line in lines}, True
    while changes:
        changes = False
        for line in reversed(lines):
            found = {register for after in following[line] for register in SAVED if is_needed(after, register, later)}
            changes |= found != later[line]
            later[line] = found
    return later


def is_needed(line: Line, register: int, later: dict[Line, set[int]]) -> bool:
    """Whether a register is read by a line, or after it."""
    return reads(line, register) or register in later[line] and not writes(line, register)


def written(lines: list[Line]) -> tuple[bytes, list[Relocation], list[int]]:
    """The bytes of lines, their relocations, and the slot that each slot is for."""
    slots, total = {}, 0
    for line in lines:
        slots[line] = total
        total += len(line.raw) // SLOT_BYTES
    out, rows, origins = b"", [], []
    for line in lines:
        raw = line.raw
        if line.target is not None:
            apart = slots[line.target] - slots[line] - 1
            if not -(1 << 15) <= apart < 1 << 15:
                raise Fault("has a jump that is too far once its calls are written out")
            raw = raw[:2] + struct.pack("<hi", apart, 0 if line.opcode == FAR_JUMP else line.immediate)
            raw = (bytes([JUMP]) if line.opcode == FAR_JUMP else raw[:1]) + raw[1:]
        out += raw
        origins += [line.origin] * (len(raw) // SLOT_BYTES)
        if line.row is not None:
            rows.append(line.row._replace(slot=slots[line]))
    return out, rows, origins


def put_all(line: Line, rows: list[tuple]) -> list[Line]:
    """Instructions in the place of a line, which becomes the first of them."""
    first, *rest = rows
    line.put(*first)
    return [line, *(Line(packed(*fields), line.origin) for fields in rest)]
