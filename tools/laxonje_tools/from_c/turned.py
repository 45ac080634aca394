"""Additions of the address of a map's value to a number, as clang writes an index into a value: the number is added to the address, in
another register, through which the accesses behind it go."""
from __future__ import annotations

from typing import TYPE_CHECKING, Optional

from .lines import CALL, EXIT, Line, lines_of, packed, writes, written
from .places import BYTES, InValue, Multiple, Places
from .values_apart import read_later

if TYPE_CHECKING:
    from .calls import Replaced

ADD_REGISTER, MOVE_REGISTER, MOVES, FRAME = 0x0F, 0xBF, (0xBF, 0xBC, 0xB7, 0xB4), 10
BY_REGISTER, LOADS, STORES, ARITHMETIC, ATOMIC = 8, (0, 1), 3, (4, 7), 6  # a bit and classes of opcodes, and a mode of stores
MOST_ROUNDS = 8


def sums_turned(made: Replaced) -> Replaced:
    """A function whose calls are written out, with such additions turned: in each round those that lie apart."""
    for _ in range(MOST_ROUNDS):
        if all(made.code[at] != ADD_REGISTER for at in range(0, len(made.code), 8)):
            break
        lines = lines_of(made.code, made.relocations)
        places = Places(lines, {row.name for row in made.relocations if not row.section}, lambda row: None)
        sums = [at for at, line in enumerate(lines) if is_sum(line, places)]
        turned = Turning(lines, places).turned(sums) if sums else None
        if turned is None:
            break
        code, relocations, slots = written(turned)
        made = made._replace(code=code, relocations=relocations, origins=[made.origins[slot] for slot in slots])
    return made


def is_sum(line: Line, places: Places) -> bool:
    held = places.before.get(line, {})
    kinds = held.get(line.destination), held.get(line.source)
    return line.opcode == ADD_REGISTER and isinstance(kinds[0], Multiple) and isinstance(kinds[1], InValue)


class Turning:
    """The lines of a function, in which an addition is turned."""

    def __init__(self, lines: list[Line], places: Places) -> None:
        self.lines, self.later = lines, read_later(lines, places)
        self.targets = {line.target for line in lines}

    def turned(self, sums: list[int]) -> Optional[list[Line]]:
        """The lines with those turned, of the lines of these numbers, that lie apart; None if there is none."""
        out, done = [], 0
        for at in sums:
            rows, uses = self.instead(at) if at >= done else (None, 0)
            if rows is not None:
                out += [*self.lines[done:at], *rows]
                done = at + 1 + uses
        return [*out, *self.lines[done:]] if done else None

    def instead(self, at: int) -> tuple[Optional[list[Line]], int]:
        """What is in the place of a line and its uses, and how many these are; None if there is no register for that."""
        line = self.lines[at]
        number, address = line.destination, line.source
        uses, end = self.uses(at, number)
        behind = [*uses, *([] if end is None else [end])]
        free = [register for register in range(FRAME) if register != number and self.is_free(register, uses, behind)]
        chosen = address if address in free else next(iter(free), None)
        if chosen is None:
            return None, 0
        first = [] if chosen == address else [Line(packed(MOVE_REGISTER, chosen, address), line.origin)]
        added = [*first, Line(packed(ADD_REGISTER, chosen, number), line.origin)]
        line.raw = added[0].raw  # jumps to the addition stay right
        for row in uses:
            rename(row, number, chosen)
        back = [Line(packed(MOVE_REGISTER, number, chosen), line.origin)] if end is not None and number in self.later[end] else []
        return [line, *added[1:], *uses, *back], len(uses)

    def uses(self, at: int, number: int) -> tuple[list[Line], Optional[Line]]:
        """The lines that surely come behind one, as long as a register has what that left there; and the one behind these, None if the
        register has something else there."""
        out: list[Line] = []
        for row in self.lines[at + 1 :]:
            is_end = row in self.targets or row.is_jump or row.opcode in (CALL, EXIT) or is_atomic_of(row, number)
            if is_end or number not in self.later[row]:
                return out, row
            out.append(row)
            if overwrites(row, number):
                return out, None
        return out, None

    def is_free(self, register: int, uses: list[Line], behind: list[Line]) -> bool:
        """Whether nothing reads a register, and nothing writes it, as long as it is used."""
        return all(register not in self.later[row] for row in behind) and not any(writes(row, register) for row in uses)


def is_atomic_of(line: Line, register: int) -> bool:
    return line.opcode & 7 == STORES and line.opcode >> 5 == ATOMIC and line.source == register


def overwrites(line: Line, register: int) -> bool:
    """Whether a line gives a register something that isn't made of what that has."""
    return line.destination == register and (line.opcode & 7 in LOADS or line.opcode in MOVES)


def rename(line: Line, register: int, other: int) -> None:
    """Makes a line read another register, and write it if it changes what it reads."""
    kind, destination, source = line.opcode & 7, line.destination, line.source
    has_source = kind in (LOADS[1], STORES) or kind in ARITHMETIC and bool(line.opcode & BY_REGISTER) and line.opcode >> 4 != BYTES
    source = other if has_source and source == register else source
    destination = other if destination == register and not overwrites(line, register) else destination
    line.raw = line.raw[:1] + bytes([destination | source << 4]) + line.raw[2:]
