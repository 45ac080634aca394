"""Registers that are kept on the stack and loaded again, though they still have what was kept: such loads are left out, so that it stays
known which address a register has."""
from __future__ import annotations

from typing import AbstractSet

from .lines import JUMP, Line, following_in, writes

FRAME, STORE_DOUBLE, LOAD_DOUBLE, REGISTERS = 10, 0x7B, 0x79, range(10)
Facts = frozenset[tuple[int, int]]  # a register, and a place of the stack that surely has the same


def without_reloads(lines: list[Line], places: AbstractSet[int]) -> None:
    """Makes jumps to the next line of loads that bring nothing. `places`: of the stack, to which nothing else is stored."""
    facts = facts_before(lines, places)
    for line in lines:
        if line.opcode == LOAD_DOUBLE and line.source == FRAME and (line.destination, line.offset) in facts.get(line, frozenset()):
            line.put(JUMP)


def facts_before(lines: list[Line], places: AbstractSet[int]) -> dict[Line, Facts]:
    """Of each line that is reached what is known in front of it."""
    following, before, todo = following_in(lines), {lines[0]: frozenset()}, [lines[0]]
    while todo:
        line = todo.pop()
        behind = facts_behind(line, before[line], places)
        for after in following[line]:
            both = before[after] & behind if after in before else behind
            if both != before.get(after):
                before[after] = both
                todo.append(after)
    return before


def facts_behind(line: Line, facts: Facts, places: AbstractSet[int]) -> Facts:
    """The same behind a line."""
    if line.opcode == STORE_DOUBLE and line.destination == FRAME and line.offset in places:
        return frozenset(row for row in facts if row[1] != line.offset) | {(line.source, line.offset)}
    changed = {register for register in REGISTERS if writes(line, register)}
    kept = frozenset(row for row in facts if row[0] not in changed)
    is_load = line.opcode == LOAD_DOUBLE and line.source == FRAME and line.offset in places
    return kept | {(line.destination, line.offset)} if is_load else kept
