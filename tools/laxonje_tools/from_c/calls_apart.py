"""Calls on which ways meet: clang makes one of two calls of one helper, in front of which a jump leads to it with other arguments. Each such
jump gets a call of its own, with what stands in front of it behind the meeting."""
from __future__ import annotations

from typing import Callable, Iterator

from .lines import CALL, EXIT, FAR_JUMP, JUMP, Line, packed

MOST_BETWEEN = 16  # lines, of a meeting and the call


def with_calls_apart(lines: list[Line], is_known: Callable[[list[Line], Line], bool]) -> list[Line]:
    """The same lines, with copies of the helpers' calls whose arguments the lines in front of them don't say. `is_known`: whether they do."""
    for call in [line for line in lines if line.opcode == CALL and not line.source and line.row is None]:
        if not is_known(lines, call):
            lines = list(with_copies(lines, call))
    return lines


def with_copies(lines: list[Line], call: Line) -> Iterator[Line]:
    """The same with a copy of one call in the place of each jump that leads to it, or to a line from which there is one way to it."""
    at = lines.index(call)
    met = {lines[first]: lines[first : at + 1] for first in straight_before(lines, at)}
    for line in lines:
        yield line
        if line.opcode == JUMP and line.target in met:
            first, *rest = met[line.target]
            line.raw, line.row, line.target = first.raw, first.row, None
            yield from (Line(row.raw, row.origin, row.row, slot=row.slot) for row in rest)
            yield Line(packed(JUMP), call.origin, target=lines[at + 1])


def straight_before(lines: list[Line], at: int) -> Iterator[int]:
    """Where the lines stand from which there is one way to a call, up to it."""
    for first in range(at, max(-1, at - MOST_BETWEEN), -1):
        if first < at and (lines[first].is_jump or lines[first].opcode in (CALL, EXIT, JUMP, FAR_JUMP)):
            return
        yield first
