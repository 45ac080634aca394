"""Rows of tables that are used after an update. In Linux bpf_map_update_elem puts another element in the place of a hash map's row, and what
a lookup gave before stays as it was. Here the row itself is changed: so a program that uses what it looked up before is refused."""
from __future__ import annotations

from typing import TYPE_CHECKING, Iterator, NamedTuple

from .changed import STORES, Where, places_after
from .lines import CALL, Fault, Line, following_in

if TYPE_CHECKING:
    from collections.abc import Mapping

ANSWER, LOADS, LOOKUP, ARGUMENTS, OF_LOOKUP = 0, 1, 1, range(1, 6), (1, 2)  # the first and the last two are registers
IF_EQUAL_CONSTANT, IF_NOT_CONSTANT = 0x15, 0x55
USED = (
    "uses what bpf_map_lookup_elem gave of {} before bpf_map_update_elem: in Linux that stays as it was, and here it is changed: keep in"
    " variables what is needed of it, or look it up again"
)


class Kept(NamedTuple):
    """A row's address: which lookup gave it, where it stands, and whether its map was updated since."""

    given: Line
    where: Where
    is_stale: bool = False


class Rows:
    """Which addresses of tables' rows there may be in front of each line. `given`: by the line behind which a lookup's answer stands its
    table; `updated`: by the line behind which a table may have another row under a key that table."""

    def __init__(self, lines: list[Line], given: Mapping[Line, str], updated: Mapping[Line, str]) -> None:
        self.given, self.updated, following = given, updated, following_in(lines)
        self.before: dict[Line, frozenset[Kept]] = {lines[0]: frozenset()}
        todo = [lines[0]]
        while todo:
            line = todo.pop()
            behind = frozenset(self.behind(line))
            for way, after in enumerate(following[line]):
                either = self.before.get(after, frozenset()) | without_none(line, way, behind)
                if either != self.before.get(after):
                    self.before[after] = either
                    todo.append(after)

    def behind(self, line: Line) -> Iterator[Kept]:
        """Those behind a line."""
        if line in self.given:
            yield Kept(line, (False, ANSWER))
        for row in self.before[line]:
            is_stale = row.is_stale or self.updated.get(line) == self.given[row.given]
            yield from (row._replace(where=there, is_stale=is_stale) for there in places_after(line, row.where))


def without_none(line: Line, way: int, kept: frozenset[Kept]) -> frozenset[Kept]:
    """Those on a way of a line, the first of which is a jump's to its target: not of a lookup whose answer is found to be 0 there."""
    is_none = line.opcode == (IF_NOT_CONSTANT if way else IF_EQUAL_CONSTANT) and not line.immediate
    found = {row.given for row in kept if row.where == (False, line.destination)} if is_none else set()
    return frozenset(row for row in kept if row.given not in found)


def uses(line: Line, where: Where) -> bool:
    """Whether a line reaches what is at an address that stands there, or gives it to a call."""
    kind = line.opcode & 7
    if line.opcode == CALL:
        return where in {(False, register) for register in (OF_LOOKUP if line.immediate == LOOKUP else ARGUMENTS)}
    return kind == LOADS and where == (False, line.source) or kind in STORES and where == (False, line.destination)


def check_rows(lines: list[Line], given: Mapping[Line, str], updated: Mapping[Line, str]) -> None:
    """Raises Fault if a row is used after its table was updated."""
    if not given or not updated:
        return
    for line, kept in Rows(lines, given, updated).before.items():
        for row in kept:
            if row.is_stale and uses(line, row.where):
                fault = Fault(USED.format(given[row.given]))
                fault.slot = line.origin
                raise fault
