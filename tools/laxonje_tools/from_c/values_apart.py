"""Ways that meet with addresses in values of several maps: what follows is copied for each map, as long as such an address is read later."""
from __future__ import annotations

import heapq
from typing import TYPE_CHECKING, AbstractSet, Callable, Iterator, Optional, Union

from .lines import CALL, EXIT, FAR_JUMP, JUMP, Line, following_in, lines_of, packed, reads, writes, written
from .places import ANSWER, IF_EQUAL_CONSTANT, IF_NOT_CONSTANT, LOAD_DOUBLE, STORE_DOUBLE, InValue, OnStack, Places

if TYPE_CHECKING:
    from .calls import Replaced
    from .elf import Relocation
    from .places import Held

ARGUMENTS, MOST_SLOTS = range(1, 6), 4096
Place = Union[int, tuple[int]]  # a register, or a place on the stack
Node = tuple[Line, frozenset[tuple[Place, str]]]  # a line, and of places that hold an address the map in whose values it is


def values_apart(made: Replaced, names: AbstractSet[str], variable: Callable[[Relocation], Optional[tuple[str, int]]]) -> Optional[Replaced]:
    """A function whose calls are written out with what follows such meetings copied; None if there are none, or it would be too large. `names`:
    of the maps of which one is told from all others; `variable`: as `Places` has it."""
    lines = lines_of(made.code, made.relocations)
    copies = Copies(lines, Places(lines, names, variable))
    if not copies.are_needed or len(copies.out) > MOST_SLOTS:
        return None
    code, relocations, slots = written(copies.out)
    return made._replace(code=code, relocations=relocations, origins=[made.origins[slot] for slot in slots])


class Copies:
    """The lines, each for each map that is told apart in front of it. `are_needed`: whether a line has several."""

    def __init__(self, lines: list[Line], places: Places) -> None:
        self.places, self.later = places, read_later(lines, places)
        self.after = dict(zip(lines, lines[1:]))
        self.number = {line: at for at, line in enumerate(lines)}
        self.made: dict[Node, Line] = {}
        self.jumps: list[tuple[Line, Node]] = []
        self.out: list[Line] = []
        self.todo: list[tuple[int, int, Node]] = []
        self.later_on((lines[0], frozenset()))
        while self.todo and len(self.out) <= MOST_SLOTS:
            self.follow(heapq.heappop(self.todo)[2])
        for line, node in self.jumps:
            line.target = self.made.get(node)
        self.are_needed = len(self.made) > len({line for line, _ in self.made})

    def later_on(self, node: Node) -> None:
        heapq.heappush(self.todo, (self.number[node[0]], len(self.jumps), node))

    def follow(self, node: Optional[Node]) -> None:
        """The copies from one on, up to where another one goes on."""
        while node is not None and node not in self.made:
            line = node[0]
            copy = Line(line.raw, line.origin, line.row, slot=line.slot, bottom=line.bottom)
            self.made[node] = copy
            self.out.append(copy)
            if line.target is not None:
                self.jumps.append((copy, self.led_to(node, line.target)))
                self.later_on(self.jumps[-1][1])
            goes_on = line.opcode not in (EXIT, JUMP, FAR_JUMP) or line.opcode == JUMP and line.target is None
            node = self.led_to(node, self.after[line]) if goes_on else None
        if node is not None:
            self.out.append(Line(packed(JUMP), node[0].origin))
            self.jumps.append((self.out[-1], node))

    def led_to(self, node: Node, after: Line) -> Node:
        """What comes behind a copy: which maps its places have that would not be known there."""
        line, maps = node
        held: Held = {**self.places.before[line], **{place: InValue(name, 0, 0) for place, name in maps}}
        behind, known = self.places.behind(line, held), self.places.before[after]
        none = line.destination if is_none_behind(line, after) else None
        told = [place for place in self.later[after] if place != none and not isinstance(known.get(place), InValue)]
        return after, frozenset((place, behind[place].map) for place in told if isinstance(behind.get(place), InValue))


def is_none_behind(line: Line, after: Line) -> bool:
    """Whether a line's register is surely 0 on the way to another one."""
    return not line.immediate and line.opcode == (IF_EQUAL_CONSTANT if after is line.target else IF_NOT_CONSTANT)


def read_later(lines: list[Line], places: Places) -> dict[Line, frozenset[Place]]:
    """Of each line the registers and the places on the stack that may be read there or behind it, and before they are written."""
    following, read = following_in(lines), {line: frozenset(read_by(line, places)) for line in lines}
    later: dict[Line, frozenset[Place]] = {line: frozenset() for line in lines}
    changes = True
    while changes:
        changes = False
        for line in reversed(lines):
            behind = frozenset().union(*(later[way] for way in following[line])) - read[line]
            found = read[line] | {place for place in behind if not is_written(line, place, places)}
            changes |= found != later[line]
            later[line] = found
    return later


def read_by(line: Line, places: Places) -> Iterator[Place]:
    """What a line reads."""
    if line.opcode == CALL:
        yield from ARGUMENTS
    elif line.opcode == EXIT:
        yield ANSWER
    else:
        yield from (register for register in range(10) if reads(line, register))
    if line.opcode == LOAD_DOUBLE and place_on_stack(line, line.source, places) is not None:
        yield (place_on_stack(line, line.source, places),)


def is_written(line: Line, place: Place, places: Places) -> bool:
    """Whether a line surely gives a place something else."""
    if isinstance(place, int):
        return writes(line, place)
    return line.opcode == STORE_DOUBLE and place_on_stack(line, line.destination, places) == place[0]


def place_on_stack(line: Line, base: int, places: Places) -> Optional[int]:
    """Where on the stack an access reaches; None if it isn't known, or elsewhere."""
    thing = places.before.get(line, {}).get(base)
    return thing.place + line.offset if isinstance(thing, OnStack) and thing.place is not None else None
