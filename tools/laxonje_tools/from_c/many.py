"""Arrays of more values than a map has entries: the further ones lie in maps of their own.

A lookup looks the value up in the map that has it. An index behind the last value finds nothing, as in Linux."""
from __future__ import annotations

from typing import TYPE_CHECKING, NamedTuple, Optional

from .elf import MAP_ADDRESS, SLOT_BYTES, Relocation
from .faults import COUNTER_BYTES, MOST_ENTRIES, MOST_MAPS
from .lines import CALL, JUMP, STACK_BYTES, WIDE, Fault, Line, packed

if TYPE_CHECKING:
    from .btf import MapOfC

LOOKUP, FIRST, SECOND, THIRD, FRAME = 1, 1, 2, 3, 10  # the helper, and registers
MOV_64, ADD_CONSTANT, LOAD_WORD, STORE_DOUBLE, IF_BELOW_CONSTANT = 0xBF, 0x07, 0x61, 0x7B, 0xA5


class Many(NamedTuple):
    """An array as it is declared."""

    declared: MapOfC

    @property
    def arrays(self) -> list[MapOfC]:
        """The arrays that have its values, each as many as a map has entries."""
        name, entries = self.declared.name, self.declared.entries
        rows = [(f"{name}.{at // MOST_ENTRIES}" if at else name, at) for at in range(0, entries, MOST_ENTRIES)]
        return [self.declared._replace(name=part, entries=min(MOST_ENTRIES, entries - at)) for part, at in rows]

    @property
    def comment(self) -> str:
        """Where a host finds the values."""
        parts = (f"{row.name} has those from {MOST_ENTRIES * at} on" for at, row in enumerate(self.arrays) if at)
        return f"map {self.declared.name}: its first {MOST_ENTRIES} values; {', '.join(parts)}"


def many_of(declared: MapOfC) -> Optional[Many]:
    """An array with more values than a map has entries; None if it isn't one, or has more than all maps have."""
    return Many(declared) if MOST_ENTRIES < declared.entries < MOST_ENTRIES * MOST_MAPS else None


def looked_up(line: Line, array: Many, above: int) -> list[Line]:
    """The lines in the place of a lookup: (the array, key). An index is kept below what is in use of the stack, `above`."""
    place = -(above + COUNTER_BYTES)
    if -place > STACK_BYTES:
        raise Fault(f"looks up in {array.declared.name} with more than {STACK_BYTES - COUNTER_BYTES} bytes of the stack in use")
    first, end = Line(packed(CALL, 0, 0, 0, LOOKUP), line.origin), Line(packed(JUMP), line.origin)
    out = [Line(packed(LOAD_WORD, THIRD, SECOND), line.origin), Line(packed(IF_BELOW_CONSTANT, THIRD, 0, 0, MOST_ENTRIES), line.origin, target=first)]
    *_, last = others = array.arrays[1:]
    for row in others:
        found = Line(packed(STORE_DOUBLE, FRAME, THIRD, place), line.origin)
        out.append(Line(packed(ADD_CONSTANT, THIRD, 0, 0, -MOST_ENTRIES), line.origin))
        following = Line(packed(JUMP), line.origin)
        if row is not last:
            out += [Line(packed(IF_BELOW_CONSTANT, THIRD, 0, 0, MOST_ENTRIES), line.origin, target=found), Line(packed(JUMP), line.origin, target=following)]
        address = Line(packed(WIDE, FIRST) + bytes(SLOT_BYTES), line.origin, Relocation(0, MAP_ADDRESS, row.name, 0))
        key = (MOV_64, SECOND, FRAME), (ADD_CONSTANT, SECOND, 0, 0, place)
        out += [found, *(Line(packed(*fields), line.origin) for fields in key), address, Line(packed(CALL, 0, 0, 0, LOOKUP), line.origin)]
        out += [Line(packed(JUMP), line.origin, target=end), *([following] if row is not last else [])]
    line.put(JUMP)  # jumps to the call stay right
    return [line, *out, first, end]
