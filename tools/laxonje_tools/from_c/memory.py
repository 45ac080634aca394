"""What a program has in memory: constants, which are maps of their own, and globals that count, each a map.

A global of 1, 2, 4 or whole eight bytes that begins with zeros, or that the program stores to, is a map of one entry, named for it.
Any other global keeps what it begins with: nobody writes to it here, and a program that stores to it is refused."""
from __future__ import annotations

from typing import TYPE_CHECKING, AbstractSet, Iterator, NamedTuple, Optional

from .elf import CONSTANTS, MAP_ADDRESS, MEMORY, VARIABLES, symbols_of, variable_at

if TYPE_CHECKING:
    from .elf import Part, Relocation, Symbol

COUNTER_BYTES, MOST_COUNTERS = 8, 8
MOST_BEGINNING = (1 << 63) - 1  # of a number in settings
CHANGES = "a global that changes is a map's counters here: they begin with at most 2^63 - 1"
PARTS = 1, 2, 4  # sizes of numbers that are kept in the lowest bytes of a counter


class Memory(NamedTuple):
    """`constants`: bytes by section. `tables`: of slots, where in a section their address leads, and from where to
    where the variable there lies. `globals`: of slots, the map that a global became, and the place in its value.
    `maps`: those maps, as (name, entries, counters). `beginnings`: by name what the counters of some of them begin with. `faults`: of
    slots, what there isn't here, as (slot, words)."""

    constants: dict
    tables: list
    globals: list
    maps: list
    beginnings: dict
    faults: list

    def settings(self) -> dict:
        """What it adds to settings, for the tools alone."""
        return {"constants": self.constants, "tables": self.tables, "globals": self.globals}


def is_counter(section: str, variable: Optional[Symbol], beginning: tuple[int, ...], is_changed: bool) -> bool:
    """Whether a variable becomes a map. `is_changed`: whether the program stores to it."""
    if variable is None or not section.startswith(VARIABLES) or any(beginning) and not is_changed:
        return False
    whole = variable.size % COUNTER_BYTES == 0 and 0 < variable.size <= COUNTER_BYTES * MOST_COUNTERS
    return (whole or variable.size in PARTS) and max(beginning) <= MOST_BEGINNING


def beginning_of(part: Part, variable: Optional[Symbol]) -> tuple[int, ...]:
    """The numbers with which the counters of a variable begin."""
    data = b"" if variable is None else part.data[variable.place : variable.place + variable.size]
    return tuple(int.from_bytes(data[at : at + COUNTER_BYTES], "little") for at in range(0, len(data), COUNTER_BYTES))


def memory_of(sections: dict[str, Part], relocations: list[Relocation], changed: AbstractSet[tuple[str, int]] = frozenset()) -> Memory:
    """The memory that a program's relocations name. `changed`: places of sections that it stores to, as (section, place)."""
    symbols, memory, counters = symbols_of(sections), Memory({}, [], [], [], {}, []), {}
    places = {(section, variable_at(symbols, sections[section].number, place)) for section, place in changed}
    for row in relocations:
        if row.kind != MAP_ADDRESS or not row.section.startswith(MEMORY):
            continue
        part = sections[row.section]
        variable = variable_at(symbols, part.number, row.place)
        beginning = beginning_of(part, variable)
        if is_counter(row.section, variable, beginning, (row.section, variable) in places):
            if counters.setdefault(variable.name, (row.section, variable)) != (row.section, variable):
                memory.faults.append((row.slot, f"takes the address of a second global {variable.name}: give one of them another name"))
            memory.beginnings.update({variable.name: beginning} if any(beginning) else {})
            memory.globals.append({"slot": row.slot, "map": variable.name, "place": row.place - variable.place})
            size = 1, max(1, variable.size // COUNTER_BYTES)
            if (variable.name, *size) not in memory.maps:
                memory.maps.append((variable.name, *size))
            continue
        if (row.section, variable) in places and row.section.startswith(VARIABLES):
            stored = row.section if variable is None else variable.name
            memory.faults.append((row.slot, f"stores to {row.name or stored}: {CHANGES}"))
        first, end = extent_of(symbols, part, variable, row.place)
        memory.constants[row.section] = part.data
        place = {"section": row.section, "place": row.place, "first": first, "end": end}
        memory.tables.append({"slot": row.slot, "name": row.name or row.section, **place})
    return memory


def extent_of(symbols: list[Symbol], part: Part, variable: Optional[Symbol], place: int) -> tuple[int, int]:
    """From where to where the constant lies in which a place is. One without a name lies between its neighbours."""
    if variable is not None and place < variable.place + variable.size:
        return variable.place, variable.place + variable.size
    later = [row.place for row in symbols if row.section == part.number and row.size and row.place > place]
    first = variable.place + variable.size if variable is not None else 0
    return min(first, place), min(later, default=len(part.data))


def faults_of_memory(sections: dict[str, Part], relocations: list[Relocation]) -> Iterator[tuple[int, str]]:
    """What there isn't: addresses in constants, as (slot, words)."""
    for row in relocations:
        if row.kind != MAP_ADDRESS or not row.section.startswith(MEMORY):
            continue
        if ".rel" + row.section in sections or row.section.startswith(CONSTANTS[1]):
            what = "functions or strings" if row.section.startswith(CONSTANTS) else "addresses"
            name = row.name or "a table"
            yield row.slot, f"reads {name}, which holds addresses, as a table of {what}: use a `switch`"
