"""Which values are written as rows: those of arrays, and globals that change, of more bytes than settings can have. If that
doesn't help, those of fewer bytes that an index reaches too, or whose numbers need more counters than there are."""
from __future__ import annotations

from typing import TYPE_CHECKING, Iterator, NamedTuple, Optional

from .btf import Types, maps_in
from .elf import VARIABLES, symbols_of, variable_at
from .faults import ARRAYS, COUNTER_BYTES, MOST_COUNTERS, MOST_ENTRIES, PER_CPU
from .in_rows import in_rows
from .layouts import Cell, Layout, Shape
from .lines import Fault
from .memory import MOST_BEGINNING
from .values_apart import values_apart

if TYPE_CHECKING:
    from .btf import MapOfC, Number
    from .calls import Replaced
    from .elf import Part, Relocation
    from .maps import SizedMap
    from .program import Asked

MOST_WHOLE = COUNTER_BYTES * MOST_COUNTERS  # bytes of a value in settings


class InRows(NamedTuple):
    """A function with values in rows. `layouts`: of which maps, by their names; `globals`: those of them that are variables, with what
    their counters begin with."""

    made: Replaced
    layouts: dict[str, Layout]
    globals: dict[str, tuple[int, ...]]

    @property
    def maps(self) -> list[SizedMap]:
        """The maps that variables became."""
        return [(name, self.layouts[name].rows, 1) for name in self.globals]

    @property
    def narrow(self) -> set[str]:
        """The maps of which some row is fewer bytes than a counter."""
        return {name for name, layout in self.layouts.items() if any(cell.size < COUNTER_BYTES for cell in layout.cells)}

    def declared(self, row: MapOfC) -> MapOfC:
        """A map as it is then."""
        layout = self.layouts.get(row.name)
        return row if layout is None else row._replace(value_bytes=COUNTER_BYTES, entries=layout.rows, numbers=[])

    def comments(self, sections: dict[str, Part]) -> list[str]:
        """Where a host finds the numbers of these values, a line each."""
        named = {row.name: row.numbers for row in maps_in(sections)}
        types = Types(sections[".BTF"].data) if ".BTF" in sections else None
        named.update((name, types.numbers_of(name)) for name in self.globals if types)
        keys = {name: table.keys_name for name, table in self.made.tables.items()}
        return [line for name, layout in self.layouts.items() for line in comments_of(layout, named.get(name, []), keys.get(name))]


def comments_of(layout: Layout, numbers: list[Number], keys: Optional[str]) -> Iterator[str]:
    """`keys`: the map that has the keys of a table."""
    name, each, is_one = layout.shape.name, len(layout.cells), layout.shape.entries == 1
    first = "row " if is_one else f"row {each}*{'key' if keys is None else 'K'} + "
    where = "" if keys is None else f", where row K of {keys} has its key"
    if layout.unit:
        yield f"map {name}: byte B of a value lies in {first}B/{layout.unit}{bits_of(layout.unit)}{where}: there are {each} rows for each value"
    for at, cell in enumerate(layout.others, layout.words):
        inside = [row.name for row in numbers if cell.place <= row.place < cell.end]
        yield f"map {name}: {', '.join(dict.fromkeys(inside)) or f'byte {cell.place} of a value'} is {first}{at}{bits_of(cell.size)}{where}"


def bits_of(size: int) -> str:
    """Which bits of a row's counter so many bytes have: above these stands what atomic additions carry."""
    return f", bits 0 to {8 * size - 1}" if size < COUNTER_BYTES else ""


def large_values(
    asked: Asked, sections: dict[str, Part], made: Replaced, changed: set[tuple[str, int]], is_again: bool
) -> Optional[InRows]:
    """A function with such values in rows; None if there are none. `changed`: places of sections that it stores to, as (section, place);
    `is_again`: whether those of more than one counter are taken too."""
    least = COUNTER_BYTES if is_again else MOST_WHOLE
    named = {row.name for row in made.relocations}
    entries = {**dict(asked.entries), **{name: number for name, number, _ in asked.maps}}
    of_maps = [
        Shape(row.name, entries.get(row.name, row.entries), row.value_bytes, cells_in(row.numbers), row.type not in PER_CPU)
        for row in maps_in(sections)
        if row.type in ARRAYS and row.value_bytes > least and row.name in named
    ]
    filled = [table for table in made.tables.values() if table.in_rows]
    of_tables = [Shape(row.name, table.rows, row.value_bytes, cells_in(row.numbers), row.type not in PER_CPU) for table in filled for row in [table.declared]]
    variables = {found: size for found, size in variables_in(sections, changed).items() if size > least}
    of_maps = [shape for shape in of_maps if shape.entries and (not is_again or shape.entries * shape.bytes <= MOST_ENTRIES * COUNTER_BYTES)]
    types = Types(sections[".BTF"].data) if ".BTF" in sections else None
    of_globals = [Shape(name, 1, size, cells_in(types.numbers_of(name)) if types else ()) for (_, _, name), size in variables.items()]
    shapes = [*of_maps, *of_tables, *of_globals]
    if not shapes or is_again and not of_maps and not of_globals and all(shape.bytes > MOST_WHOLE for shape in of_tables):
        return None
    arrays = {row.name for row in maps_in(sections) if row.type in ARRAYS or row.name in made.tables}

    def variable(row: Relocation) -> Optional[tuple[str, int]]:
        return in_variable(sections, variables, row)

    made = values_apart(made, {shape.name for shape in shapes}, variable) or made
    found, layouts = in_rows(made, shapes, arrays, variable)
    begun = {name: beginning_of(sections, section, place, layouts[name]) for section, place, name in variables}
    return InRows(found, layouts, begun)


def cells_in(numbers: list[Number]) -> tuple[Cell, ...]:
    return tuple(Cell(row.place, row.size) for row in numbers if row.size)


def variables_in(sections: dict[str, Part], changed: set[tuple[str, int]]) -> dict[tuple[str, int, str], int]:
    """The sizes of the globals that are stored to, by (section, place, name)."""
    symbols, out = symbols_of(sections), {}
    for section, place in sorted(changed):
        variable = variable_at(symbols, sections[section].number, place) if section.startswith(VARIABLES) else None
        if variable is not None and place < variable.place + variable.size:
            out[section, variable.place, variable.name] = variable.size
    return out


def in_variable(sections: dict[str, Part], variables: dict[tuple[str, int, str], int], row: Relocation) -> Optional[tuple[str, int]]:
    """The global in which a relocation's place lies, and where in it; None if it is none of these."""
    for (section, place, name), size in variables.items():
        if row.section == section and place <= row.place < place + size:
            return name, row.place - place
    return None


def beginning_of(sections: dict[str, Part], section: str, place: int, layout: Layout) -> tuple[int, ...]:
    """What the counters of a variable's rows begin with; nothing if that is 0."""
    data = sections[section].data[place : place + layout.shape.bytes]
    numbers = tuple(int.from_bytes(data[cell.place : cell.end], "little") for cell in layout.cells)
    if max(numbers) > MOST_BEGINNING:
        raise Fault(f"stores to {layout.shape.name}, which begins with {max(numbers)}: a counter begins with at most 2^63 - 1")
    return numbers if any(numbers) else ()
