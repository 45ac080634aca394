"""Which rows of a map the values of another one become: one for each number, or for each few bytes if an index reaches them."""
from __future__ import annotations

from typing import NamedTuple, Optional

from .lines import Fault
from .places import ALL_BITS, InValue

COUNTER_BYTES = 8
UNITS = 8, 4, 2, 1  # bytes for which there is a row
MOST_ROWS, MOST_BYTES = 65536, 1 << ALL_BITS - 1


class Cell(NamedTuple):
    """Bytes of a value that have a row."""

    place: int
    size: int

    @property
    def end(self) -> int:
        return self.place + self.size


class Shape(NamedTuple):
    """A map whose values are to be rows: how many there are, and of how many bytes; the numbers in one as C declares them, and whether all
    processors have one value in Linux too."""

    name: str
    entries: int
    bytes: int
    numbers: tuple[Cell, ...] = ()
    is_shared: bool = True


class Access(NamedTuple):
    """Where a line reaches in a value, how many bytes, the slot of the whole program's function that it is for, and whether it stores."""

    place: InValue
    size: int
    slot: int
    stores: bool


class Layout(NamedTuple):
    """A map's values as rows: those of one value, in order. `unit`: of how many bytes each of the first ones is, which an index may
    reach; 0 if none does. `words`: how many these are. The others are numbers that lie in none of them alone."""

    shape: Shape
    cells: tuple[Cell, ...]
    unit: int = 0
    words: int = 0

    @property
    def rows(self) -> int:
        """How many there are of all values."""
        return self.shape.entries * len(self.cells)

    @property
    def others(self) -> tuple[Cell, ...]:
        return self.cells[self.words :]

    def cell_at(self, place: int) -> int:
        """The number of the cell in which a place lies."""
        found = (number for number, cell in enumerate(self.others, self.words) if cell.place <= place < cell.end)
        return next(found, place // max(1, self.unit))

    def cell_of(self, at: InValue) -> Cell:
        """A cell as large as the one in which an access lies, and for one that is known that one."""
        return self.cells[self.cell_at(at.rest) if at.bits == ALL_BITS else 0]

    @property
    def closed(self) -> list[Cell]:
        """The bytes of the first cells that have others, which no index may reach."""
        out = []
        for cell in sorted(self.others):
            first, end = cell.place // self.unit * self.unit, -(-cell.end // self.unit) * self.unit
            if out and first <= out[-1].end:
                out[-1] = Cell(out[-1].place, max(end, out[-1].end) - out[-1].place)
            else:
                out.append(Cell(first, end - first))
        return out


def layout_of(shape: Shape, accesses: list[Access]) -> Layout:
    """The rows of a map's values: one for each number, and if an index reaches some, one for as many bytes as that reaches at once."""
    known = [row for row in accesses if row.place.bits == ALL_BITS]
    outside = [row for row in known if row.place.rest + row.size > shape.bytes]
    if outside:
        raise fault_at(outside[0].slot, f"reaches outside of a value of {shape.name}, which has {shape.bytes} bytes")
    if shape.bytes > MOST_BYTES:
        raise Fault(f"has values of {shape.bytes} bytes in {shape.name}: at most {MOST_BYTES}")
    unit = unit_of(shape, [row for row in accesses if row not in known])
    layout = with_cells(shape, unit, [Cell(row.place.rest, row.size) for row in known])
    if layout is None:
        raise fault_at(known[0].slot, f"reaches numbers of {shape.name} several at once: make each of them a __u64")
    if layout.rows > MOST_ROWS:
        fewer = MOST_ROWS // len(layout.cells)
        raise fault_at(
            accesses[0].slot if accesses else 0,
            f"needs {layout.rows} rows for the values of {shape.name}, {len(layout.cells)} for each: at most {MOST_ROWS};"
            f" --entries {shape.name}={fewer} or fewer would do",
        )
    return layout


def unit_of(shape: Shape, indexed: list[Access]) -> int:
    """Of how many bytes there are rows, so that no access by an index reaches two, and if that can be each store all of one; 0 if there
    is no access."""
    if not indexed:
        return 0
    fits = [unit for unit in UNITS if all(1 << row.place.bits >= unit and row.place.rest % unit + row.size <= unit for row in indexed)]
    if not fits:
        raise fault_at(indexed[0].slot, f"reaches numbers of several sizes in {shape.name} by an index: make each of them a __u64")
    return next((unit for unit in fits if all(row.size == unit for row in indexed if row.stores)), fits[0])


def with_cells(shape: Shape, unit: int, known: list[Cell]) -> Optional[Layout]:
    """Rows of a unit, and those of numbers that are reached otherwise; None if more than a counter is reached at once. `known`: what is
    reached without an index."""
    if not unit:
        cells = cells_of([*known, *shape.numbers])
        return Layout(shape, cells or (Cell(0, 1),)) if cells is not None else None
    words = tuple(Cell(at, unit) for at in range(0, shape.bytes, unit))
    reached = {at // unit for cell in known for at in range(cell.place, cell.end)}
    numbers = [cell for cell in shape.numbers if any(at // unit in reached for at in range(cell.place, cell.end))]
    cells = cells_of([*known, *numbers])
    return None if cells is None else Layout(shape, words + tuple(cell for cell in cells if cell not in words), unit, len(words))


def cells_of(parts: list[Cell]) -> Optional[tuple[Cell, ...]]:
    """The bytes that hang together, each as one cell; None if one would have more than a counter."""
    out = []
    for part in sorted(set(parts)):
        if out and part.place < out[-1].end:
            out[-1] = Cell(out[-1].place, max(out[-1].end, part.end) - out[-1].place)
        else:
            out.append(part)
    return tuple(out) if all(cell.size <= COUNTER_BYTES for cell in out) else None


def fault_at(slot: int, words: str) -> Fault:
    fault = Fault(words)
    fault.slot = slot
    return fault
