"""Files with the numbers that a map's counters begin with: a line for each value, with its numbers in the order in which C declares
them."""
from __future__ import annotations

from typing import TYPE_CHECKING, Iterator, NamedTuple, Optional

from laxonje_tools.output import fail

from .layouts import COUNTER_BYTES, Cell
from .values import SIZES, fault_of, number_in, with_number

if TYPE_CHECKING:
    from collections.abc import Sequence

    from .btf import MapOfC
    from .layouts import Layout
    from .maps import Map

MOST = (1 << 63) - 1  # of a number in settings


class Fault(Exception):
    """Why a map can't begin so, in words."""


class Line(NamedTuple):
    """A line of a file: its number there, and the numbers in it."""

    place: int
    numbers: list[int]


class Part(NamedTuple):
    """A number of a value: its name, where it lies, and its bytes."""

    name: str
    place: int
    size: int


def lines_of_file(path: str) -> list[Line]:
    """The lines of a file that have numbers. Ends if one has something else."""
    try:
        with open(path, encoding="utf-8") as file:
            rows = [(place, line.split("#")[0].split()) for place, line in enumerate(file, 1)]
    except (OSError, UnicodeDecodeError) as fault:
        fail(f"{path}: {getattr(fault, 'strerror', None) or fault}")
    for place, words in rows:
        wrong = [word for word in words if number_in(word) is None]
        if wrong:
            fail(f"{path}: line {place}: {wrong[0]} is no number, of decimal digits or 0x and hex ones")
    return [Line(place, [number_in(word) for word in words]) for place, words in rows if words]


def parts_of(row: Map, declared: Optional[MapOfC]) -> list[Part]:
    """The numbers of a value; its counters if nothing is declared of it."""
    if declared is None or not declared.numbers:
        return [Part(f"counter {at}", COUNTER_BYTES * at, COUNTER_BYTES) for at in range(row.counters)]
    parts, end = [Part(number.name, number.place, number.size) for number in declared.numbers], 0
    for number, part in zip(declared.numbers, parts):
        if number.bits or part.size not in SIZES or part.place < end:
            raise Fault(f"{part.name} of the map {row.name} is a bit field, or lies in a union: it has no number of its own")
        end = part.place + part.size
    return parts


def counters_of(row: Map, declared: Optional[MapOfC], lines: list[Line], layout: Optional[Layout] = None) -> tuple[int, ...]:
    """What the counters of a map begin with, value by value. `layout`: where its values lie, if these are rows."""
    parts, entries = parts_of(row, declared), row.entries if layout is None else layout.shape.entries
    if len(lines) > entries:
        raise Fault(f"it has {len(lines)} values, and the map {row.name} {entries}")
    cells = whole_counters(row.counters) if layout is None else layout.cells
    return tuple(counter for line in lines for counter in counters_in(row, parts, line, cells))


def whole_counters(count: int) -> list[Cell]:
    return [Cell(at, COUNTER_BYTES) for at in range(0, COUNTER_BYTES * count, COUNTER_BYTES)]


def counters_in(row: Map, parts: list[Part], line: Line, cells: Sequence[Cell]) -> Iterator[int]:
    """What the counters of one value begin with. `cells`: the bytes of each."""
    if len(line.numbers) != len(parts):
        raise Fault(f"line {line.place}: it has {len(line.numbers)} numbers, and a value of the map {row.name} {len(parts)}")
    data = bytes(max(cell.end for cell in cells))
    for part, number in zip(parts, line.numbers):
        fault = fault_of(part.name, part.size, number)
        if fault is not None:
            raise Fault(f"line {line.place}: {fault}")
        data = with_number(data, part.place, part.size, number)
    for at, cell in enumerate(cells):
        counter = int.from_bytes(data[cell.place : cell.end], "little")
        if counter > MOST:
            raise Fault(f"line {line.place}: counter {at} would begin with {counter}: settings have numbers of at most 2^63 - 1")
        yield counter
