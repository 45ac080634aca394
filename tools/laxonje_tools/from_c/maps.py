"""The maps of a filter: those of the command line, those that are declared, and globals; and the rows of their lists."""
from __future__ import annotations

from typing import TYPE_CHECKING, Callable, Iterator, NamedTuple, Optional

from laxonje_tools.output import stop_on

from . import beginnings, btf, elf, faults, lists

if TYPE_CHECKING:
    from collections.abc import Mapping

    from .btf import MapOfC
    from .compiler import Compiler
    from .elf import Part
    from .layouts import Layout
    from .large import InRows
    from .many import Many
    from .queues import Queue
    from .program import Asked
    from .tables import Table

TEXT = ".text"  # a section of functions that others call
SizedMap = tuple[str, int, Optional[int]]  # its name, entries and counters, None if these aren't said


class Map(NamedTuple):
    """A map of settings. `kind`: of its keys, None for an array's. `size`: how many bytes of data a key has. `rows`: its list,
    in hex. `values`: what its counters begin with, if that isn't 0."""

    name: str
    entries: int
    counters: int
    kind: Optional[str] = None
    size: int = faults.INDEX_BYTES
    rows: tuple = ()
    values: tuple = ()

    def settings(self) -> dict:
        row = {"name": self.name, "entries": self.entries, "counters": self.counters}
        row = {**row, "values": list(self.values)} if self.values else row
        return row if self.kind is None else {**row, "key": self.kind, "size": self.size, "rows": list(self.rows)}


def settings_of(maps: list[Map]) -> dict:
    """Maps as settings have them, with wider limits only if one of them needs these."""
    rows = {"map": [row.settings() for row in maps]}
    return {"wide": True, **rows} if faults.are_wide(maps) else rows


def maps_of(
    asked: Asked,
    sections: dict[str, Part],
    of_globals: list[SizedMap],
    named: set[str],
    compiler: Optional[Compiler],
    large: Optional[InRows] = None,
    tables: Mapping[str, Table] = {},
    many: Mapping[str, Many] = {},
    queues: Mapping[str, Queue] = {},
) -> tuple[list[Map], list[MapOfC]]:
    """The maps: those of the command line, those that are declared, and globals, the latter two in the order in which
    the file declares them; and what is declared of the second. `named`: maps that the function names. Other arrays are
    there if it is the one function of the file, and if settings can have them. `large`: which have their values in rows; `tables`: to which
    the program adds rows; `many`: whose values lie in several maps; `queues`: queues and
    stacks."""
    source, said = asked.source, {name: (entries, counters) for name, entries, counters in asked.maps}
    as_declared = list(declared_in(asked, sections, named | set(said)))
    begun = {**dict(asked.lists), **dict(asked.beginnings)}
    stop_on(f"{source}: the program adds rows to {name} itself, and so it begins empty" for name in sorted(begun.keys() & tables.keys()))
    as_declared = [tables[row.name].as_array(btf.Number) if row.name in tables else row for row in as_declared]
    as_declared = [queues[row.name].as_array() if row.name in queues else row for row in as_declared]
    as_declared = [part for row in as_declared for part in (many[row.name].arrays if row.name in many else [row])]
    declared = as_declared if large is None else [large.declared(row) for row in as_declared]
    stop_on(f"{source}: {fault}" for row in declared for fault in faults.faults_of_map(row))
    if compiler is not None and len(declared) + len(of_globals) > 1:
        order = order_by(compiler.declared)
        declared, of_globals = (sorted(rows, key=lambda row: order(row[0])) for rows in (declared, of_globals))
    by_name = {row.name: map_of(row) for row in declared}
    worded = [by_name.get(name, Map(name, entries, 1)) for name, (entries, _) in said.items()]
    worded = [row._replace(counters=said[row.name][1] or row.counters) for row in worded]
    others = [row for name, row in by_name.items() if name not in said]
    maps = [*worded, *others, *(Map(*row) for row in of_globals)]
    stop_on(f"{source}: {fault}" for fault in faults.faults_of_sizes(maps))
    symbols = {row.name for row in elf.symbols_of(sections)}
    stop_on(f"{source}: there is no map {name} in it" for name in sorted(set(said) - symbols))
    return with_values(asked, with_lists(asked, maps), as_declared, {} if large is None else large.layouts), declared


def declared_in(asked: Asked, sections: dict[str, Part], named: set[str]) -> Iterator[MapOfC]:
    """What a file declares of the maps that its function needs, with the numbers of entries that a command says."""
    declared = list(btf.maps_in(sections))
    missing = dict(asked.entries).keys() - {row.name for row in declared}
    stop_on(f"{asked.source}: it declares no map {name}" for name in sorted(missing))
    names = [row.name for row in declared]
    stop_on(f"{asked.source}: it declares two maps {name}: give one of them another name" for name in sorted(set(names)) if names.count(name) > 1)
    entries = {**dict(asked.entries), **{name: number for name, number, _ in asked.maps}}
    is_alone = len({row.section for row in elf.functions_of(sections)} - {TEXT}) == 1 and asked.program is None
    for row in declared:
        row = row._replace(entries=entries.get(row.name, row.entries))
        is_there = is_alone and row.type in faults.ARRAYS and not any(faults.faults_of_map(row))
        if row.name in named or is_there:
            yield row


def map_of(row: MapOfC) -> Map:
    """A map that is declared. A list has no more rows than there may be."""
    kind = faults.KEYED.get(row.type)
    entries = row.entries if kind is None else min(row.entries, faults.MOST_ENTRIES)
    return Map(row.name, entries, row.counters, kind, faults.data_bytes(row))


def notes_of(declared: list[MapOfC]) -> list[str]:
    """What an author should know of maps."""
    long = [row for row in declared if row.type in faults.KEYED and row.entries > faults.MOST_ENTRIES]
    return [f"the list {row.name} has at most {faults.MOST_ENTRIES} rows here, and {row.entries} in Linux" for row in long]


def with_lists(asked: Asked, maps: list[Map]) -> list[Map]:
    """The maps with the rows that a command gives them."""
    files = dict(asked.lists)
    missing = files.keys() - {row.name for row in maps}
    stop_on(f"{asked.source}: it uses no map {name}" for name in sorted(missing))
    keys = {name: lists.keys_of_file(path) for name, path in files.items()}
    listed = [(row, keys[row.name]) for row in maps if row.name in keys]
    stop_on(f"{files[row.name]}: {fault}" for row, given in listed for fault in faults.faults_of_list(row, given))
    return [row._replace(rows=tuple(key.row(row.kind) for key in keys.get(row.name, []))) for row in maps]


def with_values(asked: Asked, maps: list[Map], declared: list[MapOfC], layouts: Mapping[str, Layout]) -> list[Map]:
    """The maps with what a command says that their counters begin with."""
    files, numbers = dict(asked.beginnings), {row.name: row for row in declared}
    missing = files.keys() - {row.name for row in maps}
    stop_on(f"{asked.source}: it uses no map {name}" for name in sorted(missing))
    given = {name: beginnings.lines_of_file(path) for name, path in files.items()}
    try:
        rows = [(row, numbers.get(row.name), given[row.name], layouts.get(row.name)) for row in maps if row.name in given]
        values = {row.name: beginnings.counters_of(row, *of_value) for row, *of_value in rows}
    except beginnings.Fault as fault:
        stop_on([f"{asked.source}: {fault}"])
    return [row._replace(values=values.get(row.name, ())) for row in maps]


def order_by(places: dict[str, int]) -> Callable[[str], int]:
    """Of a symbol's name where it is declared. clang adds a number to the second of two static variables of a function
    that have one name."""
    return lambda name: places.get(name, places.get(name.rstrip("0123456789").rstrip("."), len(places)))
