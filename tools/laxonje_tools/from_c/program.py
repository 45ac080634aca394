"""A filter in C, or in an object file, as settings, with what the tools know of it beside them."""
from __future__ import annotations

import struct
from typing import TYPE_CHECKING, Callable, Iterable, Iterator, NamedTuple, Optional

from laxonje_tools.output import fail, stop_on

from . import btf, constants, elf, faults, one_queue, sequences
from .absent import Absent, kinds_of
from .calls import Array, Calls, Fault, Replaced, has_calls
from .changed import stored_to
from .compiler import Compiler
from .frames import stack_of
from .kernel import faults_of_kernel
from .large import large_values
from .lines import STACK_BYTES, packed
from .many import many_of
from .maps import SizedMap, maps_of, notes_of, settings_of
from .memory import COUNTER_BYTES, faults_of_memory, memory_of
from .queues import QUEUES
from .tables import HASHES
from .turned import sums_turned
from .values import SIZES, Constant, set_values, values_of
from .values_apart import values_apart
from .zeros import with_additions

if TYPE_CHECKING:
    from collections.abc import Mapping

    from .elf import Function, Part, Relocation

SECTION_NAME = "xdp"
MOST_OBJECT = 1 << 24  # bytes
FRAME, DOUBLE, STORE_DOUBLE_CONSTANT = 10, 8, 0x7A
ZEROS = "what the stack has where nothing was stored is 0 here, as it may be in Linux"
# what reading bytes that aren't as they should be raises
BROKEN = struct.error, ValueError, IndexError, KeyError, RecursionError, OverflowError


class Filter(NamedTuple):
    """`settings`: of the program as clang made it. If it has constants or globals in memory, keys of the tools'
    own say so, which `xdpbox` doesn't know; `form` has constants as maps, if they can be. `place`: of a slot its line of C,
    or None. `per_cpu`: the maps that are per CPU in Linux. `narrow`: those whose values have numbers of fewer than eight bytes.
    `notes`: what its author should know. `values`: its constants that can be set. `object`: the object file that it was made of, and the
    function's name. `again`: the same with more values in rows, None if there are none. `apart`: the same with what follows meetings of values
    of several maps copied for each, None if there are none. `made_with`: the same as clang makes it with one
    more word, None if it isn't another one; `zeroed`: the same on a stack that begins with zeros, None if it does."""

    settings: dict
    place: Callable
    per_cpu: set
    narrow: set
    notes: list
    values: list[Constant]
    object: Callable[[], tuple[bytes, str]]
    again: Callable[[], Optional[Filter]] = lambda: None
    apart: Callable[[], Optional[Filter]] = lambda: None
    made_with: Callable[[str], Optional[Filter]] = lambda word: None
    zeroed: Callable[[], Optional[Filter]] = lambda: None

    @property
    def form(self) -> dict:
        """Its settings with its constants as maps, if that can be, or else in keys of the tools' own."""
        return constants.with_constants(self.settings) or self.settings

    def with_parts(self, settings: dict) -> Optional[dict]:
        """One of these with maps of which a load may take a part of a counter; None if no value has numbers that are one."""
        rows = [{**row, "parts": True} if row["name"] in self.narrow else row for row in settings["map"]]
        return {**settings, "map": rows} if rows != settings["map"] else None

    @property
    def has_memory(self) -> bool:
        """Whether settings can't have it as clang made it, for constants or globals in memory."""
        return bool(self.form["tables"] or self.form["globals"])


class Asked(NamedTuple):
    """What a command asks for: a file, maps whose sizes it gives, which function, if the file has several, numbers of
    constants, as (name, number), what is left out, in the words of `absent`, entries of declared maps, as (name, number),
    files with the rows of maps, and with what their counters begin with, as (name, path), the MTU of the packets' device, and the
    nanoseconds between two calls for the time, None if the host writes it. `zeros`: whether the stack begins with zeros."""

    source: str
    maps: Iterable[SizedMap] = ()
    program: Optional[str] = None
    values: Iterable[tuple[str, int]] = ()
    left_out: frozenset[str] = frozenset()
    entries: Iterable[tuple[str, int]] = ()
    lists: Iterable[tuple[str, str]] = ()
    beginnings: Iterable[tuple[str, str]] = ()
    mtu: Optional[int] = None
    clock: Optional[int] = None
    zeros: bool = False


def read(asked: Asked) -> Filter:
    """The filter in a file. Ends if settings can't have it."""
    return read_by(asked, None if is_object(asked.source) else Compiler(asked.source))


def read_by(asked: Asked, compiler: Optional[Compiler]) -> Filter:
    """The same as a compiler makes it; None: of an object."""
    data = bytes_of(asked.source) if compiler is None else compiler.compiled()
    try:
        return filter_of(asked, elf.sections_of(data), compiler)
    except elf.NoObject as fault:
        by = "" if compiler is None else f"{compiler.clang} made no object for BPF: look at CFLAGS: "
        fail(f"{asked.source}: {by}{fault}")
    except BROKEN as fault:
        fail(f"{asked.source}: its object file isn't as it should be: {fault}")


def object_and_function(asked: Asked) -> tuple[bytes, str]:
    """The object file of a filter, as a loader reads it, and the name of the function."""
    return object_by(asked, None if is_object(asked.source) else Compiler(asked.source))


def object_by(asked: Asked, compiler: Optional[Compiler]) -> tuple[bytes, str]:
    """The same as a compiler makes it; None: of an object."""
    data = bytes_of(asked.source) if compiler is None else compiler.compiled()
    return data, chosen(asked, elf.sections_of(data)).name


def is_object(source: str) -> bool:
    """Whether a file is an object file. Ends if there is no file."""
    try:
        with open(source, "rb") as file:
            return file.read(len(elf.MAGIC)) == elf.MAGIC
    except OSError as fault:
        fail(f"{source}: {fault.strerror}")


def bytes_of(source: str) -> bytes:
    try:
        with open(source, "rb") as file:
            data = file.read(MOST_OBJECT + 1)
    except OSError as fault:
        fail(f"{source}: {fault.strerror}")
    if len(data) > MOST_OBJECT:
        fail(f"{source}: an object file of more than {MOST_OBJECT} bytes isn't read")
    return data


def filter_of(asked: Asked, sections: dict[str, Part], compiler: Optional[Compiler]) -> Filter:
    """The filter in an object."""
    source, function = asked.source, chosen(asked, sections)
    stop_on(f"{source}: {fault}" for fault in set_values(sections, asked.values))
    lines = btf.lines_of(sections, function, source).items()
    place = place_in_c({slot: line for slot, line in lines if compiler is None or not compiler.is_own(line)})
    stop_on(f"{place(slot) or f'{source}: slot {slot}'} {fault}" for slot, fault in faults_of_kernel(sections, function))
    try:
        made = without_calls(asked, sections, function, compiler)
    except Fault as fault:
        fail(f"{place(fault.slot) or f'{source}: slot {fault.slot}'} {fault}")
    given = Given(asked, sections, compiler, function, made, place)
    try:
        return with_rows(given, False)
    except Fault as fault:
        fail(f"{place(fault.slot) or f'{source}: slot {fault.slot}'} {fault}")


class Given(NamedTuple):
    """A function whose calls are written out, of an object."""

    asked: Asked
    sections: dict[str, Part]
    compiler: Optional[Compiler]
    function: Function
    made: Replaced
    place: Callable

    def again(self) -> Optional[Filter]:
        """The filter with more values in rows; None if there are none, or not so."""
        try:
            made = without_calls(self.asked, self.sections, self.function, self.compiler, True) if self.made.tables else self.made
            return with_rows(self._replace(made=made), True)
        except Fault:
            return None

    def apart(self) -> Optional[Filter]:
        """The filter with values of several maps apart, of which one has numbers of fewer than eight bytes; None if no ways meet with such."""
        narrow = {row.name for row in btf.maps_in(self.sections) if row.has_parts} & {row.name for row in self.made.relocations}
        try:
            made = values_apart(self.made, narrow, lambda row: None) if narrow else None
            found = None if made is None else with_rows(self._replace(made=made), False)
        except Fault:
            return None
        return None if found is None else found._replace(apart=lambda: None)

    def made_with(self, word: str, settings: dict) -> Optional[Filter]:
        """The filter as clang makes it with one more word; None if that has these settings too, or of an object."""
        compiler = None if self.compiler is None else self.compiler.with_word(word)
        found = None if compiler is None else read_by(self.asked, compiler)
        return None if found is None or found.settings == settings else found

    def zeroed(self) -> Optional[Filter]:
        """The filter on a stack that begins with zeros; None if it does."""
        return None if self.asked.zeros else read_by(self.asked._replace(zeros=True), self.compiler)


def with_rows(given: Given, is_again: bool) -> Optional[Filter]:
    """The filter with values in rows that need it. `is_again`: whether more are; None if there are no more."""
    asked, sections, compiler, _, made, place = given
    source = asked.source
    large = large_values(asked, sections, made, stored_to(made.code, made.relocations), is_again)
    if large is None and is_again:
        return None
    made = made if large is None else large.made
    notes = [f"{place(slot) or f'slot {slot}'}: {note}" for slot, note in made.notes]
    place, relocations = (lambda slot, before=place: before(made.origins[slot])), made.relocations
    memory = memory_of(sections, relocations, stored_to(made.code, relocations))
    named = {row.name for row in relocations}
    queues = {name: row for name, row in made.queues.items() if name in {row.name for row in made.relocations}}
    added = [*((name, 1, 1) for name in made.maps), *(row for table in [*made.tables.values(), *queues.values()] for row in table.maps)]
    of_rows = [] if large is None else large.maps
    maps, declared = maps_of(asked, sections, [*memory.maps, *of_rows, *added], named, compiler, large, made.tables, made.many, queues)
    notes += notes_of(declared)
    begun = {**memory.beginnings, **({} if large is None else large.globals)}
    maps = [row if row.values else row._replace(values=begun.get(row.name, ())) for row in maps]
    rows = [
        *faults.faults_of_program(made.code, relocations, [row.name for row in maps]),
        *faults_of_memory(sections, relocations),
        *memory.faults,
    ]
    stop_on(f"{place(slot) or f'{source}: slot {slot}'} {fault}" for slot, fault in sorted(rows))
    relocations = [row for row in relocations if not row.section]
    code = cleared(with_additions(made.code, relocations), relocations)
    settings = {
        "program": [code[at : at + 8].hex() for at in range(0, len(code), 8)],
        **settings_of(maps),
        "reloc": [{"slot": row.slot, "map": row.name} for row in relocations],
        **memory.settings(),
        "numbers": numbers_of(sections, declared, memory.maps),
        "stack": made.stack,
        "laid": [] if large is None else large.comments(sections),
        "alone": sorted(made.tables),
        "filled": [*(table.comment for table in [*made.tables.values(), *made.many.values(), *queues.values()]), *sequences.comments_of(made.maps), *one_queue.comments_of(made.maps)],
    }
    per_cpu = {row.name for row in declared if row.type in faults.PER_CPU}
    narrow = {row.name for row in declared if row.has_parts} | (set() if large is None else large.narrow)
    kept = [row for row in values_of(sections) if row.name not in begun]
    others = () if is_again else (given.again, given.apart, lambda word: given.made_with(word, settings), given.zeroed)
    return Filter(settings, place, per_cpu, narrow, notes, kept, lambda: object_by(asked, compiler), *others)


def without_calls(asked: Asked, sections: dict[str, Part], function: Function, compiler: Optional[Compiler], in_rows: bool = False) -> Replaced:
    """The function with what it calls written out. `in_rows`: whether values of tables of more than one counter are rows."""
    frames = None if compiler is None else compiler.frames()
    made = sums_turned(calls_written(asked, sections, function, frames, in_rows))
    return with_zeros(made) if asked.zeros else made


def calls_written(asked: Asked, sections: dict[str, Part], function: Function, frames: Optional[Mapping[str, int]], in_rows: bool) -> Replaced:
    """The same without zeros on its stack. `frames`: of functions how much of the stack each uses."""
    relocations, found = list(elf.relocations_of(sections, function)), Absent(asked.left_out, kinds_of(btf.maps_in(sections)))
    entries = {**dict(asked.entries), **{name: number for name, number, _ in asked.maps}}
    declared = [row._replace(entries=entries.get(row.name, row.entries)) for row in btf.maps_in(sections)]
    declared = [row for row in declared if row.type in (*faults.ARRAYS, *HASHES, *QUEUES)]
    has_many = any(row.type in faults.ARRAYS and many_of(row) is not None for row in declared)
    if not has_many and next(has_calls(function.code), None) is None and not any(found.has(row.name) for row in relocations):
        return Replaced(function.code, relocations, range(len(function.code) // 8), [], [], stack_of(function.code, function.name, frames))
    maps = {row.name: Array(parts_of_value(row), row.entries, row) for row in declared}
    functions = list(elf.functions_of(sections))
    return Calls(functions, lambda of: relocations_in(sections, of), found, maps, frames, asked.mtu, asked.clock, in_rows).replaced(function)


def with_zeros(made: Replaced) -> Replaced:
    """The same on a stack that begins with zeros."""
    words = range(-(STACK_BYTES if made.stack is None else made.stack), 0, DOUBLE)
    code = b"".join(packed(STORE_DOUBLE_CONSTANT, FRAME, 0, at) for at in words) + made.code
    relocations = [row._replace(slot=row.slot + len(words)) for row in made.relocations]
    return made._replace(code=code, relocations=relocations, origins=[*[0] * len(words), *made.origins], notes=[*made.notes, (0, ZEROS)])


def relocations_in(sections: dict[str, Part], function: Function) -> Iterator[Relocation]:
    """Those of a function that is called. What it asks of the kernel is a fault of the call."""
    for _, fault in faults_of_kernel(sections, function):
        raise Fault(f"calls {function.name}, which {fault}")
    return elf.relocations_of(sections, function)


def parts_of_value(declared: btf.MapOfC) -> list[tuple[int, int]]:
    """The numbers of a map's value, as (place, size), without what lies between two of them; its bytes, the most at once first, if some
    can't be told apart."""
    numbers = sorted((row.place, row.size) for row in declared.numbers if not row.bits and row.size in SIZES)
    ends = [place + size for place, size in numbers]
    are_apart = all(end <= place for end, (place, _) in zip(ends, numbers[1:]))
    if numbers and are_apart and len(numbers) == len(declared.numbers) < btf.MOST_NUMBERS:
        return numbers
    parts, at = [], 0
    for size in sorted(SIZES, reverse=True):
        while at + size <= declared.value_bytes:
            parts.append((at, size))
            at += size
    return parts


def chosen(asked: Asked, sections: dict[str, Part]) -> Function:
    """The function that settings are made of."""
    functions = list(elf.functions_of(sections))
    here = [row for row in functions if row.section.startswith(SECTION_NAME)]
    named = [row for row in here if asked.program in (None, row.name, row.section)]
    if len(named) == 1:
        return named[0]
    listed = ", ".join(f"{row.name} in {row.section}" for row in here)
    if here and asked.program is None:
        fail(f"{asked.source}: {len(here)} functions in sections {SECTION_NAME}..: name one, as --program {here[0].name}: {listed}")
    if here:
        fail(f"{asked.source}: {len(named) or 'no'} function{'s are' if named else ' is'} called {asked.program}: {listed}")
    others = sorted({row.section for row in functions})
    there = f"; there is {', '.join(others)}" if others else ""
    fail(f'{asked.source}: no function in a section "{SECTION_NAME}"{there}: write SEC("{SECTION_NAME}") in front of it')


def numbers_of(sections: dict[str, Part], declared: Iterable[btf.MapOfC], of_globals: Iterable[SizedMap]) -> dict:
    """By map the numbers in a value, as C declares them."""
    found = {row.name: row.numbers for row in declared}
    if ".BTF" in sections:
        types = btf.Types(sections[".BTF"].data)
        rows = ((name, types.numbers_of(name), counters) for name, _, counters in of_globals)
        found.update((name, numbers) for name, numbers, counters in rows if counters_of(numbers) == counters)  # not of a part of one
    return {name: [number._asdict() for number in rows] for name, rows in found.items()}


def counters_of(numbers: Iterable[btf.Number]) -> int:
    """How many counters numbers take up as they lie in a value."""
    return -(-max((row.place + row.size for row in numbers), default=0) // COUNTER_BYTES)


def cleared(program: bytes, relocations: list[Relocation]) -> bytes:
    """The program with 0 as the constant of each map's address: the place of a static map stands there."""
    code = bytearray(program)
    for row in relocations:
        if row.kind == elf.MAP_ADDRESS:
            code[8 * row.slot + 4 : 8 * row.slot + 8] = bytes(4)
    return bytes(code)


def place_in_c(lines: dict[int, str]) -> Callable[[int], Optional[str]]:
    """The line of C of a slot: the last one that began before it."""

    def place(slot: int) -> Optional[str]:
        at = max((start for start in lines if start <= slot), default=None)
        return None if at is None else f"{lines[at]} (slot {slot})"

    return place
