"""Values of more than settings can have, each as several rows of a map: a row for each number, with a counter of its own.

In the program as it is written here a place in such a value is a number: the key and 1 above 32 bits, and below these the place
in the value; 0 is none. So all that is computed of it stays, and an access looks up its own row. One that would reach outside of the
value, which Linux's verifier never lets a program do, ends it with ABORTED."""
from __future__ import annotations

from typing import TYPE_CHECKING, AbstractSet, Callable, Iterable, Iterator, Mapping, NamedTuple, Optional

from laxonje_tools.straight.command import FUSED
from laxonje_tools.straight.counts import fused
from laxonje_tools.straight.parts import CARRIES
from laxonje_tools.straight.settings import instructions_of

from .elf import MAP_ADDRESS, SLOT_BYTES, Relocation
from .layouts import COUNTER_BYTES, Access, Layout, Shape, layout_of
from .lines import (
    CALL, EXIT, JUMP, MOV_CONSTANT, MOV_CONSTANT_32, STACK_BYTES, WIDE, Fault, Line, following_in, lines_of, packed, reads, writes, written,
)  # fmt: skip
from .places import ALL_BITS, LOADS, InValue, OfMap, Places, check_uses
from .reloads import without_reloads

if TYPE_CHECKING:
    from .calls import Replaced

FRAME, ANSWER, FIRST, SECOND, ARGUMENTS, LOW = 10, 0, 1, 2, range(1, 6), range(6)  # registers, the last: those that a call changes
LOOKUP, DOUBLE, INDEX_BYTES, KEY_SHIFT = 1, 8, 4, 32
MOV_64, MOV_32, ADD, ADD_CONSTANT, MUL_CONSTANT, LSH_CONSTANT, RSH_CONSTANT, ARSH_CONSTANT = 0xBF, 0xBC, 0x0F, 0x07, 0x27, 0x67, 0x77, 0xC7
LOAD_WORD, LOAD_DOUBLE, STORE_DOUBLE, ADD_ATOMICALLY = 0x61, 0x79, 0x7B, 0xDB
IF_ABOVE_CONSTANT, IF_BELOW_CONSTANT, IF_EQUAL_CONSTANT = 0x25, 0xA5, 0x15
BY_REGISTER_STORED, ATOMIC, WITH_SIGN, FETCH = 3, 6, 4, 0x01  # a class of opcodes, modes, and a bit of a constant
SIZES = {0x00: 4, 0x08: 2, 0x10: 1, 0x18: 8}  # of accesses, by two bits of their opcodes
MOST_KEPT = 4  # addresses of rows that are kept for a further access


def size_of(line: Line) -> int:
    return SIZES[line.opcode & 0x18]


def in_rows(
    made: Replaced, shapes: Iterable[Shape], arrays: AbstractSet[str], variable: Callable[[Relocation], Optional[tuple[str, int]]]
) -> tuple[Replaced, dict[str, Layout]]:
    """A function whose calls are written out with the values of these maps in rows, and where these are. `arrays`: the names of all arrays. A
    fault's slot, and those of notes, are of the whole program's function."""
    try:
        return written_in_rows(made, {shape.name: shape for shape in shapes}, arrays, variable)
    except Fault as fault:
        fault.slot = made.origins[fault.slot]
        raise


def written_in_rows(
    made: Replaced, shapes: Mapping[str, Shape], arrays: AbstractSet[str], variable: Callable[[Relocation], Optional[tuple[str, int]]]
) -> tuple[Replaced, dict[str, Layout]]:
    """The same with a fault's slot of the function that is given."""
    lines = lines_of(made.code, made.relocations)
    places = Places(lines, shapes.keys(), variable)
    check_uses(lines, places)
    notes = [*made.notes, *((made.origins[slot], note) for slot, note in counted(lines, places, shapes))]
    layouts = {name: layout_of(shape, list(accesses_to(name, lines, places))) for name, shape in shapes.items()}
    rows = Rows(lines, places, layouts, made.stack, arrays)
    made_of = list(rows.replaced())
    without_reloads(made_of, set(rows.homes.values()))
    code, relocations, slots = written(made_of)
    origins = [made.origins[slot] for slot in slots]
    return made._replace(code=code, relocations=relocations, origins=origins, notes=list(dict.fromkeys(notes)), stack=rows.stack), layouts


def counted(lines: list[Line], places: Places, shapes: Mapping[str, Shape]) -> list[tuple[int, str]]:
    """Makes atomic additions of loads, additions and stores of one counter, and says so where Linux may lose counts."""
    given, notes = instructions_of({"program": [line.raw[at : at + 8].hex() for line in lines for at in range(0, len(line.raw), 8)]}), []
    code = given
    for line in lines:
        at = places.in_value(line) if line.opcode == STORE_DOUBLE else None
        mended = fused(code, line.slot) if at is not None else None
        if mended is not None:
            code = mended
            notes += [(line.origin, FUSED)] if shapes[at.map].is_shared else []
    for line in lines:
        if code[line.slot] is not given[line.slot]:
            line.raw = bytes.fromhex("".join(code[line.slot].words()))
    return notes


def accesses_to(name: str, lines: list[Line], places: Places) -> Iterator[Access]:
    for line in lines:
        at = places.in_value(line)
        if at is not None and at.map == name:
            yield Access(at, size_of(line), line.origin, line.opcode & 7 != LOADS)
        key = places.before.get(line, {}).get(SECOND)
        if is_lookup(line) and isinstance(key, InValue) and key.map == name:  # of an array: other lookups are refused
            yield Access(key, INDEX_BYTES, line.origin, False)


def is_lookup(line: Line) -> bool:
    return (line.opcode, line.source, line.immediate) == (CALL, 0, LOOKUP)


# --- the program


class Kept(NamedTuple):
    """An access's base and offset: as long as the base isn't written, it is the same row."""

    base: int
    offset: int


class Rows:
    """The lines of a function, and what stands in their place. `stack`: how much of it is in use; `arrays`: the names of all arrays."""

    def __init__(
        self, lines: list[Line], places: Places, layouts: Mapping[str, Layout], stack: Optional[int], arrays: AbstractSet[str]
    ) -> None:
        self.lines, self.places, self.layouts, self.arrays = lines, places, layouts, arrays
        self.above = None if stack is None else stack + DOUBLE - 1 & -DOUBLE
        self.homes: dict[object, int] = {}  # places on the stack
        self.stop = [Line(packed(MOV_CONSTANT, ANSWER), lines[-1].origin), Line(packed(EXIT), lines[-1].origin)]
        self.is_stopped = False
        self.needed = low_needed(lines)
        accesses = {line: kept_of(line) for line in lines if places.in_value(line) is not None}
        self.slots = {key: number % MOST_KEPT for number, key in enumerate(dict.fromkeys(accesses.values()))}
        self.there = self.addresses_there(accesses)
        self.again = {key for line, key in accesses.items() if self.there.get(line, {}).get(self.slots[key]) == key}

    def addresses_there(self, accesses: dict[Line, Kept]) -> dict[Line, dict[int, Kept]]:
        """By line the rows whose addresses are surely kept in front of it."""
        following, there, todo = following_in(self.lines), {self.lines[0]: {}}, [self.lines[0]]
        while todo:
            line = todo.pop()
            behind = dict(there[line])
            if line in accesses:
                behind[self.slots[accesses[line]]] = accesses[line]
            behind = {slot: key for slot, key in behind.items() if not writes(line, key.base)}
            for after in following[line]:
                both = behind if after not in there else dict(behind.items() & there[after].items())
                if both != there.get(after):
                    there[after] = both
                    todo.append(after)
        return there

    def home(self, what: object) -> int:
        """Where on the stack something is kept."""
        if self.above is None:
            raise Fault("has values of several rows, and its object file doesn't show how much of the stack it uses: give the C")
        if what not in self.homes:
            self.homes[what] = -(self.above + DOUBLE * (len(self.homes) + 1))
            if -self.homes[what] > STACK_BYTES:
                raise Fault(f"has values of several rows, with more than {STACK_BYTES - DOUBLE * len(self.homes)} bytes of the stack in use")
        return self.homes[what]

    @property
    def stack(self) -> Optional[int]:
        """How much of the stack is in use then."""
        return None if self.above is None else self.above + DOUBLE * len(self.homes)

    def replaced(self) -> Iterator[Line]:
        for line in self.lines:
            try:
                yield from self.instead(line)
            except Fault as fault:
                fault.slot = line.origin
                raise
        if self.is_stopped:
            yield from self.stop

    def instead(self, line: Line) -> list[Line]:
        """The lines in the place of one."""
        held, at = self.places.before.get(line, {}), self.places.in_value(line)
        if at is not None:
            return self.reached(line, at)
        given, key = held.get(FIRST), held.get(SECOND)
        if is_lookup(line) and isinstance(given, OfMap) and given.map in self.layouts:
            return self.looked_up(line, self.layouts[given.map].shape, key)
        if is_lookup(line) and isinstance(key, InValue) and isinstance(given, OfMap) and given.map in self.arrays:
            return self.looked_up_elsewhere(line, key)
        given = (FIRST, SECOND) if is_lookup(line) else ARGUMENTS
        if line.opcode == CALL and any(isinstance(held.get(register), InValue) for register in given):
            raise Fault("gives a call an address in a value of several rows: copy what is there into a variable first")
        if line.opcode == WIDE and line.row is not None:
            variable = self.places.variable(line.row)
            if variable is not None:
                number = (1 << KEY_SHIFT) + variable[1]
                line.raw, line.row = packed(WIDE, line.destination, 0, 0, number % (1 << 32)) + packed(0, 0, 0, 0, number >> 32), None
            elif not line.row.section and line.row.name in self.layouts:
                line.put(MOV_CONSTANT, line.destination)
        return [line]

    def looked_up(self, line: Line, shape: Shape, key: object) -> list[Line]:
        """What is in the place of a lookup: the place at which the value under a key begins, or 0."""
        load = Line(packed(LOAD_WORD, ANSWER, SECOND), line.origin)
        first = self.row_of(load, key, SECOND) if isinstance(key, InValue) else [load]
        none = Line(packed(MOV_CONSTANT, ANSWER), line.origin)
        end = Line(packed(JUMP), line.origin)
        rows = [(IF_ABOVE_CONSTANT, ANSWER, 0, 0, shape.entries - 1), (ADD_CONSTANT, ANSWER, 0, 0, 1), (LSH_CONSTANT, ANSWER, 0, 0, KEY_SHIFT), (JUMP,)]
        rest = [Line(packed(*fields), line.origin) for fields in rows]
        rest[0].target, rest[-1].target = none, end
        line.put(JUMP)  # jumps to the call stay right
        return [line, *first, *rest, none, end]

    def looked_up_elsewhere(self, line: Line, key: InValue) -> list[Line]:
        """What is in the place of a lookup in another array, whose index lies in a value."""
        kept, place = self.home(FIRST), self.home("index")
        load, call = Line(packed(LOAD_WORD, SECOND), line.origin), Line(line.raw, line.origin, line.row)
        begin = self.lines_for(line, [(STORE_DOUBLE, FRAME, FIRST, kept)])
        load.raw = packed(LOAD_WORD, SECOND, ANSWER, self.low_of(key))
        found = [*self.row_of_access(line, key, SECOND, 0), load]
        rows = [(STORE_DOUBLE, FRAME, SECOND, place), (MOV_64, SECOND, FRAME), (ADD_CONSTANT, SECOND, 0, 0, place), (LOAD_DOUBLE, FIRST, FRAME, kept)]
        line.put(JUMP)  # jumps to the call stay right
        return [line, *begin, *found, *self.lines_for(line, rows), call]

    def reached(self, line: Line, at: InValue) -> list[Line]:
        """What is in the place of an access: a number that is stored is put into the first argument's register."""
        key, layout, low = kept_of(line), self.layouts[at.map], self.low_of(at)
        is_there = self.there.get(line, {}).get(self.slots[key]) == key
        access = of_counter(line, low, layout.cell_of(at).size)
        stored = line.source if line.opcode & 7 == BY_REGISTER_STORED else None
        changed = {ANSWER} if is_there else set(LOW)
        if any(FIRST in (row[1], *row[2:3]) for row in access if row[0] & 7 != LOADS):
            changed = changed | {FIRST}
        result = line.destination if line.opcode & 7 == LOADS else stored if fetches(line) else None
        needed = self.needed[line] - {result}
        kept = sorted((needed | {stored} if stored in changed else needed) & changed)
        taken = [] if stored is None else [(LOAD_DOUBLE, FIRST, FRAME, self.home(stored)) if stored in changed else (MOV_64, FIRST, stored)]
        given = [(MOV_64, stored, FIRST)] if result == stored is not None and stored != FIRST else []
        begin = [(STORE_DOUBLE, FRAME, register, self.home(register)) for register in kept]
        behind = [(LOAD_DOUBLE, register, FRAME, self.home(register)) for register in kept if register in needed]
        found = self.lines_for(line, [(LOAD_DOUBLE, ANSWER, FRAME, self.home(("row", self.slots[key])))]) if is_there else self.row_of_access(line, at, key.base)
        if key in self.again and not is_there:
            found += self.lines_for(line, [(STORE_DOUBLE, FRAME, ANSWER, self.home(("row", self.slots[key])))])
        begin, behind = self.lines_for(line, begin), self.lines_for(line, [*taken, *access, *given, *behind])
        line.put(JUMP)  # jumps to the access stay right
        return [line, *begin, *found, *behind]

    def lines_for(self, line: Line, rows: Iterable[tuple]) -> list[Line]:
        return [Line(packed(*fields), line.origin) for fields in rows]

    def row_of(self, load: Line, at: InValue, base: int) -> list[Line]:
        """A load of a word from a place in a value, all of whose registers are free."""
        load.raw = packed(load.opcode, load.destination, ANSWER, self.low_of(at))
        return [*self.row_of_access(load, at, base, 0), load]

    def low_of(self, at: InValue) -> int:
        """How far in its row an access lies."""
        layout = self.layouts[at.map]
        return at.rest - layout.cell_of(at).place if at.bits == ALL_BITS else at.rest % layout.unit

    def row_of_access(self, line: Line, at: InValue, base: int, offset: Optional[int] = None) -> list[Line]:
        """What leaves the address of a place's row in the register of answers."""
        offset, place, stop = line.offset if offset is None else offset, self.home("key"), self.stop[0]
        begin = [(MOV_64, SECOND, base)] if base != SECOND else []
        begin += [(ADD_CONSTANT, SECOND, 0, 0, offset)] if offset else []
        out = [*self.lines_for(line, begin), *self.row_number(line, at)]
        rows = [(STORE_DOUBLE, FRAME, SECOND, place), (MOV_64, SECOND, FRAME), (ADD_CONSTANT, SECOND, 0, 0, place)]
        address = Line(packed(WIDE, FIRST) + bytes(SLOT_BYTES), line.origin, Relocation(0, MAP_ADDRESS, at.map, 0))
        is_none = Line(packed(IF_EQUAL_CONSTANT, ANSWER), line.origin, target=stop)
        self.is_stopped = True
        return [*out, *self.lines_for(line, rows), address, *self.lines_for(line, [(CALL, 0, 0, 0, LOOKUP)]), is_none]

    def row_number(self, line: Line, at: InValue) -> list[Line]:
        """What makes the number of its row of a place in the second argument's register."""
        layout = self.layouts[at.map]
        each = len(layout.cells)
        of_key = [(RSH_CONSTANT, SECOND, 0, 0, KEY_SHIFT), *([(MUL_CONSTANT, SECOND, 0, 0, each)] if each > 1 else [])]
        if at.bits == ALL_BITS:
            return self.lines_for(line, [*of_key, (ADD_CONSTANT, SECOND, 0, 0, layout.cell_at(at.rest) - each)])
        shift = [(RSH_CONSTANT, FIRST, 0, 0, layout.unit.bit_length() - 1)] if layout.unit > 1 else []
        rest = self.lines_for(line, [*shift, *of_key, (ADD, SECOND, FIRST), (ADD_CONSTANT, SECOND, 0, 0, -each)])
        out = self.lines_for(line, [(MOV_32, FIRST, SECOND), (IF_ABOVE_CONSTANT, FIRST, 0, 0, layout.shape.bytes - size_of(line))])
        out[1].target = self.stop[0]
        for closed in layout.closed:
            end = Line(packed(IF_BELOW_CONSTANT, FIRST, 0, 0, closed.end), line.origin, target=self.stop[0])
            behind = Line(packed(JUMP), line.origin)
            below = [Line(packed(IF_BELOW_CONSTANT, FIRST, 0, 0, closed.place), line.origin, target=behind)] if closed.place else []
            out += [*below, end, behind]
        return [*out, *rest]


# --- what an access is


def fetches(line: Line) -> bool:
    """Whether an atomic operation loads what was there."""
    return is_atomic(line) and bool(line.immediate & FETCH)


def is_atomic(line: Line) -> bool:
    return line.opcode & 7 == BY_REGISTER_STORED and line.opcode >> 5 == ATOMIC


def as_it_is(line: Line, low: int) -> list[tuple]:
    """An access through the address of its counter."""
    if line.opcode & 7 == LOADS:
        return [(line.opcode, line.destination, ANSWER, low)]
    return [(line.opcode, ANSWER, FIRST if line.opcode & 7 == BY_REGISTER_STORED else 0, low, line.immediate)]


def of_counter(line: Line, low: int, whole: int) -> list[tuple]:
    """An access to a number, of so many bytes, that has its counter alone: to all of the counter."""
    size, kind = size_of(line), line.opcode & 7
    if is_atomic(line) and low + size < whole:
        raise Fault(CARRIES)
    if kind == LOADS and whole < COUNTER_BYTES:
        back = ARSH_CONSTANT if line.opcode >> 5 == WITH_SIGN else RSH_CONSTANT
        cut = (LSH_CONSTANT, line.destination, 0, 0, 64 - 8 * (low + size)), (back, line.destination, 0, 0, 64 - 8 * size)
        return [(LOAD_DOUBLE, line.destination, ANSWER), *(row for row in cut if row[4])]
    if kind == LOADS or size < whole or size == COUNTER_BYTES or is_atomic(line) and line.immediate:
        return as_it_is(line, low)
    if is_atomic(line):
        return [(LSH_CONSTANT, FIRST, 0, 0, 64 - 8 * size), (ARSH_CONSTANT, FIRST, 0, 0, 64 - 8 * size), (ADD_ATOMICALLY, ANSWER, FIRST)]
    if kind == BY_REGISTER_STORED:
        return [(LSH_CONSTANT, FIRST, 0, 0, 64 - 8 * size), (RSH_CONSTANT, FIRST, 0, 0, 64 - 8 * size), (STORE_DOUBLE, ANSWER, FIRST)]
    number = line.immediate if size == 4 else line.immediate % (1 << 8 * size)
    return [(MOV_CONSTANT_32, FIRST, 0, 0, number), (STORE_DOUBLE, ANSWER, FIRST)]


def kept_of(line: Line) -> Kept:
    return Kept(line.source if line.opcode & 7 == LOADS else line.destination, line.offset)


def low_needed(lines: list[Line]) -> dict[Line, set[int]]:
    """Of each line the registers that a call changes which may be read behind it, and before they are written."""
    following = following_in(lines)
    later, changes = {line: set() for line in lines}, True
    while changes:
        changes = False
        for line in reversed(lines):
            found = {register for after in following[line] for register in LOW if is_needed(after, register, later)}
            changes |= found != later[line]
            later[line] = found
    return later


def is_needed(line: Line, register: int, later: dict[Line, set[int]]) -> bool:
    if line.opcode == CALL:
        reads_it = register in ((FIRST, SECOND) if is_lookup(line) else ARGUMENTS)
    else:
        reads_it = register == ANSWER if line.opcode == EXIT else reads(line, register)
    return reads_it or register in later[line] and not writes(line, register)
