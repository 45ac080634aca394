"""Hash maps to which a program adds rows, as tables: arrays whose values have the key behind the numbers. If a value has no room for it, the
keys are an array of their own.

A row lies in one of the few places that its key's hash gives. What the program looks up is found there; what it adds takes the first
place that is free. If there is none, a new row takes the place of another one in an LRU hash, as in Linux, which drops rows as well before the
map is full. In another hash it isn't added, which Linux does only if the whole map is full. By chance that is rare in a table of four rows for
each entry; of a map that has no room for so many a note says how many are few. A count of the rows sees to it that there are never more than
in Linux.
The last counter of a key has a bit, or a counter behind it, that says that there is a row. One queue at a time judges: two that add rows at
one place would mix them."""
from __future__ import annotations

from dataclasses import dataclass, field
from typing import TYPE_CHECKING, Iterator, NamedTuple, Optional

from .elf import MAP_ADDRESS, SLOT_BYTES, Relocation
from .faults import ARRAYS, COUNTER_BYTES, INDEX_BYTES, MOST_COUNTERS, MOST_ENTRIES, PER_CPU
from .lines import CALL, JUMP, MOV_CONSTANT, STACK_BYTES, WIDE, Fault, Line, packed
from .one_queue import HOSTS
from .sequences import low_half

if TYPE_CHECKING:
    from collections.abc import Mapping

    from .btf import MapOfC

LOOKUP, UPDATE, DELETE = 1, 2, 3
OF_ROWS = {LOOKUP: "bpf_map_lookup_elem", UPDATE: "bpf_map_update_elem", DELETE: "bpf_map_delete_elem"}
HASHES, DROPPING = (1, 5, 9, 10), (9, 10)  # kinds of maps: hashes, and those of them that drop rows
ANY, NOT_THERE, THERE = 0, 1, 2  # flags: BPF_ANY, BPF_NOEXIST, BPF_EXIST
FULL, IS_THERE, IS_NONE = -7, -17, -2  # of Linux: E2BIG, EEXIST, ENOENT
MOST_CONSTANT = (1 << 31) - 1  # of an instruction
PLACES, MOST_EACH, LEAST_ROWS = 4, 4, 256  # of a hash; rows of the table for each entry; rows of a table
FRAME, DOUBLE = 10, COUNTER_BYTES
MOV_64, ADD_CONSTANT, ADD, OR, AND_CONSTANT, LSH_CONSTANT, RSH_CONSTANT, MUL, XOR = 0xBF, 0x07, 0x0F, 0x4F, 0x57, 0x67, 0x77, 0x2F, 0xAF
LOADS, STORES = {1: 0x71, 2: 0x69, 4: 0x61, 8: 0x79}, {1: 0x73, 2: 0x6B, 4: 0x63, 8: 0x7B}  # by size
LOAD, STORE, STORE_CONSTANT = LOADS[DOUBLE], STORES[DOUBLE], 0x7A
IF_EQUAL_CONSTANT, IF_NOT_CONSTANT, IF_NOT, IF_AT_LEAST_CONSTANT, ADD_ATOMICALLY = 0x15, 0x55, 0x5D, 0x35, 0xDB
MOST_VALUE = 512  # bytes: as many as lie on the stack
FACTOR, UPPER_HALF, FURTHER = 0x9E3779B97F4A7C15, 32, 24  # of SplitMix64, as `sequences` has it; and of the hash by what a place is chosen
NOTE = (
    "the rows that it adds to {} lie in a table of {} rows, of which each key has {}: if other keys have these, {}"
    f". {HOSTS}"
)
DROPS = "a new row takes the place of one of them. So it is full sooner than in Linux, or later"
REFUSES = "bpf_map_update_elem gives -E2BIG, as it does if there are as many rows as in Linux. So it may be full sooner"
FEWER = ": of more than {} rows, where Linux has {}, more than a few find no place"


class Table(NamedTuple):
    """A map as it is declared, and how many rows it has here. `in_rows`: whether a value is several rows of its own map."""

    declared: MapOfC
    rows: int
    in_rows: bool = False

    @property
    def words(self) -> int:
        """How many counters a key takes."""
        return -(-self.declared.key_bytes // DOUBLE)

    @property
    def rest(self) -> int:
        """How many bytes of the key the last of these has, if it has fewer than eight, and so the bit above them."""
        return self.declared.key_bytes % DOUBLE

    @property
    def is_apart(self) -> bool:
        """Whether the keys are a map of their own: a number of fewer than eight bytes may need a counter of its own too."""
        parts = sum(number.size < DOUBLE for number in self.declared.numbers)
        return self.in_rows or self.declared.counters + self.words + (not self.rest) + parts > MOST_COUNTERS

    @property
    def keys_name(self) -> str:
        """Of the map that has the keys."""
        return f"{self.declared.name}.keys" if self.is_apart else self.declared.name

    @property
    def maps(self) -> list[tuple[str, int, int]]:
        """That of the keys, if it is one of its own, and that of the count, if there is one: names, entries and counters."""
        of_keys = [(self.keys_name, self.rows, self.bytes // DOUBLE)] if self.is_apart else []
        return of_keys if self.drops else [*of_keys, (self.count_name, 1, 1)]

    @property
    def count_name(self) -> str:
        """Of the map that has the count of rows."""
        return f"{self.declared.name}.rows"

    @property
    def key(self) -> int:
        """Where in a value of that map the key lies."""
        return 0 if self.is_apart else DOUBLE * self.declared.counters

    @property
    def mark(self) -> int:
        """Where the counter lies that says that there is a row."""
        return self.key + DOUBLE * (self.words - 1 if self.rest else self.words)

    @property
    def bytes(self) -> int:
        """How many there are of a value of that map."""
        return self.mark + DOUBLE

    @property
    def drops(self) -> bool:
        """Whether a new row may take the place of another one."""
        return self.declared.type in DROPPING

    @property
    def note(self) -> str:
        few = self.rows // MOST_EACH
        fewer = "" if self.declared.entries <= few else FEWER.format(few, self.declared.entries)
        return NOTE.format(self.declared.name, self.rows, PLACES, DROPS if self.drops else REFUSES + fewer)

    @property
    def comment(self) -> str:
        """Where a host finds the rows."""
        named = f"the keys of {self.declared.name}, row by row" if self.is_apart else f"a table of {self.rows} rows"
        where = f"a key lies in counter {self.key // DOUBLE} on, and bit {8 * self.rest} of counter {self.mark // DOUBLE} says that there is one"
        return f"map {self.keys_name}: {named}: {where}"

    def keys(self, numbers: Mapping[tuple[int, int], int]) -> dict[int, bytes]:
        """The keys of the rows that there are, by these. `numbers`: counters that aren't 0, by their row and their place in it."""
        places = range(self.key // DOUBLE, self.key // DOUBLE + self.words)
        bit = 1 << 8 * self.rest
        there = [row for (row, place), number in sorted(numbers.items()) if place == self.mark // DOUBLE and number & bit]
        data = {row: b"".join(numbers.get((row, place), 0).to_bytes(DOUBLE, "little") for place in places) for row in there}
        return {row: key[: self.declared.key_bytes] for row, key in data.items()}

    def as_array(self, number: type) -> MapOfC:
        """The array that has the rows. `number`: makes one of its name, place and size."""
        array = self.declared._replace(type=ARRAYS[self.declared.type in PER_CPU], key_bytes=INDEX_BYTES, entries=self.rows)
        if self.is_apart:
            return array
        of_key = [number(f"key[{at}]", place, DOUBLE) for at, place in enumerate(range(self.key, self.bytes, DOUBLE))]
        return array._replace(value_bytes=self.bytes, numbers=[*self.declared.numbers, *of_key])


def table_of(declared: MapOfC, in_rows: bool = False) -> Table:
    """The table for a map. `in_rows`: whether a value of more than one counter is several rows, and not only one of more than settings have."""
    most = DOUBLE * MOST_COUNTERS
    if not 0 < declared.key_bytes < most or not 0 < declared.value_bytes <= MOST_VALUE:
        raise Fault(
            f"adds rows to {declared.name}, of which the key has {declared.key_bytes} bytes and the value {declared.value_bytes}: at most"
            f" {most - 1} and {MOST_VALUE}"
        )
    in_rows = declared.value_bytes > (DOUBLE if in_rows else most)
    fitting = MOST_ENTRIES // most_rows(declared) if in_rows else MOST_ENTRIES
    wanted = max(LEAST_ROWS, MOST_EACH * declared.entries)
    return Table(declared, min(1 << (wanted - 1).bit_length(), 1 << fitting.bit_length() - 1), in_rows)


def most_rows(declared: MapOfC) -> int:
    """How many rows of its map a value takes at most: one for each number, or for each eight bytes."""
    numbers = declared.numbers
    return max(len(numbers), declared.counters) + sum(number.size < DOUBLE for number in numbers)


def parts_stored(table: Table, parts: list[tuple[int, int]]) -> list[tuple[int, int]]:
    """The parts of a value that are stored one by one, as (place, size): its numbers, but whole counters if more of these are smaller than
    there are counters for, and a value isn't several rows."""
    declared = table.declared
    is_one = not table.in_rows and not declared.value_bytes % DOUBLE
    if not is_one or declared.counters + sum(size < DOUBLE for _, size in parts) <= MOST_COUNTERS:
        return parts
    return [(at, DOUBLE) for at in range(0, declared.value_bytes, DOUBLE)]


@dataclass
class Writing:
    """The lines in the place of a call, with jumps to marks. `above`: how much of the stack is in use."""

    line: Line
    table: Table
    above: int
    out: list[Line] = field(default_factory=list)
    jumps: list[tuple[Line, str]] = field(default_factory=list)
    marks: dict[str, int] = field(default_factory=dict)

    def place(self, number: int) -> int:
        """A word of our own on the stack."""
        at = -(self.above + DOUBLE * (number + 1))
        if -at > STACK_BYTES:
            raise Fault(f"looks rows of {self.table.declared.name} up with too much of the stack in use")
        return at

    @property
    def index(self) -> int:
        return self.place(0)

    @property
    def value(self) -> int:
        return self.place(1)

    @property
    def other(self) -> int:
        """Of the row whose place a new one takes if none is free."""
        return self.place(2)

    def word(self, number: int) -> int:
        """Of the key."""
        return self.place(3 + number)

    def put(self, *rows: tuple) -> None:
        self.out += [Line(packed(*fields), self.line.origin) for fields in rows]

    def jump(self, mark: str, opcode: int = JUMP, *fields: int) -> None:
        self.put((opcode, *fields))
        self.jumps.append((self.out[-1], mark))

    def mark(self, name: str) -> None:
        self.marks[name] = len(self.out)

    def lines(self) -> list[Line]:
        """The lines, with a last one to which each way leads."""
        self.mark("end")
        self.put((JUMP,))
        for line, mark in self.jumps:
            line.target = self.out[self.marks[mark]]
        self.line.put(JUMP)  # jumps to the call stay right
        return [self.line, *self.out]

    # --- what is written

    def row(self, of_keys: bool = False) -> None:
        """The value at the index, or the key."""
        address = Relocation(0, MAP_ADDRESS, self.table.keys_name if of_keys else self.table.declared.name, 0)
        self.out.append(Line(packed(WIDE, 1) + bytes(SLOT_BYTES), self.line.origin, address))
        self.put((MOV_64, 2, FRAME), (ADD_CONSTANT, 2, 0, 0, self.index), (CALL, 0, 0, 0, LOOKUP))

    def count(self) -> None:
        """The count of rows at register 0, or the end with -E2BIG, which there never is."""
        address = Relocation(0, MAP_ADDRESS, self.table.count_name, 0)
        self.put((STORE_CONSTANT, FRAME, 0, self.other), (MOV_64, 2, FRAME), (ADD_CONSTANT, 2, 0, 0, self.other))
        self.out.append(Line(packed(WIDE, 1) + bytes(SLOT_BYTES), self.line.origin, address))
        self.put((CALL, 0, 0, 0, LOOKUP), (MOV_64, 1, 0), (MOV_CONSTANT, 0, 0, 0, FULL))
        self.jump("end", IF_EQUAL_CONSTANT, 1)

    def counted(self, change: int) -> None:
        """The count, changed by a number."""
        self.count()
        self.put((MOV_CONSTANT, 2, 0, 0, change), (ADD_ATOMICALLY, 1, 2))

    def begin(self) -> None:
        """The key's words, and the index of the first of its places."""
        for number in range(self.table.words):
            self.put(*self.loaded(number), (STORE, FRAME, 4, self.word(number)), (ADD, 0, 4) if number else (MOV_64, 0, 4))
            self.out.append(Line(packed(WIDE, 5, 0, 0, low_half(FACTOR)) + packed(0, 0, 0, 0, low_half(FACTOR >> 32)), self.line.origin))
            self.put((MUL, 0, 5), (MOV_64, 5, 0), (RSH_CONSTANT, 5, 0, 0, UPPER_HALF), (XOR, 0, 5))
        self.put((MOV_64, 5, 0), (AND_CONSTANT, 0, 0, 0, self.table.rows - PLACES), (STORE, FRAME, 0, self.index))

    def loaded(self, number: int) -> Iterator[tuple]:
        """What brings a word of the key to register 4."""
        left, at = self.table.declared.key_bytes - DOUBLE * number, DOUBLE * number
        sizes = [DOUBLE] if left >= DOUBLE else [size for size in (4, 2, 1) if left & size]
        low = 0
        for size in sizes:
            yield LOADS[size], 5 if low else 4, 2, at + low
            if low:
                yield LSH_CONSTANT, 5, 0, 0, 8 * low
                yield OR, 4, 5
            low += size
        if left < DOUBLE:
            yield MOV_CONSTANT, 5, 0, 0, 1
            yield LSH_CONSTANT, 5, 0, 0, 8 * low
            yield OR, 4, 5

    def further(self, number: int, after: int) -> None:
        """The next place, but behind the last one."""
        if number + 1 < after:
            self.put((LOAD, 1, FRAME, self.index), (ADD_CONSTANT, 1, 0, 0, 1), (STORE, FRAME, 1, self.index))

    def find(self) -> None:
        """Leads to `there`, with the index of the key's row, or goes on."""
        for number in range(PLACES):
            following = f"not {number}"
            self.row(of_keys=True)
            self.jump(following, IF_EQUAL_CONSTANT, 0)
            for at in range(self.table.words):
                self.put((LOAD, 1, 0, self.table.key + DOUBLE * at), (LOAD, 2, FRAME, self.word(at)))
                self.jump(following, IF_NOT, 1, 2)
            if not self.table.rest:
                self.put((LOAD, 1, 0, self.table.mark))
                self.jump(following, IF_NOT_CONSTANT, 1, 0, 0, 1)
            self.jump("there")
            self.mark(following)
            self.further(number, PLACES)

    def claim(self) -> None:
        """Leads to `claimed`, with the index of a free row, or goes on."""
        if not self.table.drops:
            self.count()
            self.put((LOAD, 1, 1))
            self.jump("end", IF_AT_LEAST_CONSTANT, 1, 0, 0, min(self.table.declared.entries, MOST_CONSTANT))
        self.put((LOAD, 1, FRAME, self.index), (AND_CONSTANT, 1, 0, 0, -PLACES), (STORE, FRAME, 1, self.index))
        for number in range(PLACES):
            following = f"taken {number}"
            self.row(of_keys=True)
            self.jump(following, IF_EQUAL_CONSTANT, 0)
            self.put((LOAD, 1, 0, self.table.mark), *([(RSH_CONSTANT, 1, 0, 0, 8 * self.table.rest)] if self.table.rest else []))
            self.jump("claimed", IF_NOT_CONSTANT, 1, 0, 0, 1)
            self.mark(following)
            self.further(number, PLACES)

    def write(self, parts: list[tuple[int, int]]) -> None:
        """The value's numbers, and the key behind them."""
        self.row()
        self.put((MOV_64, 1, 0), (MOV_CONSTANT, 0, 0, 0, FULL))
        self.jump("end", IF_EQUAL_CONSTANT, 1)
        self.put((LOAD, 3, FRAME, self.value))
        for at, size in parts:
            self.put((LOADS[size], 2, 3, at), (STORES[size], 1, 2, at))
        if self.table.is_apart:
            self.row(of_keys=True)
            self.put((MOV_64, 1, 0), (MOV_CONSTANT, 0, 0, 0, FULL))
            self.jump("end", IF_EQUAL_CONSTANT, 1)
        for at in range(self.table.words):
            self.put((LOAD, 2, FRAME, self.word(at)), (STORE, 1, 2, self.table.key + DOUBLE * at))
        if not self.table.rest:
            self.put((MOV_CONSTANT, 2, 0, 0, 1), (STORE, 1, 2, self.table.mark))
        self.put((MOV_CONSTANT,))


def with_row(writing: Writing, helper: int, flags: Optional[int], parts: list[tuple[int, int]]) -> list[Line]:
    """The lines in the place of a helper's call. `flags`: of an update, None if they aren't constant; `parts`: the numbers of a value, as
    (place, size)."""
    if helper == UPDATE:
        return updated(writing, flags, parts)
    return deleted(writing) if helper == DELETE else looked_up(writing)


def changes_rows(table: Table, helper: int, flags: Optional[int]) -> bool:
    """Whether a call changes a row in whose place there is another one in Linux then: not if each processor has values of its own."""
    return helper == UPDATE and flags != NOT_THERE and table.declared.type not in PER_CPU


def looked_up(writing: Writing) -> list[Line]:
    """bpf_map_lookup_elem: (map, key). If there is no row, it is looked up where the table ends."""
    writing.begin()
    writing.find()
    writing.put((MOV_CONSTANT, 1, 0, 0, writing.table.rows), (STORE, FRAME, 1, writing.index))
    writing.mark("there")
    writing.row()
    return writing.lines()


def updated(writing: Writing, flags: Optional[int], parts: list[tuple[int, int]]) -> list[Line]:
    """bpf_map_update_elem: (map, key, value, flags)."""
    if flags not in (ANY, NOT_THERE, THERE):
        raise Fault("calls bpf_map_update_elem with flags that aren't BPF_ANY, BPF_NOEXIST or BPF_EXIST")
    writing.put((STORE, FRAME, 3, writing.value))
    writing.begin()
    if writing.table.drops:
        writing.put((RSH_CONSTANT, 5, 0, 0, FURTHER), (AND_CONSTANT, 5, 0, 0, PLACES - 1), (ADD, 5, 0), (STORE, FRAME, 5, writing.other))
    writing.find()
    if flags == THERE:
        writing.put((MOV_CONSTANT, 0, 0, 0, IS_NONE))
        writing.jump("end")
    else:
        writing.claim()
        if writing.table.drops:
            writing.put((LOAD, 1, FRAME, writing.other), (STORE, FRAME, 1, writing.index))
            writing.mark("claimed")
        else:
            writing.put((MOV_CONSTANT, 0, 0, 0, FULL))
            writing.jump("end")
            writing.mark("claimed")
            writing.counted(1)
        writing.jump("write")
    writing.mark("there")
    if flags == NOT_THERE:
        writing.put((MOV_CONSTANT, 0, 0, 0, IS_THERE))
        writing.jump("end")
    writing.mark("write")
    writing.write(parts)
    return writing.lines()


def deleted(writing: Writing) -> list[Line]:
    """bpf_map_delete_elem: (map, key)."""
    writing.begin()
    writing.find()
    writing.put((MOV_CONSTANT, 0, 0, 0, IS_NONE))
    writing.jump("end")
    writing.mark("there")
    writing.row(of_keys=True)
    writing.jump("end", IF_EQUAL_CONSTANT, 0)
    writing.put((MOV_CONSTANT, 1), (STORE, 0, 1, writing.table.mark))
    if not writing.table.drops:
        writing.counted(-1)
    writing.put((MOV_CONSTANT,))
    return writing.lines()
