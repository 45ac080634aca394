"""BTF, the debug information of BPF programs: the sizes of maps, and the line of C of each slot.

Linux's Documentation/bpf/btf.rst has the format."""
from __future__ import annotations

import itertools
import os
import struct
from typing import TYPE_CHECKING, Iterator, NamedTuple, Optional

from .elf import text_at

if TYPE_CHECKING:
    from .elf import Function, Part

COUNTER_BYTES = 8
# a row of .BTF.ext, and where its header has the place of the lines
EXT_ROW_BYTES, LINES_IN_HEADER = 16, 16
MOST_NUMBERS, MOST_VISITS = 256, 20000  # of a value that are looked at, and of types and members on the way to them
MOST_BITS = 0xFFFFFF  # of a member's place, below a bit field's size
INT, POINTER, ARRAY, STRUCT, UNION, VARIABLE, SECTION = 1, 2, 3, 4, 5, 14, 15
# kinds of types, and how many bytes follow the twelve that each has: a fixed number, and a number for each member
MORE_BYTES = {
    1: (4, 0),
    3: (12, 0),
    4: (0, 12),
    5: (0, 12),
    6: (0, 8),
    13: (0, 8),
    14: (4, 0),
    15: (0, 12),
    17: (4, 0),
    19: (0, 12),
}
WITH_SIZE, ALIASES, VOLATILE = (1, 4, 5, 6, 16, 19), (8, 9, 10, 11, 18), 9
MOST_ALIASES = 64  # that are looked through for `volatile`


class Type(NamedTuple):
    kind: int
    name: str
    size: int  # or the type that it points to
    more: bytes
    with_bits: bool  # of a struct, whether a member's place has a bit field's size above it


class Number(NamedTuple):
    """A number in a map's value: its name, where it lies, its size in bytes, and how many bits it has if it is a bit
    field, else 0. A bit field lies where the number lies that has it."""

    name: str
    place: int
    size: int
    bits: int = 0


class MapOfC(NamedTuple):
    """A map as C declares it: its type's number and its sizes, of which 0 isn't said. `numbers`: those in a value. The
    type is None if the declaration is none of a map."""

    name: str
    type: Optional[int]
    key_bytes: int
    value_bytes: int
    entries: int
    numbers: list

    @property
    def counters(self) -> int:
        """How many counters a value has here: one for each eight bytes that it begins."""
        return -(-self.value_bytes // COUNTER_BYTES)

    @property
    def has_parts(self) -> bool:
        """Whether a value has numbers that are a part of a counter here."""
        return any(0 < number.size < COUNTER_BYTES for number in self.numbers)


class Types:
    """The types by their numbers, from 1."""

    def __init__(self, btf: bytes) -> None:
        header, types, length, names, _ = struct.unpack_from("<IIIII", btf, 4)
        self.names, self.rows, self.visits, at = btf[header + names :], [None], 0, header + types
        while at < header + types + length:
            name, info, size = struct.unpack_from("<III", btf, at)
            kind, members = info >> 24 & 31, info & 0xFFFF
            fixed, each = MORE_BYTES.get(kind, (0, 0))
            end = at + 12 + fixed + each * members
            self.rows.append(Type(kind, text_at(self.names, name), size, btf[at + 12 : end], bool(info >> 31)))
            at = end

    def plain(self, number: int) -> int:
        """The type without names and qualifiers."""
        for _ in self.rows:
            if not number or self.rows[number].kind not in ALIASES:
                return number
            number = self.rows[number].size
        raise ValueError("a type is its own name")

    @property
    def volatile(self) -> set[str]:
        """The names of the variables that are `volatile`."""
        return {row.name for row in self.rows[1:] if row.kind == VARIABLE and self.is_volatile(row.size)}

    def is_volatile(self, number: int) -> bool:
        """Whether a type is `volatile`, by any of its names."""
        for _ in range(MOST_ALIASES):
            if not number or self.rows[number].kind not in ALIASES:
                return False
            if self.rows[number].kind == VOLATILE:
                return True
            number = self.rows[number].size
        return False

    def size(self, number: int) -> int:
        """How many bytes a type has."""
        if not number:
            return 0
        row = self.rows[self.plain(number)]
        if row is None:
            return 0
        if row.kind == ARRAY:
            element, _, count = struct.unpack("<III", row.more)
            return count * self.size(element)
        return 8 if row.kind == POINTER else row.size if row.kind in WITH_SIZE else 0

    def members(self, number: int) -> dict[str, int]:
        """Each member's name of a map's struct, with the type that it points to."""
        rows = struct.iter_unpack("<III", self.rows[self.plain(number)].more)
        pairs = [(text_at(self.names, name), self.plain(kind)) for name, kind, _ in rows]
        return {name: self.rows[kind].size for name, kind in pairs if kind and self.rows[kind].kind == POINTER}

    def numbers_in(self, number: int, name: str = "", at: int = 0) -> Iterator[Number]:
        """The numbers of a value, also those of members of members and of elements, by the names that they have in C."""
        self.visits += 1
        row = self.rows[self.plain(number)] if number else None
        if row is None:
            return
        if self.visits > MOST_VISITS:
            raise ValueError("a type has too many parts")
        if row.kind == ARRAY:
            element, _, count = struct.unpack_from("<III", row.more)
            for place in range(min(count, MOST_NUMBERS)):
                yield from self.numbers_in(element, f"{name}[{place}]", at + place * self.size(element))
        elif row.kind in (STRUCT, UNION):
            for member, kind, bits in struct.iter_unpack("<III", row.more):
                part, size = text_at(self.names, member), bits >> 24 if row.with_bits else 0
                bits = bits & MOST_BITS if row.with_bits else bits
                inner = ".".join(filter(None, (name, part)))
                if size:
                    whole = self.size(kind)
                    yield Number(inner, at + bits // (8 * whole) * whole if whole else at, whole, size)
                else:
                    yield from self.numbers_in(kind, inner, at + bits // 8)
        else:
            yield Number(name or "its number", at, self.size(number))

    def some_numbers(self, number: int) -> list[Number]:
        """The same, as many as are looked at."""
        self.visits = 0
        return list(itertools.islice(self.numbers_in(number), MOST_NUMBERS))

    def numbers_of(self, variable: str) -> list[Number]:
        """The numbers of a global; none if nothing is said of it."""
        types = [row.size for row in self.rows[1:] if (row.kind, row.name) == (VARIABLE, variable)]
        return self.some_numbers(types[0]) if len(types) == 1 else []

    def number_of(self, pointed: int) -> int:
        """The number that `__uint` hides in the length of an array."""
        row = self.rows[self.plain(pointed)] if pointed else None
        return struct.unpack("<III", row.more)[2] if row and row.kind == ARRAY else 0

    def maps(self) -> Iterator[MapOfC]:
        """The maps of section ".maps", in their order."""
        sections = [row.more for row in self.rows[1:] if (row.kind, row.name) == (SECTION, ".maps")]
        variables = sorted(
            (place, number) for more in sections for number, place, _ in struct.iter_unpack("<III", more)
        )
        for _, number in variables:
            declared = self.plain(self.rows[number].size)
            if not declared or self.rows[declared].kind != STRUCT:
                yield MapOfC(self.rows[number].name, None, 0, 0, 0, [])
                continue
            members = self.members(declared)
            sizes = [
                self.size(members[what]) if what in members else self.number_of(members.get(f"{what}_size", 0))
                for what in ("key", "value")
            ]
            kind, entries = (self.number_of(members.get(what, 0)) for what in ("type", "max_entries"))
            numbers = self.some_numbers(members.get("value", 0))
            yield MapOfC(self.rows[number].name, kind, *sizes, entries, numbers)


def named(file: str, source: str) -> str:
    """A file as its author names it: the source as it was given, another one from here."""
    if os.path.realpath(file) == os.path.realpath(source):
        return source
    near = os.path.relpath(file)
    return file if near.startswith("..") else near


def maps_in(sections: dict[str, Part]) -> Iterator[MapOfC]:
    """The maps that an object declares."""
    if ".maps" in sections and ".BTF" in sections:
        yield from Types(sections[".BTF"].data).maps()


def rows_of_ext(sections: dict[str, Part], place: int, what: str) -> Iterator[tuple[bytes, str, tuple[int, ...]]]:
    """The rows of a part of .BTF.ext, whose own place stands at this place of the header, if that is so long: each as the texts of .BTF,
    its section's name and four numbers."""
    if ".BTF.ext" not in sections or ".BTF" not in sections:
        return
    names, more = Types(sections[".BTF"].data).names, sections[".BTF.ext"].data
    (header,) = struct.unpack_from("<I", more, 4)
    start, length = struct.unpack_from("<II", more, place) if header >= place + 8 else (0, 0)
    at, end = header + start, header + start + length
    if length < 4:
        return
    (size,), at = struct.unpack_from("<I", more, at), at + 4
    if size < EXT_ROW_BYTES:
        raise ValueError(f"a {what} has fewer bytes than it needs")
    while at < end:
        section, count = struct.unpack_from("<II", more, at)
        at += 8
        for _ in range(count):
            yield names, text_at(names, section), struct.unpack_from("<IIII", more, at)
            at += size


def lines_of(sections: dict[str, Part], function: Function, source: str) -> dict[int, str]:
    """The line of C of each slot at which one begins, as `file.c:12`: what .BTF.ext has, if it is there."""
    lines = {}
    for names, section, (place, file, _, line) in rows_of_ext(sections, LINES_IN_HEADER, "line"):
        inside = function.place <= place < function.place + len(function.code)
        if section == function.section and inside and line >> 10:
            lines[(place - function.place) // 8] = f"{named(text_at(names, file), source)}:{line >> 10}"
    return lines
