"""An object file: its sections, symbols and relocations. The numbers are those of ELF and of BPF's relocations."""
from __future__ import annotations

import struct
from typing import Iterator, NamedTuple, Optional

MAP_ADDRESS, FUNCTION_CALL = 1, 10  # R_BPF_64_64, R_BPF_64_32
TAKES = {MAP_ADDRESS: 0x18, FUNCTION_CALL: 0x85}  # by a relocation's kind the opcode that takes its address
OBJECT, FUNCTION, SECTION = 1, 2, 3  # STT_OBJECT, STT_FUNC, STT_SECTION
NO_BITS = 8  # SHT_NOBITS: zeros, which aren't in the file
CONSTANTS, VARIABLES = (".rodata", ".data.rel.ro"), (".data", ".bss")
MEMORY = CONSTANTS + VARIABLES


# of an object's header: 64 bits and little end; and what kind of file it is, for which machine
MAGIC, OF_64_BITS, LITTLE_END, RELOCATABLE, BPF = b"\x7fELF", 2, 1, 1, 247
SLOT_BYTES = 8
MANY = ".group", ".debug", ".rel.debug", ".rela.debug"  # sections that an object may have several of
MOST_ZEROS = 1 << 24  # bytes of a section that isn't in the file


class NoObject(Exception):
    """Bytes that are no object file for BPF."""


class Part(NamedTuple):
    """A section: its number, and its bytes."""

    number: int
    data: bytes


class Symbol(NamedTuple):
    name: str
    kind: int
    section: int
    place: int  # in the section
    size: int


class Function(NamedTuple):
    """A function, and where in its section it lies."""

    name: str
    section: str
    place: int
    code: bytes


class Relocation(NamedTuple):
    """`name`: of a map, a function or a variable. `constant`: a place inside it. `section`: in which a variable or a
    function stands, and `place`: where in the section the address leads."""

    slot: int
    kind: int
    name: str
    constant: int
    section: str = ""
    place: int = 0


def text_at(data: bytes, at: int) -> str:
    return data[at : data.index(0, at)].decode(errors="backslashreplace")


def check_header(elf: bytes) -> None:
    """Raises NoObject unless a file begins as an object for BPF."""
    if elf[:4] != MAGIC:
        raise NoObject("this is no object file")
    if elf[4:6] != bytes([OF_64_BITS, LITTLE_END]):
        raise NoObject("this is an object file of 32 bits or of the other byte order: -target bpf makes one for here")
    kind, machine = struct.unpack_from("<HH", elf, 16)
    if (kind, machine) != (RELOCATABLE, BPF):
        raise NoObject("this is an object file of another machine or kind: -target bpf and -c make one for here")


def bytes_of(elf: bytes, kind: int, start: int, size: int) -> bytes:
    """A section's bytes."""
    if kind == NO_BITS and size > MOST_ZEROS or kind != NO_BITS and size and start + size > len(elf):
        raise NoObject("this object file has a section that reaches outside of it")
    return bytes(size) if kind == NO_BITS else elf[start : start + size]


def sections_of(elf: bytes) -> dict[str, Part]:
    """Each section by its name."""
    check_header(elf)
    table, size, count, names = struct.unpack_from("<Q", elf, 40)[0], *struct.unpack_from("<HHH", elf, 58)
    rows = [struct.unpack_from("<IIQQQQII", elf, table + size * number) for number in range(count)]
    parts = [Part(number, bytes_of(elf, row[1], row[4], row[5])) for number, row in enumerate(rows)]
    named = [(text_at(parts[names].data, row[0]), part) for row, part in zip(rows, parts)]
    check_names([name for name, _ in named])
    return dict(named)


def check_names(names: list[str]) -> None:
    """Raises NoObject if two sections that matter have one name: what is in one of them would be taken for what is in the other."""
    known = set()
    for name in names:
        if name in known and not name.startswith(MANY):
            raise NoObject(f"this object file has two sections {name}")
        known.add(name or MANY[0])


def symbols_of(sections: dict[str, Part]) -> list[Symbol]:
    names, table = sections[".strtab"].data, sections[".symtab"].data
    rows = struct.iter_unpack("<IBBHQQ", table)
    return [Symbol(text_at(names, name), info & 15, section, *place) for name, info, _, section, *place in rows]


def variable_at(symbols: list[Symbol], section: int, place: int) -> Optional[Symbol]:
    """The variable in which a place of a section lies, or the one that begins nearest in front of it; or None."""
    before = [row for row in symbols if (row.section, row.kind) == (section, OBJECT) and row.place <= place]
    return max(before, key=lambda row: row.place, default=None)


def functions_of(sections: dict[str, Part]) -> Iterator[Function]:
    """The functions, in the order of their symbols."""
    parts = {part.number: (name, part.data) for name, part in sections.items()}
    for row in symbols_of(sections):
        if row.kind == FUNCTION and row.section and row.section in parts:
            section, data = parts[row.section]
            code = data[row.place : row.place + row.size]
            if row.size % SLOT_BYTES or row.place % SLOT_BYTES or not code or len(code) != row.size:
                raise NoObject(f"this object file has a function {row.name} that isn't whole slots of its section")
            yield Function(row.name, section, row.place, code)


def relocations_of(sections: dict[str, Part], function: Function) -> Iterator[Relocation]:
    """Each relocation of a function, of which slot 0 is the first. A static map is named by its place, and so is a
    variable."""
    symbols, names = symbols_of(sections), {part.number: name for name, part in sections.items()}
    objects = {(symbol.section, symbol.place): symbol.name for symbol in symbols if symbol.kind == OBJECT}
    maps = sections[".maps"].number if ".maps" in sections else None
    code = {names.get(symbol.section) for symbol in symbols if symbol.kind == FUNCTION}
    rows = sections[".rel" + function.section].data if ".rel" + function.section in sections else b""
    for at, info in struct.iter_unpack("<QQ", rows):
        at -= function.place
        if not 0 <= at < len(function.code):
            continue
        slot, kind = at // SLOT_BYTES, info & 0xFFFFFFFF
        if at % SLOT_BYTES or kind in TAKES and function.code[at] != TAKES[kind]:
            raise NoObject(f"this object file has a relocation of {function.name} that doesn't fit its slot {slot}")
        symbol, constant = symbols[info >> 32], struct.unpack_from("<i", function.code, at + 4)[0]
        section = names.get(symbol.section, "")
        if symbol.kind == SECTION and symbol.section == maps:
            yield Relocation(slot, kind, objects.get((maps, constant), ""), 0)
        elif section.startswith(MEMORY) and kind == MAP_ADDRESS:
            place = symbol.place + constant
            variable = variable_at(symbols, symbol.section, place)
            name = symbol.name or (variable.name if variable else "")
            yield Relocation(slot, kind, name, constant, section, place)
        elif kind == FUNCTION_CALL:
            yield Relocation(slot, kind, symbol.name, constant, section, symbol.place)
        elif kind == MAP_ADDRESS and section in code:
            yield Relocation(slot, kind, symbol.name, constant, section, symbol.place + constant)
        else:
            yield Relocation(slot, kind, symbol.name, constant)
