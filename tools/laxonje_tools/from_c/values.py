"""Numbers of constants: which can be set, in an object file, and in settings that have constants as maps.

Comments of settings say where the numbers lie, so that those settings can be set again: nothing is compiled, and nothing is
verified, since what constants hold is no part of the program."""
from __future__ import annotations

import re
import tomllib
from typing import TYPE_CHECKING, Iterable, Iterator, NamedTuple, Optional

from .btf import Types
from .constants import KIND
from .elf import CONSTANTS, OBJECT, VARIABLES, symbols_of

if TYPE_CHECKING:
    from .elf import Part, Symbol

SIZES = 1, 2, 4, 8  # of a number, in bytes
NUMBER = re.compile("-?[0-9]{1,20}|0x[0-9a-fA-F]{1,16}", re.ASCII)
COMMENT = re.compile(r"# constant (\S+): bytes ([0-9]{1,5}) to ([0-9]{1,5}) of map (.+)", re.ASCII)


class Constant(NamedTuple):
    """A number that can be set, and where it lies: its map is named for its section."""

    name: str
    map: str
    place: int
    size: int

    def __str__(self) -> str:
        return f"constant {self.name}: bytes {self.place} to {self.place + self.size - 1} of map {self.map}"


def number_in(word: str) -> Optional[int]:
    """The number that a word is, of decimal digits or 0x and hex ones; None if it is none."""
    if not NUMBER.fullmatch(word):
        return None
    return int(word, 16 if word.startswith("0x") else 10)


def fault_of(name: str, size: int, number: int) -> Optional[str]:
    """Why a constant of this size can't have a number, if it can't."""
    if size not in SIZES:
        return f"{name} has {size} bytes: a number of 1, 2, 4 or 8 bytes can be set"
    if not -(1 << 8 * size - 1) <= number < 1 << 8 * size:
        return f"{name} has {size} bytes, which can't hold {number}"
    return None


def with_number(data: bytes, place: int, size: int, number: int) -> bytes:
    """Bytes with a number at a place."""
    return data[:place] + (number % (1 << 8 * size)).to_bytes(size, "little") + data[place + size :]


def constants_in(sections: dict[str, Part]) -> Iterator[tuple[str, Symbol]]:
    """The constants of an object, and the globals that begin with a number, each with its section's name."""
    symbols = symbols_of(sections)
    for section, part in sections.items():
        if section.startswith((CONSTANTS[0], VARIABLES[0])):
            yield from ((section, row) for row in symbols if (row.section, row.kind) == (part.number, OBJECT))


def set_values(sections: dict[str, Part], values: Iterable[tuple[str, int]]) -> Iterator[str]:
    """Puts numbers in the place of what constants have, as a loader does in Linux. What is wrong with them."""
    rows = list(constants_in(sections)) if values else []
    for name, number in values:
        found = [(section, row) for section, row in rows if row.name == name]
        if len(found) != 1:
            none = f"there is no constant {name} to set: write `const volatile` in front of it"
            yield f"there are {len(found)} constants {name}: give each another name" if found else none
            continue
        section, row = found[0]
        fault = fault_of(name, row.size, number)
        if fault is not None:
            yield fault
        else:
            part = sections[section]
            sections[section] = part._replace(data=with_number(part.data, row.place, row.size, number))


def values_of(sections: dict[str, Part]) -> list[Constant]:
    """The numbers that a program reads from memory: clang writes one that isn't `volatile` into the code, if it is a constant."""
    volatile = Types(sections[".BTF"].data).volatile if ".BTF" in sections else set()
    return [
        Constant(row.name, section, row.place, row.size)
        for section, row in constants_in(sections)
        if row.size in SIZES and (section.startswith(VARIABLES[0]) or row.name in volatile)
    ]


def comments_of(settings: dict, values: Iterable[Constant]) -> list[str]:
    """Where the numbers lie in those settings, a line each; none of numbers that have one name."""
    maps, rows = {row["name"] for row in settings["map"] if row.get("key") == KIND}, list(values)
    names = [row.name for row in rows]
    return [str(row) for row in rows if row.map in maps and names.count(row.name) == 1]


class Unset(Exception):
    """Why numbers of settings can't be set, in words."""


def named_in(text: str) -> dict[str, Constant]:
    """The numbers of which comments of a settings text say where they lie."""
    rows = (COMMENT.fullmatch(line) for line in text.splitlines())
    found = [Constant(row[1], row[4], int(row[2]), int(row[3]) + 1 - int(row[2])) for row in rows if row]
    return {constant.name: constant for constant in found}


def with_values(text: str, values: Iterable[tuple[str, int]]) -> str:
    """A settings text with other numbers. All else stays, to the byte."""
    constants = named_in(text)
    for name, number in values:
        if name not in constants:
            raise Unset(f"no comment says where a constant {name} lies")
        fault = fault_of(name, constants[name].size, number)
        if fault is not None:
            raise Unset(fault)
        text = with_value(text, constants[name], number)
    return text


def with_value(text: str, constant: Constant, number: int) -> str:
    """A settings text with one other number."""
    settings = tomllib.loads(text)
    at = [at for at, row in enumerate(settings.get("map", [])) if row.get("name") == constant.map and row.get("key") == KIND]
    if not at:
        raise Unset(f"there is no map of constants {constant.map}")
    rows = settings["map"][at[0]]["rows"]
    old, data = rows[0], bytes.fromhex(rows[0])
    if constant.place + constant.size > len(data):
        raise Unset(f"the map {constant.map} has no byte {constant.place + constant.size - 1}")
    rows[0] = with_number(data, constant.place, constant.size, number).hex()
    for place in re.finditer(re.escape(f'"{old}"'), text):
        made = f'{text[: place.start()]}"{rows[0]}"{text[place.end() :]}'
        if tomllib.loads(made) == settings:
            return made
    raise Unset(f"the row of {constant.map} isn't in one piece")
