"""Globals whose values a program looks up in front of all else, in place of their addresses.

What settings can't have are addresses of a map's values. So a global's value is looked up once, under the index 0, and its
address is kept in a register that the function doesn't use, or on the stack below what the function has there: an address in the
program is taken from there. No slot moves but by those in front."""
from __future__ import annotations

from itertools import zip_longest
from typing import Iterator, NamedTuple, Optional

from .elf import SLOT_BYTES
from .lines import CALL, EXIT, SAVED, STACK_BYTES, WIDE, packed

FRAME, CONTEXT, KEY, KEPT, ANSWER = 10, 1, 2, 6, 0  # registers: the fourth has nothing at a program's start
MOV_64, MOV_CONSTANT, ADD_CONSTANT, LOAD_DOUBLE, STORE_DOUBLE, IF_NOT_CONSTANT = 0xBF, 0xB7, 0x07, 0x79, 0x7B, 0x55
LOOKUP, DOUBLE = 1, 8  # the helper's number, and the bytes of an address


def looked_up(settings: dict) -> Optional[dict]:
    """Settings with its globals looked up, and as `begin` how many slots stand in front of the program as it was. None if it has
    none, or no room for them on its stack."""
    names = list(dict.fromkeys(row["map"] for row in settings["globals"]))
    code, above = bytes.fromhex("".join(settings["program"])), settings["stack"]
    if not names or above is None or above + DOUBLE * (len(names) + 1) > STACK_BYTES:
        return None
    free = [register for register in SAVED if register != KEPT and not any(uses(code, register))][: len(names)]
    homes = {name: Home(register, -above - DOUBLE * (at + 2)) for at, (name, register) in enumerate(zip_longest(names, free))}
    words, relocations = begin_of(homes, -above - DOUBLE)
    begin = len(words)
    words += settings["program"]
    for row in settings["globals"]:
        at = begin + row["slot"]
        register = bytes.fromhex(words[at])[1] & 15
        move = packed(ADD_CONSTANT, register, 0, 0, row["place"]) if row["place"] else packed(MOV_64, register, register)
        words[at : at + 2] = [homes[row["map"]].taken(register).hex(), move.hex()]
    rows = [*relocations, *({**row, "slot": row["slot"] + begin} for row in settings["reloc"])]
    tables = [{**row, "slot": row["slot"] + begin} for row in settings["tables"]]
    return {**settings, "program": words, "reloc": rows, "tables": tables, "globals": [], "begin": begin}


class Home(NamedTuple):
    """Where an address is kept: in a register, or if that is None at a place of the stack."""

    register: Optional[int]
    place: int

    def kept(self) -> bytes:
        """What keeps a lookup's answer."""
        return packed(STORE_DOUBLE, FRAME, ANSWER, self.place) if self.register is None else packed(MOV_64, self.register, ANSWER)

    def taken(self, register: int) -> bytes:
        """What puts it into a register."""
        return packed(LOAD_DOUBLE, register, FRAME, self.place) if self.register is None else packed(MOV_64, register, self.register)


def uses(code: bytes, register: int) -> Iterator[bool]:
    """Of each slot of a program whether its bytes name a register."""
    return (register in (byte & 15, byte >> 4) for byte in code[1::SLOT_BYTES])


def begin_of(homes: dict[str, Home], key: int) -> tuple[list[str], list[dict]]:
    """What stands in front of a program: the lookups, and their relocations. `homes`: by name where an address is kept; `key`: where
    on the stack the index lies."""
    lines, relocations = [packed(MOV_64, KEPT, CONTEXT)], []
    for name, home in homes.items():
        lines += [packed(MOV_CONSTANT, KEY), packed(STORE_DOUBLE, FRAME, KEY, key), packed(MOV_64, KEY, FRAME)]
        lines.append(packed(ADD_CONSTANT, KEY, 0, 0, key))
        relocations.append({"slot": len(lines), "map": name})
        lines += [packed(WIDE, CONTEXT), bytes(SLOT_BYTES), packed(CALL, 0, 0, 0, LOOKUP)]
        lines += [packed(IF_NOT_CONSTANT, ANSWER, 0, 2), packed(MOV_CONSTANT, ANSWER), packed(EXIT)]
        lines.append(home.kept())
    lines.append(packed(MOV_64, CONTEXT, KEPT))
    return [line.hex() for line in lines], relocations
