"""Constants in memory as maps of their own, which a program reads at their addresses. docs/VERIFIER.md, "Access", has these."""
from __future__ import annotations

from typing import Optional

from .faults import FEW_MAPS, MOST_MAPS, MOST_NAME

CONSTANTS_START, CONSTANTS_STRIDE = 0x3800_0000, 0x1_0000
CONSTANTS_END = CONSTANTS_START + MOST_MAPS * CONSTANTS_STRIDE
KIND = "constants"
OPCODE_DIGITS = 8  # of a slot: those in front of its immediate


def map_of_constants(name: str, data: bytes) -> dict:
    """A map as settings have it."""
    return {"name": name, "entries": 1, "counters": 1, "key": KIND, "size": len(data), "rows": [data.hex()]}


def are_maps(constants: dict[str, bytes], maps: list[dict]) -> bool:
    """Whether sections of constants can be maps beside these."""
    names = {row["name"] for row in maps}
    fit = all(0 < len(data) <= CONSTANTS_STRIDE and len(name.encode()) <= MOST_NAME for name, data in constants.items())
    return fit and names.isdisjoint(constants) and len(maps) + len(constants) <= MOST_MAPS


def with_constants(settings: dict) -> Optional[dict]:
    """Settings whose constants are their last maps, one for each section. None if they have none, or can't be maps."""
    tables, maps, constants = settings["tables"], settings["map"], settings["constants"]
    if not tables or not are_maps(constants, maps):
        return None
    numbers = {name: len(maps) + at for at, name in enumerate(constants)}
    words = list(settings["program"])
    for row in tables:
        if not 0 <= row["place"] < CONSTANTS_STRIDE:
            return None
        address = CONSTANTS_START + CONSTANTS_STRIDE * numbers[row["section"]] + row["place"]
        words[row["slot"]] = words[row["slot"]][:OPCODE_DIGITS] + address.to_bytes(4, "little").hex()
        words[row["slot"] + 1] = bytes(8).hex()
    rows = [*maps, *(map_of_constants(name, data) for name, data in constants.items())]
    wide = {"wide": True} if len(rows) > FEW_MAPS else {}
    return {**settings, **wide, "program": words, "map": rows, "tables": [], "constants": {}}


def room_behind(address: int, maps: list[dict]) -> Optional[int]:
    """How many bytes of constants there are from an address on; None if it is none of constants."""
    number, place = divmod(address - CONSTANTS_START, CONSTANTS_STRIDE)
    if not 0 <= number < len(maps) or maps[number].get("key") != KIND:
        return None
    return maps[number]["size"] - place
