"""Settings: the program that they hold, and settings with another program. docs/SETTINGS.md has the format."""
from __future__ import annotations

import struct
import tomllib
from typing import TYPE_CHECKING

from .instructions import FAR_JUMP, JUMP, WIDE_LOAD, Instruction, Table
from .remembered import MOST_KEPT

if TYPE_CHECKING:
    from .instructions import Code

INDEX_BYTES, LENGTH_BYTES = 4, 4  # of an array's key, and of a prefix's length
OF_THE_TOOLS = "constants", "tables", "globals", "numbers", "begin", "stack", "again", "laid", "filled", "alone"  # keys that no printed settings have
OF_THE_PROGRAM = "program", "reloc", *OF_THE_TOOLS
CONSTANTS = "constants"  # the key of a map that is read at its address
COPY, TRUE, FALSE = "copy", "true", "false"  # a slot's kind, and TOML's words


MADE = []  # the last programs, each with what it was made of


def instructions_of(settings: dict) -> Code:
    """The instructions of a program by their slots."""
    made_of = {key: list(settings.get(key, [])) for key in ("program", "reloc", "tables", "globals")}
    made_of["constants"] = settings.get("constants")
    code = next((code for other, code in MADE if other == made_of), None)
    if code is None:
        code = instructions_in(settings)
        MADE.insert(0, (made_of, code))
        del MADE[MOST_KEPT:]
    return code


def instructions_in(settings: dict) -> Code:
    """The same, made anew."""
    data = bytes.fromhex("".join(settings["program"]))
    maps = {row["slot"]: row["map"] for row in settings.get("reloc", [])}
    code, slot = {}, 0
    places = {row["slot"]: row for row in [*settings.get("tables", []), *settings.get("globals", [])]}
    while 8 * slot + 8 <= len(data):
        opcode, registers, offset, immediate = struct.unpack_from("<BBhi", data, 8 * slot)
        if opcode == FAR_JUMP:  # the near one, for all that is asked here
            opcode, offset, immediate = JUMP, immediate, 0
        upper = None
        if opcode == WIDE_LOAD and 8 * slot + 16 <= len(data):
            (upper,) = struct.unpack_from("<i", data, 8 * slot + 12)
        fields = registers & 15, registers >> 4, offset, immediate, upper, maps.get(slot)
        code[slot] = Instruction(opcode, *fields)
        if slot in places:
            name_memory(code[slot], places[slot], settings)
        slot += code[slot].slots
    return code


def name_memory(instruction: Instruction, row: dict, settings: dict) -> None:
    """Names the constants or the global of which an instruction has the address."""
    instruction.immediate = row["place"]
    if "section" in row:
        data = settings["constants"][row["section"]]
        instruction.table = Table(row["name"], row["section"], data, row["first"], row["end"])
    else:
        instruction.counter = row["map"]


def maps_and_rest(settings: dict) -> dict:
    """All in settings but their program: the maps, in their order, and what is run."""
    maps = [{**row, "counters": row.get("counters", 1)} for row in settings.get("map", [])]
    return {**{key: value for key, value in settings.items() if key not in OF_THE_PROGRAM}, "map": maps}


def relocations_of(settings: dict) -> list[tuple[int, str]]:
    """The relocations of settings, as (slot, map)."""
    return [(row["slot"], row["map"]) for row in settings.get("reloc", [])]


def quoted(text: str) -> str:
    """A text in TOML's quotation marks. What isn't printable ASCII is escaped, so that no locale changes it."""
    return '"' + "".join(map(escaped, text)) + '"'


def escaped(char: str) -> str:
    """One character of a text in quotation marks."""
    if char in '"\\':
        return f"\\{char}"
    if " " <= char <= "~":
        return char
    return f"\\u{ord(char):04x}" if ord(char) <= 0xFFFF else f"\\U{ord(char):08x}"


def is_text_of(text: str, settings: dict, words: list[str], relocations: list[tuple[int, str]]) -> bool:
    """Whether a text, read again, is these settings with this program and its relocations, and has nothing else."""
    rest = {key: value for key, value in settings.items() if key not in OF_THE_TOOLS}
    rows = [{"slot": slot, "map": name} for slot, name in relocations]
    return with_defaults(tomllib.loads(text)) == with_defaults({**rest, "program": words, "reloc": rows})


def with_defaults(settings: dict) -> dict:
    """Settings of which each list is there, and of each map its number of counters and whether it has parts."""
    maps = [{"counters": 1, "rows": [], "values": [], "parts": False, **row} for row in settings.get("map", [])]
    return {"reloc": [], "packet": [], **settings, "map": maps}


def text_of(settings: dict, words: list[str], relocations: list[tuple[int, str]]) -> str:
    """Settings with this program, its relocations, and the maps of these settings."""
    lines = ["wide = true"] if settings.get("wide") else []
    lines += ["program = [", *(f'  "{word}",' for word in words), "]"]
    for row in settings.get("map", []):
        lines += ["", "[[map]]", f"name = {quoted(row['name'])}", f"entries = {row['entries']}"]
        if row.get("counters", 1) != 1:
            lines.append(f"counters = {row['counters']}")
        lines += ["parts = true"] if row.get("parts") else []
        lines += [f"values = {list(row['values'])}"] if row.get("values") else []
        lines += lines_of_list(row)
    for slot, name in relocations:
        lines += ["", "[[reloc]]", f"slot = {slot}", f"map = {quoted(name)}"]
    return "\n".join(lines) + "\n"


def lines_of_list(row: dict) -> list[str]:
    """The lines of a map that say what its keys are, and those of its list."""
    lines = [f"key = {quoted(row['key'])}"] if "key" in row else []
    lines += [f"size = {row['size']}"] if "size" in row else []
    return lines + (["rows = [", *(f'  "{key}",' for key in row["rows"]), "]"] if row.get("rows") else [])


def key_sizes(settings: dict) -> dict[str, int]:
    """By map how many bytes a lookup reads as its key: a prefix has its length in front of its data."""
    maps = settings.get("map", [])
    return {row["name"]: row.get("size", INDEX_BYTES) + (LENGTH_BYTES if row.get("key") == "prefix" else 0) for row in maps}


def with_parts(settings: dict) -> frozenset[str]:
    """The maps of which a load may take a part of a counter."""
    return frozenset(row["name"] for row in settings.get("map", []) if row.get("parts"))


def without_rows(settings: dict) -> dict:
    """Settings whose maps have empty lists, and counters that begin with 0. No verdict depends on these, which may be as long as
    all else. Constants stay: they have to be there."""
    maps = [
        row if row.get("key") == CONSTANTS else {key: value for key, value in row.items() if key not in ("rows", "values")}
        for row in settings.get("map", [])
    ]
    return {**settings, "map": maps}


def text_beside(result: dict, original: dict, labels: dict) -> str:
    """Settings with the original of their program, as `xdpbox same` reads them. `labels`: of each slot of the result its
    kind and a slot of the original."""
    lines = ["", "[original]", "program = [", *(f'  "{word}",' for word in original["program"]), "]", line_of_places(result, labels)]
    for slot, name in relocations_of(original):
        lines += ["", "[[original.reloc]]", f"slot = {slot}", f"map = {quoted(name)}"]
    return as_text(result) + "\n".join(lines) + "\n"


def text_beside_function(result: dict, data: bytes, function: str, labels: dict) -> str:
    """The same, where the original is a function of an object."""
    lines = ["", "[original]", f'object = "{data.hex()}"', f"function = {quoted(function)}", line_of_places(result, labels)]
    return as_text(result) + "\n".join(lines) + "\n"


def line_of_places(result: dict, labels: dict) -> str:
    """Where the original stands before each slot."""
    rows = (labels.get(slot, ("copy", 0)) for slot in range(len(result["program"])))
    return f"places = [{', '.join(f'[{at}, {FALSE if kind == COPY else TRUE}]' for kind, at in rows)}]"


def as_text(settings: dict) -> str:
    """The program, the maps and the relocations of settings."""
    return text_of(settings, settings["program"], relocations_of(settings))


def whole_text_of(settings: dict, words: list[str], relocations: list[tuple[int, str]]) -> str:
    """Settings with this program and all else that these settings have."""
    lines = [f"{key} = {settings[key]}" for key in ("queues", "ifindex", "start", "script") if key in settings]
    packets = []
    for row in settings.get("packet", []):
        packets += ["", "[[packet]]", f"queue = {row['queue']}", f"bytes = {quoted(row['bytes'])}"]
        packets += [f"times = {row['times']}"] if "times" in row else []
    parts = ["\n".join([*lines, ""]) if lines else "", text_of(settings, words, relocations)]
    return "".join([*parts, "\n".join([*packets, ""]) if packets else ""])
