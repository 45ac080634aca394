"""Frames: how much of the stack a function uses, and its place below its caller's.

clang says how much it is. Of an object file nobody says so: there a frame ends at the lowest byte that the code names, and it is
looked at whether an address could lead below."""
from __future__ import annotations

import struct
from functools import reduce
from typing import TYPE_CHECKING, Iterator, NamedTuple, Optional, Union

from .lines import CALL, MOVE, Fault, Line, following_in, lines_of, packed, writes

if TYPE_CHECKING:
    from collections.abc import Mapping

FRAME = 10
MOV_64, ADD_CONSTANT, LOAD_DOUBLE, STORE_DOUBLE = 0xBF, 0x07, 0x79, 0x7B
LOADS, STORES, BY_REGISTER_STORED, ALU32, ALU64 = 1, (2, 3), 3, 4, 7  # classes of opcodes
BY_REGISTER = 8  # of an opcode
ARGUMENTS = range(1, 6)
DOUBLE = 8  # bytes of an address
NOWHERE = -(1 << 16)  # a place that is below each stack
UNKNOWN = (
    "calls what needs room on the stack, and its object file doesn't show how much of the stack the function uses: give the C, of"
    " which clang says that"
)


class Address(NamedTuple):
    """An address in a frame: the lowest place that it may be, and where the frame ends."""

    lowest: int
    bottom: int


Held = dict[Union[int, tuple[int]], Address]  # by register, or by place on the stack in a tuple


def named_by(lines: list[Line]) -> int:
    """How many bytes of its stack a function names, in whole eights."""
    lowest = 0
    for at, line in enumerate(lines):
        kind = line.opcode & 7
        if kind in STORES and line.destination == FRAME or kind == LOADS and line.source == FRAME:
            lowest = min(lowest, line.offset)
        if line.opcode == MOV_64 and line.source == FRAME:
            lowest = min(lowest, added_to(lines[at + 1 :], line.destination))
    return -lowest + 7 & -8


def added_to(lines: list[Line], register: int) -> int:
    """The first constant that is added to a register in these lines, up to where it is written otherwise."""
    for line in lines:
        if line.opcode == ADD_CONSTANT and line.destination == register:
            return line.immediate
        if writes(line, register):
            break
    return 0


def frame_of(lines: list[Line], name: str, frames: Mapping[str, int]) -> int:
    """How many bytes of the stack a function uses, in whole eights. `frames`: what clang says of functions, by their names."""
    return max(named_by(lines), frames.get(name, 0) + 7 & -8)


def move_frame(lines: list[Line], above: int) -> None:
    """Moves what a function has on its stack below its caller's."""
    for line in lines:
        kind = line.opcode & 7
        is_access = kind in STORES and line.destination == FRAME or kind == LOADS and line.source == FRAME
        if computes_with_frame(line):
            raise Fault("calls a function that computes with the frame's address")
        if is_access:
            line.raw = line.raw[:2] + struct.pack("<h", line.offset - above) + line.raw[4:]
    for at in reversed(range(len(lines))):
        line = lines[at]
        if line.opcode == MOV_64 and line.source == FRAME:
            following = lines[at + 1] if at + 1 < len(lines) else None
            joined = following is not None and following.opcode == ADD_CONSTANT and following.destination == line.destination
            if joined and following not in {row.target for row in lines}:
                following.raw = packed(ADD_CONSTANT, line.destination, 0, 0, following.immediate - above)
            else:
                lines.insert(at + 1, Line(packed(ADD_CONSTANT, line.destination, 0, 0, -above), line.origin))


def computes_with_frame(line: Line) -> bool:
    """Whether a line does something with the frame's address itself, but for a copy of it in a register: it stores it, compares it, or
    computes with it."""
    kind, is_source = line.opcode & 7, line.source == FRAME
    if kind == BY_REGISTER_STORED:
        return is_source
    if line.is_jump and line.destination == FRAME:
        return True
    is_number = kind in (ALU32, ALU64) and line.opcode != MOV_64
    return bool(line.opcode & BY_REGISTER) and is_source and (is_number or line.is_jump)


# --- of an object file


def below_frames(lines: list[Line]) -> Optional[Line]:
    """A line at which an address may lead below the end of its frame; None if there is none."""
    return next((line for line, address in reached_in(lines) if address.lowest < address.bottom), None)


def check_frames(lines: list[Line]) -> None:
    """Raises Fault unless no address leads below the end of its frame."""
    line = below_frames(lines)
    if line is not None:
        fault = Fault(UNKNOWN)
        fault.slot = line.origin
        raise fault


def stack_of(code: bytes, name: str, frames: Optional[Mapping[str, int]]) -> Optional[int]:
    """How many bytes of the stack a function without calls uses; None if that isn't shown."""
    try:
        lines = lines_of(code, [])
    except Fault:
        return None
    used = frame_of(lines, name, frames or {})
    for line in lines:
        line.bottom = -used
    return used if frames is not None or below_frames(lines) is None else None


def reached_in(lines: list[Line]) -> Iterator[tuple[Line, Address]]:
    """The addresses in frames at which lines access memory, but for places that they name, which they give to a call, or of which it
    isn't followed what becomes."""
    for line, held in held_in(lines).items():
        kind = line.opcode & 7
        if line.opcode == CALL:
            yield from ((line, held[register]) for register in ARGUMENTS if register in held)
        base = held.get(line.source if kind == LOADS else line.destination)
        if kind in (LOADS, *STORES) and base is not None:
            yield line, moved(base, line.offset)
        given = address_in(held, line, line.source)
        if kind == BY_REGISTER_STORED and given is not None and not is_kept(line):
            yield line, moved(given, NOWHERE)


def is_kept(line: Line) -> bool:
    """Whether a store puts a register on the stack, at a place that the code names."""
    return (line.opcode, line.destination) == (STORE_DOUBLE, FRAME)


def held_in(lines: list[Line]) -> dict[Line, Held]:
    """The addresses in frames that there may be in front of each line that can be reached."""
    following, held, todo = following_in(lines), {lines[0]: {}}, [lines[0]]
    while todo:
        line = todo.pop()
        behind = held_behind(line, held[line])
        for after in following[line]:
            both = joined(held[after], behind) if after in held else behind
            if held.get(after) != both:
                held[after] = both
                todo.append(after)
    return held


def joined(one: Held, other: Held) -> Held:
    """What there may be on one of two ways."""
    return {key: lower(one.get(key), other.get(key)) for key in one.keys() | other.keys()}


def lower(one: Optional[Address], other: Optional[Address]) -> Address:
    """An address that is one of two."""
    if one is None or other is None:
        return one or other
    return Address(min(one.lowest, other.lowest), max(one.bottom, other.bottom))


def moved(address: Address, by: int) -> Address:
    return Address(max(NOWHERE, address.lowest + by), address.bottom)


def address_in(held: Held, line: Line, register: int) -> Optional[Address]:
    """The address in a frame that a register has in front of a line; None if it has none."""
    return Address(0, line.bottom) if register == FRAME else held.get(register)


def held_behind(line: Line, held: Held) -> Held:
    """The addresses that there may be behind a line."""
    behind = {key: address for key, address in held.items() if not isinstance(key, int) or not writes(line, key)}
    if is_kept(line):
        behind.pop((line.offset,), None)
        put(behind, (line.offset,), address_in(held, line, line.source))
    else:
        put(behind, line.destination, made_by(line, held))
    return behind


def put(held: Held, key: Union[int, tuple[int]], address: Optional[Address]) -> None:
    if address is not None:
        held[key] = address


def kept_above(place: int, held: Held) -> Optional[Address]:
    """What a load may take from a place of the stack, or from one above it; None if no address is kept there."""
    kept = [address for key, address in held.items() if not isinstance(key, int) and key[0] + DOUBLE > place]
    return moved(reduce(lower, kept), NOWHERE) if kept else None


def made_by(line: Line, held: Held) -> Optional[Address]:
    """The address that a line leaves in its destination; None if it leaves none."""
    kind, by_register = line.opcode & 7, bool(line.opcode & BY_REGISTER)
    source = address_in(held, line, line.source)
    if line.opcode == LOAD_DOUBLE and line.source == FRAME:
        return held.get((line.offset,))
    if line.opcode == LOAD_DOUBLE and source is not None:
        return kept_above(moved(source, line.offset).lowest, held)
    if kind != ALU64:
        return None
    if line.opcode >> 4 == MOVE:
        return source if by_register else None
    before = held.get(line.destination)
    if line.opcode == ADD_CONSTANT:
        return before and moved(before, line.immediate)
    either = lower(before, source if by_register else None)
    return either and moved(either, NOWHERE)  # what else is computed with an address may be anywhere
