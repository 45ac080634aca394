"""Additions of 0: clang makes an atomic OR of an atomic addition whose number it knows to be 0. Both leave what stood there, and here
there is the addition alone."""
from __future__ import annotations

from typing import TYPE_CHECKING

from .elf import SLOT_BYTES
from .lines import Fault, lines_of
from .own_device import ZERO, held_in

if TYPE_CHECKING:
    from .elf import Relocation

ATOMICS, OR, FETCH = (0xC3, 0xDB), 0x40, 0x01  # the opcodes of four and of eight bytes, an operation, and a bit beside it
OPERATION = 4  # the byte of a slot that says which it is


def with_additions(code: bytes, relocations: list[Relocation]) -> bytes:
    """The code with an atomic addition in the place of each atomic OR of a register that holds 0."""
    try:
        lines = lines_of(code, relocations)
    except Fault:  # a jump that leads nowhere, which is refused later
        return code
    ors = [line for line in lines if line.opcode in ATOMICS and line.immediate & ~FETCH == OR]
    held = held_in(lines) if ors else {}
    out = bytearray(code)
    for line in ors:
        if held.get(line, {}).get(line.source) == ZERO:
            out[SLOT_BYTES * line.slot + OPERATION] = line.immediate & FETCH
    return bytes(out)
