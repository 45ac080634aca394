"""Conditions that clang joined to one number: of `if (a || b)` it may compute whether one of the two holds, and test that."""
from __future__ import annotations

from typing import TYPE_CHECKING

from .instructions import ALU64, AND, AND_CONSTANT, OR

if TYPE_CHECKING:
    from .instructions import Code

LOWEST_BIT = 1


def has_joined(code: Code) -> bool:
    """Whether the lowest bit of two registers joined is tested."""
    slots = sorted(code)
    for at, then, jump in zip(slots, slots[1:], slots[2:]):
        both, bit, test = code[at], code[then], code[jump]
        is_both = both.kind == ALU64 and both.by_register and both.operation in (AND, OR)
        is_bit = (bit.opcode, bit.destination, bit.immediate) == (AND_CONSTANT, both.destination, LOWEST_BIT)
        if is_both and is_bit and test.is_branch and test.destination == both.destination and not test.by_register and not test.immediate:
            return True
    return False
