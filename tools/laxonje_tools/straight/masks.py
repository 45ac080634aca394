"""What a masked number can be."""
from __future__ import annotations

from typing import TYPE_CHECKING, Iterator, NamedTuple, Optional, Sequence

from .graph import live_registers, predecessors, successors
from .instructions import ALU64, AND, AND_CONSTANT, ARSH, JGE, JGT, JLE, JLT, JMP, JMP32, LSH, MOVE_REGISTER, RSH, XOR, compute, writes

if TYPE_CHECKING:
    from .instructions import Code, Instruction

MOST_CASE_BITS, HALF, DOUBLE = 6, 32, 8  # the second: of a register's bits; the third: its bytes
LSH_CONSTANT, RSH_CONSTANT, ARSH_CONSTANT = ALU64 | LSH, ALU64 | RSH, ALU64 | ARSH


class Row(NamedTuple):
    """Numbers in a row from 0 on, one of which a register has before a slot."""

    slot: int
    numbers: Sequence[int]


class Masked(NamedTuple):
    """What a number can be before a slot, behind its mask, and the shifts and exclusive ors that follow. `row`: where it can be told apart in a row
    in front of them, or None. `mask`: the mask's slot."""

    numbers: Sequence[int]
    row: Optional[Row]
    mask: int


def masked(code: Code, slot: int, register: int) -> Optional[Masked]:
    """What a number can be that was masked by a constant, and maybe shifted or turned round, just before a slot; else None."""
    later = []
    while slot - 1 in code or slot - 2 in code:  # the latter in front of a wide load's second half
        slot -= 1 if slot - 1 in code else 2
        instruction = code[slot]
        if register not in writes(instruction):
            if instruction.kind in (JMP, JMP32):
                return None
        elif instruction.kind != ALU64 or instruction.by_register or instruction.operation not in (AND, LSH, RSH, XOR):
            return None
        elif instruction.operation == AND and instruction.immediate > 0:
            numbers = parts_of(instruction.immediate)
            return Masked([after_shifts(number, later) for number in numbers], row_of(code, slot, numbers, bool(later)), slot)
        else:
            later.append(instruction)
    return None


def row_before(code: Code, slot: int, register: int, numbers: Sequence[int]) -> Optional[Row]:
    """Where a number that can be one of these few is one of a row: in front of a shift to the left, behind which there is no other way."""
    few = numbers[: (1 << MOST_CASE_BITS) + 1]  # of a range there may be 2^64
    while len(few) <= 1 << MOST_CASE_BITS and (slot - 1 in code or slot - 2 in code):
        slot -= 1 if slot - 1 in code else 2
        instruction = code[slot]
        if instruction.kind in (JMP, JMP32):
            return None
        if register in writes(instruction):
            is_shift = instruction.kind == ALU64 and instruction.operation == LSH and not instruction.by_register
            before = [number >> instruction.immediate for number in few] if is_shift else []
            is_row = bool(before) and before == list(range(before[0], before[-1] + 1))
            return Row(slot, before) if is_row else None
    return None


def row_of(code: Code, mask: int, numbers: Sequence[int], is_shifted: bool) -> Optional[Row]:
    """Where a number is one of a row: behind a mask of the lowest bits, if it is shifted later; or in front of a mask of higher ones,
    behind a shift to the right, which may leave no higher number."""
    many = 1 << code[mask].immediate.bit_length()
    if len(numbers) == many:
        return Row(mask + 1, numbers) if is_shifted else None
    before = code.get(mask - 1)
    is_behind_shift = before is not None and before.kind == ALU64 and not before.by_register and before.operation == RSH
    if not numbers or not is_behind_shift or before.destination != code[mask].destination:
        return None
    many = max(many, 1 + (most_loaded(code, mask - 1, before.destination) >> before.immediate))
    return Row(mask, range(many)) if many <= 1 << MOST_CASE_BITS else None


def most_loaded(code: Code, slot: int, register: int) -> int:
    """The most that a register can have before a slot, if it was loaded last, from fewer than eight bytes; or 0."""
    for at in range(slot - 1, -1, -1):
        insn = code.get(at)
        if insn is None or register not in writes(insn):
            continue
        if insn.opcode != MOVE_REGISTER:
            return (1 << 8 * insn.size) - 1 if insn.is_load and insn.size < DOUBLE and not insn.with_sign else 0
        register = insn.source
    return 0


def parts_of(mask: int) -> Sequence[int]:
    """The numbers that have no bit but those of a mask, of masks with few bits."""
    if mask <= 0 or bin(mask).count("1") > MOST_CASE_BITS:
        return ()
    numbers = [0]
    for bit in range(mask.bit_length()):
        numbers += [number | 1 << bit for number in numbers] if mask >> bit & 1 else []
    return numbers


def in_shifts(mask: Instruction) -> Iterator[tuple]:
    """The instructions that do what a mask of bits beside each other does, of which the lowest is left out: so the number is one of a
    row between two shifts. None of another mask."""
    low = (mask.immediate & -mask.immediate).bit_length() - 1
    row = mask.immediate >> low
    if mask.opcode == AND_CONSTANT and mask.immediate > 0 and low and not row & row + 1:
        register = mask.destination
        yield RSH_CONSTANT, register, 0, 0, low
        yield AND_CONSTANT, register, 0, 0, row
        yield LSH_CONSTANT, register, 0, 0, low


class Bounded(NamedTuple):
    """A copy, perhaps a masked one, of a register, of which a jump compares one with a constant: the jump, what comes behind it where that
    isn't above, the register that it doesn't compare, and the one that it does."""

    jump: int
    after: int
    register: int
    compared: int


def bounded_copies(code: Code) -> Iterator[Bounded]:
    """The copies that are compared, or of what is. Each register is needed later: the verifier knows what the jump says of the compared one
    alone."""
    live, before = live_registers(code), predecessors(code)
    for slot, move in code.items():
        if move.opcode != MOVE_REGISTER:
            continue
        mask = code.get(slot + 1)
        is_masked = mask is not None and (mask.opcode, mask.destination) == (AND_CONSTANT, move.destination)
        at = slot + 2 if is_masked else slot + 1
        after = bounded_by(code, at) if at in code and before[at] == [at - 1] else None
        for register, compared in [(move.source, move.destination), (move.destination, move.source)][: 1 if is_masked else 2]:
            if after is not None and code[at].destination == compared and register in live[after]:
                yield Bounded(at, after, register, compared)


def bounded_by(code: Code, jump: int) -> Optional[int]:
    """What comes behind a jump where the register that it compares with a constant isn't above it."""
    insn = code[jump]
    below = {JGT: 0, JGE: 0, JLT: 1, JLE: 1}.get(insn.operation) if insn.is_branch and not insn.by_register else None
    return None if below is None else successors(code, jump)[below]


def cuts(code: Code) -> Iterator[int]:
    """The slots from which on a register is shifted to its upper half, and back."""
    for slot, left in code.items():
        right = code.get(slot + 1)
        if left.opcode == LSH_CONSTANT and left.immediate == HALF and right is not None and right.opcode in (RSH_CONSTANT, ARSH_CONSTANT):
            if (right.destination, right.immediate) == (left.destination, HALF):
                yield slot


def after_shifts(number: int, shifts: list[Instruction]) -> int:
    """A number after these instructions, of which the last comes first."""
    for instruction in reversed(shifts):
        number = compute(instruction, number, instruction.immediate)
    return number
