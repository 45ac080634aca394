"""Whether a program shows the number of an address of a map's value: it is the answer, it is stored, or something is computed of it.

Where numbers get counters of their own values have other addresses, and a program that shows one would be another program."""
from __future__ import annotations

from typing import TYPE_CHECKING, AbstractSet, Iterator, NamedTuple

from .graph import successors
from .instructions import (
    ADD,
    ALU64,
    CALL,
    EXIT,
    FRAME_POINTER,
    JEQ,
    JNE,
    LOAD_DOUBLE,
    MOV,
    STORE_DOUBLE,
    STX,
    SUB,
    reads,
    writes,
)

if TYPE_CHECKING:
    from .instructions import Code, Instruction

ANSWER, DOUBLE = 0, 8


class Held(NamedTuple):
    """The registers, and the places of the stack by their offsets from its end, that may have an address of a value."""

    registers: AbstractSet[int] = frozenset()
    stack: AbstractSet[int] = frozenset()


def shows_addresses(code: Code) -> bool:
    """Whether the number of an address may be seen."""
    before, todo = {0: Held()}, [0]
    while todo:
        slot = todo.pop()
        if is_seen(code[slot], before[slot]):
            return True
        for after, held in ways_behind(code, slot, before[slot]):
            either = Held(*(one | other for one, other in zip(held, before.get(after, Held()))))
            if after not in before or either != before[after]:
                before[after] = either
                todo.append(after)
    return False


def is_seen(insn: Instruction, held: Held) -> bool:
    """Whether an instruction shows an address."""
    if insn.is_load:
        return insn.source == FRAME_POINTER and is_cut(insn, held)
    if insn.is_store:
        is_kept = insn.opcode == STORE_DOUBLE and insn.destination == FRAME_POINTER
        return insn.kind == STX and insn.source in held.registers and not is_kept
    if insn.is_branch:
        is_null_test = insn.operation in (JEQ, JNE) and not insn.by_register and not insn.immediate
        return bool(reads(insn) & held.registers) and not is_null_test
    if insn.is_arithmetic:
        moves = insn.kind == ALU64 and not insn.offset and insn.operation in (MOV, ADD, SUB)
        return bool(reads(insn) & held.registers) and not moves
    return insn.opcode == EXIT and ANSWER in held.registers


def is_cut(load: Instruction, held: Held) -> bool:
    """Whether a load from the stack is of a part of an address."""
    places = [at for at in held.stack if at < load.offset + load.size and load.offset < at + DOUBLE]
    return bool(places) and (load.opcode != LOAD_DOUBLE or places != [load.offset])


def ways_behind(code: Code, slot: int, held: Held) -> Iterator[tuple[int, Held]]:
    """The slots behind one, and what has an address there: what a jump found to be 0 has none."""
    insn, ways = code[slot], successors(code, slot)
    following = held_after(insn, held)
    for way, after in enumerate(ways):
        is_null = insn.is_branch and insn.operation == (JEQ if way else JNE) and not insn.by_register and not insn.immediate
        yield after, Held(following.registers - {insn.destination}, following.stack) if is_null else following


def held_after(insn: Instruction, held: Held) -> Held:
    """What may have an address behind an instruction."""
    if insn.opcode == CALL:
        return Held(held.registers - writes(insn) | {ANSWER}, held.stack)
    if insn.is_store and insn.destination == FRAME_POINTER:
        apart = {at for at in held.stack if at >= insn.offset + insn.size or insn.offset >= at + DOUBLE}
        return Held(held.registers, apart | ({insn.offset} if insn.source in held.registers and insn.kind == STX else set()))
    is_loaded = insn.is_load and insn.source == FRAME_POINTER and insn.offset in held.stack
    if is_loaded or insn.is_arithmetic and reads(insn) & held.registers:
        return Held(held.registers | {insn.destination}, held.stack)
    return Held(held.registers - writes(insn), held.stack)
