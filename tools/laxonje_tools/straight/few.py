"""Numbers that are made of constants and of masked bits, as `!from_client` is, which is one of two."""
from __future__ import annotations

from typing import TYPE_CHECKING, Sequence

from .graph import predecessors
from .instructions import AND, MASK_64, MOV, NEG, compute, writes
from .masks import parts_of

if TYPE_CHECKING:
    from .instructions import Code, Instruction

MOST_NUMBERS, MOST_DEEP = 64, 16


class Few:
    """What registers of a program can have. `before`: of each slot those from which control comes."""

    def __init__(self, code: Code) -> None:
        self.code, self.before = code, predecessors(code)

    def numbers(self, slot: int, register: int) -> Sequence[int]:
        """What a register can have before a slot, in order; none if it isn't made of these, or is one of many."""
        return sorted(self.of(slot, register, 0))

    def of(self, slot: int, register: int, deep: int) -> set[int]:
        """The same as a set. `deep`: how many instructions behind this slot are made of it."""
        found: set[int] = set()
        for at in self.written(slot, register):
            more = self.made(at, register, deep) if at is not None and deep < MOST_DEEP else set()
            found |= more
            if not more or len(found) > MOST_NUMBERS:
                return set()
        return found

    def written(self, slot: int, register: int) -> set:
        """The slots that write a register last before another one; with None if the program may begin without."""
        found, seen, todo = set(), {slot}, [slot]
        while todo:
            here = todo.pop()
            found |= set() if self.before[here] else {None}
            for at in self.before[here]:
                if register in writes(self.code[at]):
                    found.add(at)
                elif at not in seen:
                    seen.add(at)
                    todo.append(at)
        return found

    def made(self, slot: int, register: int, deep: int) -> set[int]:
        """What an instruction may leave in its register; none if that isn't known."""
        insn = self.code[slot]
        if not insn.is_arithmetic:
            return set()
        one = {0} if insn.operation == MOV else self.of(slot, register, deep + 1)
        if not one and insn.operation == AND and not insn.by_register:
            return set(parts_of(insn.immediate))
        is_alone = not insn.by_register or insn.operation == NEG
        other = {insn.immediate & MASK_64} if is_alone else self.of(slot, insn.source, deep + 1)
        return results(insn, one, other)


def results(insn: Instruction, one: set[int], other: set[int]) -> set[int]:
    """What arithmetic makes of these numbers; none if that isn't known of all."""
    if len(one) * len(other) > MOST_NUMBERS:
        return set()
    found = {compute(insn, a, b) for a in one for b in other}
    return set() if None in found else found
