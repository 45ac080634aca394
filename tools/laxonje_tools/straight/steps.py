"""How often a loop runs that no counter of constants bounds: as often as a masked number says, or one that was compared with a
constant in front of it; and one that adds the carries of a sum a few times. What is shown later decides whether that was right."""
from __future__ import annotations

from typing import TYPE_CHECKING

from .copies import Cases, Trips
from .constants import END_FIELD
from .counters import counters
from .emit import MOST_SLOTS
from .graph import SIZE, Fail, TooMany, loop_of, predecessors, steering
from .instructions import ADD_REGISTER, CONTEXT_ARGUMENT, FRAME_POINTER, LOAD_WORD, MOVE_REGISTER, reads, writes
from .marks import Anew
from .masks import parts_of

if TYPE_CHECKING:
    from .graph import Steering
    from .instructions import Code
    from .marks import Marks

MOST_STEPS = 64  # of a cursor, from its first number to the most that a mask allows
MOST_FOLDS = 6  # of a sum of 64 bits by 16, until nothing is carried


FIRST_KEPT = 6  # of the registers that a call leaves as they were


def unused_registers(code: Code) -> set[int]:
    """Registers that a call leaves, and that no instruction names."""
    return set(range(FIRST_KEPT, FRAME_POINTER)).difference(*(reads(insn) | writes(insn) for insn in code.values()))


class Steps:
    """The steps of the loop around a slot, and the marks that they get."""

    def __init__(self, code: Code, marks: Marks, slot: int) -> None:
        self.code, self.marks, self.loop = code, marks, loop_of(code, slot)

    def told_apart(self, by_number: bool) -> bool:
        """A loop that runs as often as a masked number says, as over the words of a header: a copy for each number.
        If its cursor grows by what is loaded, as over options: as many copies as the cursor has steps of one, or of the least one
        if these are too many. `by_number`: whether the former may help. Whether there is a new mark."""
        rows = list(steering(self.code, self.loop))
        return (
            any(self.by_bound(row) for row in rows)
            or any(self.by_mask(row, by_number) for row in rows if not self.is_by_end(row))
            or any(self.by_folds(row) for row in rows)
        )

    def mark(self, row: Steering, steps: int) -> bool:
        """As many copies as there are steps."""
        if row.inside in self.marks.trips:
            return False
        self.marks.trips[row.inside] = Trips(steps, row.cursors(self.code, self.loop))
        return True

    def is_by_end(self, row: Steering) -> bool:
        """Whether what is compared is the packet's end, of which no mask says anything."""
        loads = (slot for slot in row.sources if self.code[slot].opcode == LOAD_WORD and self.code[slot].offset == END_FIELD)
        return any(is_of_context(self.code, slot) for slot in loads)

    def by_bound(self, row: Steering) -> bool:
        """Of a number that was compared with a constant in front of the loop."""
        steps = [-(-bound // row.step(self.code, self.loop)) for bound in row.bounds]
        steps = [number for number in steps if 1 < number <= MOST_STEPS]
        if not steps or not self.mark(row, max(steps)):
            return False
        self.mark_lengths(row)
        return True

    def mark_lengths(self, row: Steering) -> None:
        """The numbers in front of the loop that are added to make what is compared, and were compared themselves: each is kept."""
        compared = {self.code[slot].destination for slot in row.bounding}
        for slot in sorted(row.sources - self.loop):
            insn, free = self.code[slot], unused_registers(self.code) - {kept for _, kept in self.marks.lengths.values()}
            if insn.opcode == ADD_REGISTER and insn.source in compared and free and slot not in self.marks.lengths:
                self.marks.lengths[slot] = insn.source, max(free)

    def by_folds(self, row: Steering) -> bool:
        """Of a sum whose upper part is added to its lower one until there is none."""
        if not row.folds(self.code, self.loop) or not self.mark(row, MOST_FOLDS):
            return False
        self.mark_copy(row)
        return True

    def mark_copy(self, row: Steering) -> None:
        """A copy of what the jump compares, in front of it: behind the jump, where more is known of the number, it is made anew."""
        copy, jump = self.code.get(row.jump - 1), self.code[row.jump]
        is_copy = copy is not None and copy.opcode == MOVE_REGISTER and copy.source == jump.destination
        if is_copy and not jump.by_register and predecessors(self.code)[row.jump] == [row.jump - 1]:
            self.marks.anew[row.jump, row.inside] = Anew(copy.destination, copy.source)

    def by_mask(self, row: Steering, by_number: bool) -> bool:
        """Of a number after a mask."""
        for mask in row.masks:
            numbers = parts_of(self.code[mask].immediate)
            steps = row.most(self.code, self.loop, mask) - row.first(self.code, self.loop)
            steps = steps if steps <= MOST_STEPS else -(-steps // row.step(self.code, self.loop))
            if row.is_by_data(self.code, self.loop) or not by_number:
                if 0 < steps <= MOST_STEPS and self.mark(row, steps):
                    return True
            elif numbers and mask + 1 not in self.marks.cases:
                self.marks.cases[mask + 1] = Cases(self.code[mask].destination, tuple(numbers))
                return True
        return False


def is_of_context(code: Code, load: int) -> bool:
    """Whether a load's base is the function's argument, or a copy of it, on each way to it."""
    before, seen, todo = predecessors(code), set(), [(load, code[load].base)]
    while todo:
        slot, register = here = todo.pop()
        if here in seen:
            continue
        seen.add(here)
        if slot == 0 and register != CONTEXT_ARGUMENT:
            return False
        for earlier in before[slot]:
            is_written = register in writes(code[earlier])
            if is_written and code[earlier].opcode != MOVE_REGISTER:
                return False
            todo.append((earlier, code[earlier].source if is_written else register))
    return True


def refusal(code: Code, fault: Fail) -> Fail:
    """Why a loop isn't told apart: that it has too many steps, if constants bound it."""
    if not isinstance(fault, TooMany):
        return fault
    try:
        counters(code)
    except Fail:
        return fault
    words = f"this loop has too many steps, or its body too many slots, for a program of at most {MOST_SLOTS}"
    return TooMany(words, min(loop_of(code, fault.slot)), SIZE)
