"""Words of a program's stack: those that may still be loaded, and numbers of fewer than eight bytes that are loaded as they were stored: an
index that is a key too.

Of eight bytes of the stack the verifier knows what number they hold, of fewer it knows nothing. So such a number can be written out as a word
of its own, which is stored beside it."""
from __future__ import annotations

from typing import TYPE_CHECKING, AbstractSet, NamedTuple, Optional

from .graph import backwards, predecessors
from .instructions import FRAME_POINTER, LOAD_DOUBLE, STORE_DOUBLE, STORE_DOUBLE_CONSTANT, STX
from .kinds import AMONG, FRAME, kinds_before, stores_elsewhere
from .remembered import remembered

if TYPE_CHECKING:
    from .instructions import Code, Instruction

DOUBLE, STORES = 8, (STORE_DOUBLE, STORE_DOUBLE_CONSTANT)


class Place(NamedTuple):
    """Bytes of the stack: the first one's offset from its end, and how many."""

    offset: int
    size: int

    def meets(self, other: Place) -> bool:
        """Whether the two have a byte in common."""
        return self.offset < other.offset + other.size and other.offset < self.offset + self.size


@remembered
def live_words(code: Code) -> dict[int, AbstractSet[int]]:
    """The words of the stack, by their offsets from its end, that may still be loaded, before each slot."""
    kinds = kinds_before(code)
    stored = frozenset(insn.offset for insn in code.values() if insn.opcode in STORES and insn.destination == FRAME_POINTER)

    def step(slot: int, needed: AbstractSet[int]) -> AbstractSet[int]:
        insn = code[slot]
        if insn.opcode in STORES and insn.destination == FRAME_POINTER:
            return needed - {insn.offset}
        if insn.opcode != LOAD_DOUBLE or kinds.get(slot, {}).get(insn.source, ("",))[0] not in (FRAME, AMONG):
            return needed
        at = kinds[slot].stack_offset(insn)
        return needed | (stored if at is None else {at})

    return backwards(code, step)


def loads_of_stores(code: Code) -> dict[int, set[int]]:
    """By the slot of each load of fewer than eight bytes from the stack the stores of what it loads."""
    elsewhere, before = stores_elsewhere(code), predecessors(code)
    loads = [slot for slot, insn in code.items() if insn.is_load and insn.source == FRAME_POINTER and insn.size < DOUBLE]
    found = {load: stores_of(code, before, elsewhere, load) for load in loads}
    return {load: stores for load, stores in found.items() if stores}


def place_of(insn: Instruction) -> Place:
    """Where an access by the frame pointer lies."""
    return Place(insn.offset, insn.size)


def stores_of(code: Code, before: dict[int, list[int]], elsewhere: set[int], load: int) -> Optional[set[int]]:
    """The stores of a register's bytes of which one is the last to the place of a load on each way to it; None if there is another way."""
    place, stores, seen, todo = place_of(code[load]), set(), set(), [load]
    while todo:
        for slot in before[todo.pop()]:
            insn = code[slot]
            if slot in seen:
                continue
            seen.add(slot)
            on_stack = insn.is_store and insn.destination == FRAME_POINTER
            if on_stack and insn.kind == STX and not insn.is_atomic and place_of(insn) == place:
                stores.add(slot)
            elif slot == 0 or on_stack and place.meets(place_of(insn)) or insn.is_store and not on_stack and slot not in elsewhere:
                return None
            else:
                todo.append(slot)
    return stores
