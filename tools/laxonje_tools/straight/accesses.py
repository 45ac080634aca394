"""Accesses in another form: in front of what was compared, and stores to counters as additions of the difference."""
from __future__ import annotations

from typing import TYPE_CHECKING

from .instructions import (
    ADD_CONSTANT,
    ADD_REGISTER,
    ALU64,
    ARSH,
    ATOMIC_DOUBLE,
    IF_ABOVE_CONSTANT,
    IF_ABOVE_REGISTER,
    LOAD_DOUBLE,
    LOAD_WORD,
    LSH,
    MOVE_CONSTANT,
    MOVE_REGISTER,
    RSH,
    ST,
    SUB_REGISTER,
    Instruction,
)

if TYPE_CHECKING:
    from .copies import Copy
    from .emit import Emitter

COUNTER_BYTES = 8
LSH_CONSTANT, RSH_CONSTANT, ARSH_CONSTANT = ALU64 | LSH, ALU64 | RSH, ALU64 | ARSH
START_FIELD, END_FIELD, MOST_DISTANCE = 0, 4, 65535  # of the context; of an address in a packet


def write_rebased(emitter: Emitter, here: Copy, access: Instruction) -> None:
    """An access at the packet's start plus its own distance, after a comparison of what it reaches."""
    slot, taken = here.slot, {access.base} | ({access.source} if access.is_store else set())
    (distance, base, end), give_back = emitter.borrow(3, slot, emitter.copies.live[slot], taken)
    emitter.load(base, emitter.context, slot)
    emitter.put_own(slot, LOAD_WORD, end, base, END_FIELD)
    emitter.put_own(slot, LOAD_WORD, base, base, START_FIELD)
    emitter.put_own(slot, MOVE_REGISTER, distance, access.base)
    emitter.put_own(slot, SUB_REGISTER, distance, base)
    emitter.put_own(slot, ADD_CONSTANT, distance, 0, 0, access.offset)
    emitter.put_jump(slot, emitter.end, IF_ABOVE_CONSTANT, distance, 0, 0, MOST_DISTANCE)
    emitter.put_own(slot, ADD_REGISTER, base, distance)
    emitter.put_own(slot, MOVE_REGISTER, distance, base)
    emitter.put_own(slot, ADD_CONSTANT, distance, 0, 0, access.size)
    emitter.put_jump(slot, emitter.end, IF_ABOVE_REGISTER, distance, end)
    registers = (base, access.source) if access.is_store else (access.destination, base)
    emitter.put_copy(Instruction(access.opcode, *registers, 0, access.immediate), here)
    give_back()


def write_narrow_load(emitter: Emitter, here: Copy, load: Instruction) -> None:
    """A load of a part of a counter: of the whole counter, and the part is cut out."""
    slot, offset = here.slot, emitter.offset(here, load)
    emitter.put_copy(Instruction(LOAD_DOUBLE, load.destination, load.source, offset - offset % COUNTER_BYTES), here)
    if slot in emitter.known:
        emitter.save(("counted", emitter.known[slot]), load.destination, slot + 1)
    cut(emitter, slot + 1, load.destination, load, offset % COUNTER_BYTES)


def write_word_addition(emitter: Emitter, here: Copy, add: Instruction) -> None:
    """An atomic addition of four bytes of a counter as one to the whole: of the number where they lie in it."""
    slot, offset = here.slot, emitter.offset(here, add)
    (added,), give_back = emitter.borrow(1, slot, emitter.copies.live[slot], {add.base, add.source})
    emitter.put_own(slot, MOVE_REGISTER, added, add.source)
    cut(emitter, slot, added, add)
    if offset % COUNTER_BYTES:
        emitter.put_own(slot, LSH_CONSTANT, added, 0, 0, 8 * (offset % COUNTER_BYTES))
    emitter.put_copy(Instruction(ATOMIC_DOUBLE, add.base, added, offset - offset % COUNTER_BYTES), here)
    give_back()


def cut(emitter: Emitter, slot: int, register: int, access: Instruction, place: int = 0) -> None:
    """The bytes of an access out of eight."""
    for fields in cut_of(register, access, place):
        emitter.put_own(slot, *fields)


def cut_of(register: int, access: Instruction, place: int = 0) -> list[tuple]:
    """What leaves the bytes of an access out of eight, with zeros or their sign above them."""
    above = 8 * (COUNTER_BYTES - access.size)
    down = ARSH_CONSTANT if access.with_sign else RSH_CONSTANT
    return [(LSH_CONSTANT, register, 0, 0, above - 8 * place), (down, register, 0, 0, above)]


def write_difference(emitter: Emitter, here: Copy, store: Instruction) -> None:
    """A store to a counter as an addition: what it stores, less what was loaded before, or else what stands there."""
    slot, base = here.slot, store.destination
    taken = {base, store.source} if store.kind != ST else {base}
    (difference, counted), give_back = emitter.borrow(2, slot, emitter.copies.live[slot], taken)
    row, offset = emitter.marks.differences[slot], emitter.offset(here, store)
    place = offset % COUNTER_BYTES
    if row.known and (not row.told or here.constants.times(row.counter)):
        emitter.load(counted, ("counted", row.counter), slot)
    else:
        emitter.put_own(slot, LOAD_DOUBLE, counted, base, offset - place, copy=here)
    if store.kind == ST:
        emitter.put_own(slot, MOVE_CONSTANT, difference, 0, 0, store.immediate)
    else:
        emitter.put_own(slot, MOVE_REGISTER, difference, store.source)
    if store.size < COUNTER_BYTES:
        cut(emitter, slot, difference, store)
        cut(emitter, slot, counted, store, place)
    emitter.put_own(slot, SUB_REGISTER, difference, counted)
    if place:
        emitter.put_own(slot, LSH_CONSTANT, difference, 0, 0, 8 * place)
    emitter.put_copy(Instruction(ATOMIC_DOUBLE, base, difference, offset - place), here)
    if slot in emitter.known:
        emitter.save(("counted", row.counter), store.source, slot + 1)
    give_back()
