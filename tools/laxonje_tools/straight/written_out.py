"""A program with what `xdpbox same` doesn't know written out: numbers of fewer than eight bytes in maps' values as loads and stores of
their whole counters, keys outside of the stack as copies on it, and masks of indices without their lowest bits as shifts and a mask.

It is done before all else: the result is made of the program so written out. Each instruction is written out for itself, by
where a value's numbers lie and which map a lookup is in. A lookup of which ways with several maps meet is copied behind each map.

A store reads what stands in the counter. Where the number is a count, the result puts what it has loaded before in the place of that, so
that a count of another queue between the two isn't lost: `again` in the settings says which loads these are."""
from __future__ import annotations

from dataclasses import replace
from typing import TYPE_CHECKING, AbstractSet, Iterator, NamedTuple, Optional

from .accesses import COUNTER_BYTES, LSH_CONSTANT, cut_of
from .graph import live_registers
from .instructions import (
    ADD_CONSTANT,
    ATOMIC_DOUBLE,
    CALL,
    EXIT,
    FRAME_POINTER,
    JUMP,
    LOAD_DOUBLE,
    MOVE_CONSTANT,
    MOVE_REGISTER,
    ST,
    STORE_DOUBLE,
    SUB_REGISTER,
    Instruction,
)
from .keys import copied_key
from .kinds import VALUE, kinds_before
from .lines import Line, in_place_of, jump_target
from .lowered import is_computed
from .masks import in_shifts
from .own_stack import STACK_BYTES
from .parts import with_counters
from .seen import shows_addresses
from .stack_words import loads_of_stores, place_of

if TYPE_CHECKING:
    from .instructions import Code
    from .keys import Key
    from .marks import Found, Result
    from .stack_words import Place

MOST_SLOTS, MOST_BETWEEN = 4096, 16  # of a program; between the load of a map and a lookup that is copied
MOST_WORDS = 10  # of the stack that are written to, for a key and two registers; the words of its numbers are behind these


class WrittenOut(NamedTuple):
    """Settings whose program is written out, and whether a number of fewer than eight bytes is stored in it."""

    settings: dict
    has_stores: bool


class More(NamedTuple):
    """What is written out beside numbers and keys. `words`: numbers on the stack; `masks`: masks of indices; `sums`: addresses that are
    moved to a register after something was added to them; `sets`: numbers that are counted on some ways alone are set, and what another
    queue counts in between is lost, as in Linux."""

    words: bool = False
    masks: bool = False
    sums: bool = False
    sets: bool = False


class Unclear(Exception):
    """An instruction isn't the same on all ways to it, or accesses two counters."""


def written_out(settings: dict, code: Code, result: Result, more: More = More()) -> Optional[WrittenOut]:
    """Settings with their program written out; None if there is nothing to write, or no room, or it isn't the same on all ways.
    `code`: the program; `result`: what was found of it."""
    found, loads, masks = result.found, loads_of_stores(code) if more.words else {}, result.masks if more.masks else set()
    words = {place: at for at, place in enumerate(sorted({place_of(code[load]) for load in loads}))}
    counted = {slot: row.known for slot, row in result.differences.items() if slot in found.parts and is_computed(code, slot, row)}
    told = {slot for slot in counted if result.differences[slot].told}
    sums = set(moved_sums(code)) if more.sums else set()
    others = loads or masks or sums
    if not (result.moved or found.keys or found.parts or others) or any(more) and not (others or more.sets and told):
        return None
    if any(result.moved.values()) and shows_addresses(code) or told and not more.sets:
        return None
    if found.top - COUNTER_BYTES * (MOST_WORDS + len(words)) < -STACK_BYTES:
        return None
    counted = {slot: loads for slot, loads in counted.items() if slot not in told}
    try:
        writing = Writing(code, found, words, loads, masks)
        rows = {slot: list(writing.lines(slot)) for slot in sorted(code)}
        rows.update(row for slot in sums for row in moved_first(code, slot))
    except Unclear:
        return None
    total = sum(line.insn.slots for lines in rows.values() for line in lines)
    has_stores = any(code[slot].is_store and not code[slot].is_atomic for slot in found.parts)
    return None if total > MOST_SLOTS else WrittenOut(settings_with(settings, result, rows, counted), has_stores)


def moved_sums(code: Code) -> Iterator[int]:
    """The slots at which a constant is added to an address in a value that is moved to another register next, and isn't read later."""
    live, kinds = live_registers(code), kinds_before(code, zeros=True)
    led_to = {jump_target(slot, insn) for slot, insn in code.items()}
    for slot, insn in code.items():
        move = code.get(slot + 1)
        is_move = move is not None and move.opcode == MOVE_REGISTER and move.source == insn.destination
        is_address = slot in kinds and kinds[slot].get(insn.destination, ("",))[0] == VALUE
        if is_move and is_address and insn.opcode == ADD_CONSTANT and slot + 1 not in led_to:
            if insn.destination not in live[slot + 2] | {move.destination}:
                yield slot


def moved_first(code: Code, slot: int) -> Iterator[tuple[int, list[Line]]]:
    """The move, and the addition behind it."""
    move = code[slot + 1]
    yield slot, [Line(move)]
    yield slot + 1, [Line(replace(code[slot], destination=move.destination))]


def settings_with(settings: dict, result: Result, rows: dict[int, list[Line]], counted: dict[int, frozenset]) -> dict:
    """Settings with these lines, by the slot in whose place they stand. `counted`: by the slots of stores of numbers that are counted
    the loads before them."""
    made = in_place_of(settings, rows)
    starts = made.starts
    again = [{"slot": starts[slot] + first_load(rows[slot]), "loads": [starts[load] for load in loads]} for slot, loads in counted.items()]
    return {**with_counters(made.settings, result.moved), "numbers": {}, "again": again}


def first_load(lines: list[Line]) -> int:
    """Where among lines of one slot each the first is that loads eight bytes."""
    return next(at for at, line in enumerate(lines) if line.insn.opcode == LOAD_DOUBLE)


class Writing:
    """What stands in the place of a program's instructions. `copied`: by the slot that loads a map the lookup that is copied behind it,
    and its key. `words`: of places of the stack that are written out which word of our own each has; `loads`: by the slots of loads from
    there the stores of what they load. `masks`: the slots of masks that are written out."""

    def __init__(
        self, code: Code, found: Found, words: dict[Place, int], loads: dict[int, set[int]], masks: AbstractSet[int]
    ) -> None:
        self.code, self.found, self.live, self.copied, self.masks = code, found, live_registers(code), {}, masks
        self.words, self.loads, self.stores = words, loads, {store for stores in loads.values() for store in stores}
        for slot, keys in found.keys.items():
            if len({key.of_map for key in keys}) != len(keys):
                raise Unclear
            for key in keys if len(keys) > 1 else ():
                loads = [at for at, insn in code.items() if insn.map == key.of_map and self.way(at, slot) is not None]
                self.copied.update((at, (slot, key)) for at in loads)

    def way(self, at: int, lookup: int) -> Optional[list[int]]:
        """The slots from one that loads a map to a lookup, if no way leads elsewhere; else None."""
        slots, at = [], at + self.code[at].slots
        while at != lookup:
            insn = self.code.get(at)
            if insn is None or insn.is_branch or insn.opcode in (CALL, EXIT) or insn.map is not None or len(slots) > MOST_BETWEEN:
                return None
            slots += [at] if insn.opcode != JUMP else []
            at += insn.slots if insn.opcode != JUMP else 1 + insn.offset
        return slots

    def lines(self, slot: int) -> Iterator[Line]:
        """What stands in the place of one."""
        insn, keys = self.code[slot], self.found.keys.get(slot, ())
        if slot in self.copied:
            lookup, key = self.copied[slot]
            yield Line(insn)
            for at in self.way(slot, lookup):
                yield from self.lines(at)
            yield from self.looked_up(lookup, key)
            yield Line(Instruction(JUMP), lookup + 1)
        elif len(keys) == 1:
            yield from self.looked_up(slot, next(iter(keys)))
        elif slot in self.found.accesses:
            yield from (Line(other) for other in self.access(slot, insn))
        elif slot in self.loads or slot in self.stores:
            yield from (Line(other) for other in self.by_word(slot, insn))
        elif slot in self.masks:
            yield from (Line(Instruction(*fields)) for fields in in_shifts(insn))
        else:
            yield Line(insn, jump_target(slot, insn))

    def looked_up(self, slot: int, key: Key) -> Iterator[Line]:
        """A copy of a key, and the lookup."""
        first = self.found.top - COUNTER_BYTES * len(key.words)
        yield from (Line(Instruction(*fields)) for fields in copied_key(key, [first + at for at in key.words]))
        yield Line(self.code[slot])

    def access(self, slot: int, insn: Instruction) -> Iterator[Instruction]:
        """An access in a value."""
        (lying, *others) = self.found.accesses[slot]
        if others or slot in self.found.parts and lying.low + insn.size > COUNTER_BYTES:
            raise Unclear
        whole = insn.offset + lying.by - lying.low
        if slot not in self.found.parts:
            yield replace(insn, offset=insn.offset + lying.by)
        elif insn.is_load:
            yield Instruction(LOAD_DOUBLE, insn.destination, insn.source, whole)
            yield from (Instruction(*fields) for fields in cut_of(insn.destination, insn, lying.low))
        else:
            yield from self.with_registers(insn, self.live[slot], lying.low, whole)

    def by_word(self, slot: int, insn: Instruction) -> Iterator[Instruction]:
        """A load from the stack by a word, or a store there to its word too."""
        word = self.found.top - COUNTER_BYTES * (MOST_WORDS + 1 + self.words[place_of(insn)])
        if slot in self.stores:
            yield insn
            yield Instruction(STORE_DOUBLE, FRAME_POINTER, insn.source, word)
        else:
            yield Instruction(LOAD_DOUBLE, insn.destination, FRAME_POINTER, word)
            yield from (Instruction(*fields) for fields in cut_of(insn.destination, insn))

    def with_registers(self, insn: Instruction, live: AbstractSet[int], low: int, whole: int) -> Iterator[Instruction]:
        """A store or an addition, by registers that aren't read later, or are kept on the stack meanwhile."""
        own = {insn.destination} if insn.kind == ST else {insn.destination, insn.source}
        count, fields_of = (1, added) if insn.adds_word else (2, stored)
        usable = (register for register in range(FRAME_POINTER) if register not in own)
        others = sorted(usable, key=lambda register: register in live)[:count]
        kept = [(register, self.found.top - COUNTER_BYTES * (at + 1)) for at, register in enumerate(others) if register in live]
        yield from (Instruction(STORE_DOUBLE, FRAME_POINTER, register, place) for register, place in kept)
        yield from (Instruction(*fields) for fields in fields_of(insn, low, whole, *others))
        yield from (Instruction(LOAD_DOUBLE, register, FRAME_POINTER, place) for register, place in kept)


def added(insn: Instruction, low: int, whole: int, number: int) -> Iterator[tuple]:
    """An atomic addition of four bytes: of the number where they lie in the counter. `number`: a register."""
    yield MOVE_REGISTER, number, insn.source
    yield from [*cut_of(number, insn), *shifted(number, low)]
    yield ATOMIC_DOUBLE, insn.destination, number, whole


def stored(insn: Instruction, low: int, whole: int, number: int, counter: int) -> Iterator[tuple]:
    """A store: the difference from what stands in its bytes is added to the counter. `number`, `counter`: registers."""
    yield (MOVE_CONSTANT, number, 0, 0, insn.immediate) if insn.kind == ST else (MOVE_REGISTER, number, insn.source)
    yield from [*cut_of(number, insn), (LOAD_DOUBLE, counter, insn.destination, whole), *cut_of(counter, insn, low)]
    yield SUB_REGISTER, number, counter
    yield from shifted(number, low)
    yield ATOMIC_DOUBLE, insn.destination, number, whole


def shifted(register: int, low: int) -> list[tuple]:
    """What brings a number to its place in a counter."""
    return [(LSH_CONSTANT, register, 0, 0, 8 * low)] if low else []
