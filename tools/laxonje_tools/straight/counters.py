"""Which numbers have to be told apart so that each loop ends: its counters alone.

A counter is what a jump in a loop compares, if all that it is made of are constants: those in front of the loop, and
additions of constants in it. It bounds the loop if each way around passes one of these additions."""
from __future__ import annotations

from typing import TYPE_CHECKING, AbstractSet, NamedTuple, Optional

from .graph import Fail, following, predecessors
from .instructions import ADD, FRAME_POINTER, LOAD_DOUBLE, STORE_DOUBLE, STORE_DOUBLE_CONSTANT, SUB, reads, writes
from .remembered import remembered

if TYPE_CHECKING:
    from .instructions import Code, Instruction

STACK = "stack"


class Counter(NamedTuple):
    """`needed`: before each slot the registers and places of the stack, as (STACK, offset), that decide the jump.
    `steps`: the slots that add to one of them."""

    needed: dict
    steps: set


@remembered
def counters(code: Code) -> dict[int, set]:
    """Before each slot the registers and the places of the stack whose numbers have to be told apart."""
    before, needed = predecessors(code), {slot: set() for slot in code}
    todo = strong_parts(code, set(code))
    while todo:
        part = todo.pop()
        counter, rest = best(code, before, part)
        for slot, places in counter.needed.items():
            needed[slot] |= places
        todo += rest
    return needed


def best(code: Code, before: dict[int, list[int]], part: set[int]) -> tuple[Counter, list[set[int]]]:
    """The counter that leaves the least of a strong part of the graph, and what it leaves."""
    rows = [counter_of(code, before, jump) for jump in sorted(part) if code[jump].is_branch]
    rows = [(row, strong_parts(code, part - row.steps)) for row in rows if row is not None and row.steps & part]
    if not rows:
        raise Fail("no counter of constants bounds this loop", min(part))
    return min(rows, key=lambda row: (sum(map(len, row[1])), sum(map(len, row[0].needed.values()))))


def counter_of(code: Code, before: dict[int, list[int]], jump: int) -> Optional[Counter]:
    """What decides a jump; None if it isn't made of constants alone."""
    needed, steps, todo = {}, set(), [(jump, register) for register in reads(code[jump])]
    while todo:
        slot, place = todo.pop()
        if place in needed.setdefault(slot, set()):
            continue
        needed[slot].add(place)
        if slot == 0:
            return None
        for earlier in before[slot]:
            made_of = sources(code[earlier], place)
            if made_of is None:
                return None
            if code[earlier].is_arithmetic and code[earlier].destination == place and is_step(code[earlier]):
                steps.add(earlier)
            todo += [(earlier, more) for more in made_of]
    return Counter(needed, steps)


def is_step(instruction: Instruction) -> bool:
    return instruction.operation in (ADD, SUB) and not instruction.by_register and instruction.immediate != 0


def sources(instruction: Instruction, place: object) -> Optional[set]:
    """What an instruction makes a place from: the places themselves if it leaves them; None if from memory."""
    if isinstance(place, tuple):
        return stored(instruction, place)
    if place not in writes(instruction):
        return {place}
    if instruction.is_arithmetic:
        return reads(instruction)
    if instruction.opcode == LOAD_DOUBLE and instruction.source == FRAME_POINTER:
        return {(STACK, instruction.offset)}
    return None


def stored(instruction: Instruction, place: tuple[str, int]) -> Optional[set]:
    """The same, of a place of the stack."""
    at = instruction.offset
    if not instruction.is_store or instruction.destination != FRAME_POINTER:
        return {place}
    if at >= place[1] + 8 or at + instruction.size <= place[1]:
        return {place}
    if at != place[1] or instruction.opcode not in (STORE_DOUBLE, STORE_DOUBLE_CONSTANT):
        return None
    return {instruction.source} if instruction.opcode == STORE_DOUBLE else set()


def strong_parts(code: Code, slots: AbstractSet[int]) -> list[set[int]]:
    """The parts of these slots in which each can be reached from each, but for one slot without a jump to itself."""
    left, parts, forwards = set(slots), [], following(code)
    backwards = {slot: [] for slot in slots}
    for slot in slots:
        for after in forwards[slot]:
            if after in slots:
                backwards[after].append(slot)
    while left:
        first = min(left)
        part = reached(first, left, forwards) & reached(first, left, backwards)
        left -= part
        if len(part) > 1 or first in forwards[first]:
            parts.append(part)
    return parts


def reached(first: int, slots: AbstractSet[int], ways: dict[int, list[int]]) -> set[int]:
    """What of these slots can be reached from the first one."""
    seen, todo = {first}, [first]
    while todo:
        fresh = [after for after in ways[todo.pop()] if after in slots and after not in seen]
        seen.update(fresh)
        todo += fresh
    return seen
