"""A program as a graph of slots: what follows what, what is live, and what lies in loops."""
from __future__ import annotations

from typing import TYPE_CHECKING, AbstractSet, Callable, Iterable, Iterator, NamedTuple, Optional

from .instructions import (
    ADD_CONSTANT,
    ALU64,
    AND,
    CALL,
    EXIT,
    FRAME_POINTER,
    JGE,
    JGT,
    JLE,
    JLT,
    JUMP,
    LSH,
    MOVE_CONSTANT,
    RSH,
    STX,
    reads,
    writes,
)
from .remembered import remembered

if TYPE_CHECKING:
    from .instructions import Code, Instruction

SIZE, INDEX, SHARED = "size", "index", "shared"
MOST_SHIFT, LSH_CONSTANT, RSH_CONSTANT = 16, ALU64 | LSH, ALU64 | RSH


class Fail(Exception):
    """Why a program can't be straightened, in words for its author. `slot`: where, in the program as it was. `cause`:
    of the verifier's, or SIZE or INDEX, which say what to write instead, or SHARED: of numbers that lie in one counter."""

    def __init__(self, words: str, slot: Optional[int] = None, cause: Optional[str] = None) -> None:
        super().__init__(words)
        self.slot, self.cause = slot, cause


class NoBound(Fail):
    """A loop of which no constant says how often it runs."""

    def __init__(self, words: str, slot: int) -> None:
        super().__init__(words, slot, "V5")


class TooMany(Fail):
    """More copies than anybody wants."""

    def __init__(self, words: str, slot: int, cause: str = "V5") -> None:
        super().__init__(words, slot, cause)


class AddedToNumber(Fail):
    """An addition of the address of a map's value to a number."""


def successors(code: Code, slot: int) -> list[int]:
    """The slots to which control may go from a slot."""
    instruction = code[slot]
    if instruction.opcode == EXIT:
        return []
    if instruction.opcode == JUMP:
        return [slot + 1 + instruction.offset]
    if instruction.is_branch:
        return [slot + 1, slot + 1 + instruction.offset]
    return [slot + instruction.slots]


@remembered
def following(code: Code) -> dict[int, list[int]]:
    """For each slot, the slots to which control may go."""
    return {slot: successors(code, slot) for slot in code}


@remembered
def predecessors(code: Code) -> dict[int, list[int]]:
    """For each slot, the slots from which control may come."""
    before = {slot: [] for slot in code}
    for slot, ways in following(code).items():
        for after in ways:
            if after not in code:
                raise Fail(f"slot {slot} leads to slot {after}, which isn't there", slot)
            before[after].append(slot)
    return before


def backwards(code: Code, step: Callable[[int, frozenset[int]], AbstractSet[int]]) -> dict[int, AbstractSet[int]]:
    """The least sets, one per slot, with `step(slot, the set after it)` as the set before it."""
    sets, before, ways, todo = {slot: frozenset() for slot in code}, predecessors(code), following(code), list(code)
    while todo:
        slot = todo.pop()
        now = step(slot, frozenset().union(*(sets[after] for after in ways[slot])))
        if now != sets[slot]:
            sets[slot] = now
            todo += before[slot]
    return sets


@remembered
def live_registers(code: Code) -> dict[int, AbstractSet[int]]:
    """The registers that may still be read, before each slot."""
    return backwards(code, lambda slot, needed: reads(code[slot]) | (needed - writes(code[slot])))


@remembered
def loops(code: Code) -> set[int]:
    """The slots from which control can come back to them: Tarjan's strong components, without recursion."""
    number, lowest, path, open_slots, inside = {}, {}, [], set(), set()
    todo = []

    def enter(slot: int) -> None:
        number[slot] = lowest[slot] = len(number)
        path.append(slot)
        open_slots.add(slot)
        todo.append((slot, iter(successors(code, slot))))

    enter(0)
    while todo:
        slot, rest = todo[-1]
        for after in rest:
            if after not in number:
                enter(after)
                break
            if after in open_slots:
                lowest[slot] = min(lowest[slot], number[after])
        else:
            todo.pop()
            if todo:
                lowest[todo[-1][0]] = min(lowest[todo[-1][0]], lowest[slot])
            if lowest[slot] == number[slot]:
                first = path.index(slot)
                component, path[first:] = path[first:], []
                open_slots.difference_update(component)
                if len(component) > 1 or slot in successors(code, slot):
                    inside.update(component)
    return inside


def slots_that_reach(code: Code, goals: Iterable[int]) -> set[int]:
    """The slots from which one of the goals can be reached, and the goals."""
    before, reached, todo = predecessors(code), set(goals), list(goals)
    while todo:
        fresh = [slot for slot in before[todo.pop()] if slot not in reached]
        reached.update(fresh)
        todo += fresh
    return reached


@remembered
def steering_registers(code: Code) -> dict[int, AbstractSet[int]]:
    """The registers, before each slot, whose numbers may decide a jump in a loop or before one, or become part of an
    address. Numbers in others needn't be told apart: they are sums, flags and the answer."""
    near = slots_that_reach(code, loops(code))

    def step(slot: int, needed: AbstractSet[int]) -> AbstractSet[int]:
        instruction = code[slot]
        if instruction.is_branch:
            return needed | (reads(instruction) if slot in near else set())
        if instruction.opcode == EXIT:
            return frozenset()
        if instruction.is_store:
            kept = instruction.kind == STX and instruction.destination == FRAME_POINTER
            return needed | {instruction.base} | ({instruction.source} if kept else set())
        used = instruction.is_load or instruction.opcode == CALL or writes(instruction) & needed
        return needed - writes(instruction) | (reads(instruction) if used else set())

    return backwards(code, step)


class Steering(NamedTuple):
    """What decides how often a loop runs: a jump that leaves it, where it leads inside, and the instructions of which
    the compared numbers are made, from the last mask by a constant outside of the loop on. `bounding`: the jumps that compare what is
    made of the same numbers with a constant, and from which none above it comes to the loop; `bounds`: these constants."""

    jump: int
    inside: int
    masks: list
    sources: set
    bounding: list
    bounds: list

    def is_by_data(self, code: Code, loop: set[int]) -> bool:
        """Whether something is loaded in the loop that steers it."""
        return any(code[slot].is_load for slot in self.sources & loop)

    def folds(self, code: Code, loop: set[int]) -> bool:
        """Whether what is compared is shifted in the loop, as a sum whose carries are added to it."""
        shifts = (slot for slot in self.sources & loop if code[slot].is_arithmetic and code[slot].operation == RSH)
        return any(not is_low_half(code, slot) for slot in shifts)

    def step(self, code: Code, loop: set[int]) -> int:
        """The least number that is added to what is compared in one step of the loop."""
        added = [code[slot] for slot in self.sources & loop if code[slot].opcode == ADD_CONSTANT]
        return min([insn.immediate for insn in added if insn.immediate > 0], default=1)

    def cursors(self, code: Code, loop: set[int]) -> set[int]:
        """The registers that are counted in the loop."""
        return {code[slot].destination for slot in self.sources & loop if code[slot].is_arithmetic}

    def first(self, code: Code, loop: set[int]) -> int:
        """The greatest constant with which the compared numbers begin."""
        moved = [code[slot] for slot in self.sources - loop]
        return max([0, *(insn.immediate for insn in moved if insn.opcode == MOVE_CONSTANT)])

    def most(self, code: Code, loop: set[int], mask: int) -> int:
        """The greatest number that a mask leaves, after the shifts that follow, and without the constants that are taken from it."""
        number = code[mask].immediate
        for slot in sorted(slot for slot in self.sources - loop if slot > mask):
            if code[slot].opcode == LSH_CONSTANT:
                number <<= min(code[slot].immediate, MOST_SHIFT)
            elif code[slot].opcode == RSH_CONSTANT:
                number >>= code[slot].immediate
            elif code[slot].opcode == ADD_CONSTANT and 0 < -code[slot].immediate < number:
                number += code[slot].immediate
        return number


def steering(code: Code, loop: set[int]) -> Iterator[Steering]:
    """What steers a loop, for each jump that leaves it."""
    before, ahead = predecessors(code), slots_that_reach(code, loop)
    compared = [slot for slot in sorted(ahead - loop) if is_upper_bound(code, slot, ahead)]
    for jump in sorted(loop):
        staying = [after for after in successors(code, jump) if after in loop]
        if len(staying) != 1 or not code[jump].is_branch:
            continue
        masks, sources = made_of(code, before, jump, loop)
        read = {slot for slot in sources - loop if code[slot].is_load or is_mask(code[slot])}
        bounding = [slot for slot in compared if made_of(code, before, slot, loop)[1] & read]
        bounds = {code[slot].immediate for slot in bounding}
        yield Steering(jump, staying[0], sorted(masks, reverse=True), sources, bounding, sorted(bounds))


def is_upper_bound(code: Code, slot: int, ahead: set[int]) -> bool:
    """Whether a jump leads to these slots only if a number is at most about a constant."""
    instruction = code[slot]
    if not instruction.is_branch or instruction.by_register:
        return False
    ways = [after in ahead for after in successors(code, slot)]
    below = [False, True] if instruction.operation in (JLT, JLE) else [True, False]
    return instruction.operation in (JGT, JGE, JLT, JLE) and ways == below


def made_of(code: Code, before: dict[int, list[int]], jump: int, loop: set[int]) -> tuple[list[int], set[int]]:
    """The masks by a constant in front of the loop of which the numbers that a jump compares are made, and all the
    instructions from there on, also through the stack."""
    seen, masks, sources = set(), [], set()
    todo = [(at, register) for register in reads(code[jump]) for at in before[jump]]
    while todo:
        at, register = todo.pop()
        if (at, register) in seen:
            continue
        seen.add((at, register))
        instruction, wanted = code[at], {register}
        if register in writes(instruction):
            sources.add(at)
            if at not in loop and is_mask(instruction):
                masks.append(at)
                continue
            wanted = reads(instruction) if instruction.is_arithmetic else kept_at(instruction)
        elif register < 0 and instruction.kind == STX and instruction.destination == FRAME_POINTER and instruction.offset == register:
            wanted = {instruction.source}
        todo += [(further, more) for more in wanted for further in before[at]]
    return masks, sources


def kept_at(load: Instruction) -> set[int]:
    """The place of the stack from which a load takes a number, below 0 as registers aren't."""
    return {load.offset} if load.is_load and load.source == FRAME_POINTER else set()


def is_low_half(code: Code, slot: int) -> bool:
    """Whether a shift to the right comes after one to the left, which both leave the lower 32 bits."""
    before, here = code.get(slot - 1), code[slot]
    if before is None or (before.opcode, here.opcode) != (LSH_CONSTANT, RSH_CONSTANT) or before.destination != here.destination:
        return False
    return before.immediate == here.immediate == 32


def is_mask(instruction: Instruction) -> bool:
    return instruction.kind == ALU64 and instruction.operation == AND and not instruction.by_register


def loop_of(code: Code, slot: int) -> set[int]:
    """The slots of the loop around a slot: those that it reaches and that reach it."""
    reached, todo = {slot}, [slot]
    while todo:
        fresh = [after for after in successors(code, todo.pop()) if after not in reached]
        reached.update(fresh)
        todo += fresh
    return reached & slots_that_reach(code, {slot})
