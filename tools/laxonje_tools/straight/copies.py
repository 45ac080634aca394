"""Copies: a slot together with the constants that are known there.

A conditional jump between two constants has one way, so that a loop with constant trips unwinds into a chain of copies,
however it is left.

Two marks put tests of our own in front of an addition, if the verifier would lose the address:
  Wide   the number may be above 65,535: `if n > 65535` leads to copies in which the sum is far past the packet's end
         (or to the end of the program, if the number may be negative). Of an index of constants the most is what they have
  Cases  the number is one of a few: `if n == c` for each, to copies in which it is a constant"""
from __future__ import annotations

from dataclasses import dataclass, field
from typing import TYPE_CHECKING, AbstractSet, NamedTuple

from .constants import FAR, Address, Constants, is_number
from .counters import counters
from .graph import Fail, NoBound, TooMany, live_registers, loops, slots_that_reach, steering_registers, successors
from .instructions import FRAME_POINTER, REGISTERS, reads, writes
from .kinds import accesses_elsewhere, accesses_in_packets
from .remembered import MOST_KEPT
from .stack_words import live_words

if TYPE_CHECKING:
    from .instructions import Code
    from .marks import MarksOfCopies

MOST_COPIES, MADE = 6000, []  # the latter: the last graphs
MOST_DISTANCE = 65535  # of an address in a packet from its start
# which numbers are told apart: those that steer a loop or make an address, in slots from which a loop can be reached;
# those that count a loop's steps; all in slots from which a loop can be reached; all
STEERING, COUNTERS, IN_LOOPS, EVERYWHERE = "those that steer loops", "those that count", "those in loops", "all"


class Phase(NamedTuple):
    """What stands at a copy: TESTS of ours, the instruction (PLAIN), test `number` of the CASE tests, an addition whose
    sum is FAR, or the end of the program after an access OUTSIDE the packet."""

    name: str
    number: int = 0


TESTS, PLAIN, FAR_SUM, OUTSIDE = Phase("tests"), Phase("plain"), Phase("far"), Phase("outside")
CASE = "case"


class Wide(NamedTuple):
    """A mark of an addition: the register of the number, whether one above the most is known not to be negative, and this most."""

    register: int
    positive: bool
    most: int = MOST_DISTANCE


class Cases(NamedTuple):
    """A mark of an addition, or of a slot in front of it: the register of the number, what it can be there, and the last slot before
    which it is told apart."""

    register: int
    numbers: tuple
    last: int = -1


class Trips(NamedTuple):
    """A mark of a slot in a loop: how often a way comes by, and the registers whose numbers aren't told apart there."""

    most: int
    registers: set


class Way(NamedTuple):
    """What is passed on a way to a slot behind which each way has a copy of its own: by its number the copy in front of that."""

    copy: int


@dataclass(eq=False, repr=False)
class Copy:
    slot: int  # of the program as it was
    phase: Phase
    constants: Constants
    key: tuple
    number: int  # of copies that were made before
    ways: list = field(default_factory=list)  # (0 fallen through or 1 jumped, Copy)
    before: list = field(default_factory=list)  # (Copy, way)

    @property
    def is_instruction(self) -> bool:
        """Whether the slot's own instruction stands here."""
        return self.phase in (PLAIN, FAR_SUM)


class Telling(NamedTuple):
    """The registers, and the places of the stack, whose numbers are told apart before a slot; all places for None."""

    registers: object = ()
    stack: object = ()


ALL_TOLD = Telling(range(REGISTERS), None)


def telling_numbers(code: Code, numbers: str) -> dict[int, Telling]:
    """What is told apart before each slot."""
    if numbers == EVERYWHERE:
        return dict.fromkeys(code, ALL_TOLD)
    if numbers == COUNTERS:
        rows = counters(code).items()
        return {slot: Telling(told, {row[1] for row in told if row not in range(REGISTERS)}) for slot, told in rows}
    near, steering = slots_that_reach(code, loops(code)), steering_registers(code)
    chosen = steering if numbers == STEERING else {slot: range(REGISTERS) for slot in code}
    return {slot: Telling(chosen[slot], None) if slot in near else Telling() for slot in code}


class Copies:
    """The graph of copies.

    `numbers`: which numbers are told apart. `marks`: those of `search`. If results of lookups are followed, a
    constant added to one can go to the accesses."""

    def __init__(self, code: Code, numbers: str, marks: MarksOfCopies) -> None:
        self.code, self.numbers, self.marks = code, numbers, marks
        self.wide, self.cases, self.trips, self.nones = marks.wide, marks.cases, marks.trips, marks.nones
        self.live, self.elsewhere = live_registers(code), accesses_elsewhere(code)
        self.words, self.parted, self.told = live_words(code), marks.parted, marks.told
        self.parting = slots_that_reach(code, accesses_in_packets(code)) if self.parted else ()
        self.needed = {slot: live | {FRAME_POINTER} for slot, live in self.live.items()}
        self.named = {slot: row.counter for row in marks.differences.values() if row.told for slot in row.known}
        self.mattering = {slot: slots_that_reach(code, {slot}) for slot in marks.trips}
        for store, row in marks.differences.items():
            if row.told:
                self.mattering[row.counter] = self.mattering.get(row.counter, set()) | slots_that_reach(code, {store})
        self.telling = telling_numbers(code, numbers)
        self.by_key, self.todo = {}, []
        self.first = self.copy(0, TESTS, Constants.at_start(marks.values))
        while self.todo:
            here = self.todo.pop()
            for way, after in self.ways(here):
                here.ways.append((way, after))
                after.before.append((here, way))
        self.order = self.sorted()
        self.wanted = wanted_registers(self)

    def copy(self, slot: int, phase: Phase, constants: Constants) -> Copy:
        """The copy with these constants, of which those that can't matter are forgotten."""
        told = self.told_by_cases(slot) if phase == TESTS else ALL_TOLD
        if slot in self.trips:
            told = Telling(set(told.registers) - self.trips[slot].registers, None)
        names = self.names_at(slot, constants) if constants.passed else ()
        constants = constants.kept(self.needed[slot], *told, names).with_stack(self.words[slot])
        if phase == TESTS and slot not in self.wide and slot not in self.cases:
            phase = PLAIN
        if phase == OUTSIDE:
            constants = Constants.at_end(constants.values)
        key = (slot, phase, *constants.key())
        known = self.by_key.get(key)
        if known is not None:
            return known
        if len(self.by_key) >= MOST_COPIES:
            raise TooMany(f"a loop has no bound, or a large one: more than {MOST_COPIES} copies of its slots", slot)
        fresh = self.by_key[key] = Copy(slot, phase, constants, key, len(self.by_key))
        self.todo.append(fresh)
        return fresh

    def names_at(self, slot: int, constants: Constants) -> list:
        """Of what is passed what matters at a slot."""
        ways = [name for name, _ in constants.passed if isinstance(name, Way) and slot in self.parting]
        return [name for name, slots in self.mattering.items() if slot in slots] + ways

    def told_by_cases(self, slot: int) -> Telling:
        """What is told apart before a slot, with what may be an address or 0, and the numbers whose cases reach it."""
        told = self.telling[slot]
        if slot in self.told:
            registers, words = self.told[slot]
            told = Telling({*told.registers, *registers}, None if told.stack is None else {*told.stack, *words})
        reaching = {cases.register for first, cases in self.cases.items() if first < slot <= cases.last}
        return Telling({*told.registers, *reaching}, told.stack) if reaching else told

    def ways(self, here: Copy) -> list[tuple[int, Copy]]:
        """The copies to which control may go from a copy."""
        if here.phase == OUTSIDE:
            return []
        if here.phase == TESTS:
            return self.ways_of_tests(here)
        if here.phase.name == CASE:
            return self.ways_of_case(here)
        return self.ways_of_instruction(here)

    def ways_of_tests(self, here: Copy) -> list[tuple[int, Copy]]:
        slot, constants = here.slot, here.constants
        if slot in self.cases and not is_number(constants.registers.get(self.cases[slot].register)):
            return [(0, self.copy(slot, Phase(CASE, 0), constants))]
        ways = [(0, self.copy(slot, PLAIN, constants))]
        if slot in self.wide and not is_number(constants.registers.get(self.wide[slot].register)):
            ways.append((1, self.copy(slot, FAR_SUM if self.wide[slot].positive else OUTSIDE, constants)))
        return ways

    def ways_of_case(self, here: Copy) -> list[tuple[int, Copy]]:
        register, numbers, _ = self.cases[here.slot]
        chosen = here.constants.with_register(register, numbers[here.phase.number])
        following = here.phase.number + 1
        other = Phase(CASE, following) if following < len(numbers) else OUTSIDE
        return [(0, self.copy(here.slot, other, here.constants)), (1, self.copy(here.slot, PLAIN, chosen))]

    def ways_of_instruction(self, here: Copy) -> list[tuple[int, Copy]]:
        slot, instruction = here.slot, self.code[here.slot]
        constants = self.constants_after(here)
        if here.phase == FAR_SUM:
            constants = constants.with_register(instruction.destination, Address(FAR))
        ways = list(enumerate(successors(self.code, slot)))
        taken = here.constants.decided(instruction) if instruction.is_branch else None
        if taken is not None:
            ways = [ways[taken]]
        short = [
            (way, after)
            for way, after in ways
            if after not in self.trips or constants.times(after) < self.trips[after].most
        ]
        if ways and not short:
            raise Fail("this loop would run too often", slot)
        rows = [(way, after, constants.passing(Way(here.number)) if after in self.parted else constants) for way, after in short]
        if self.nones and instruction.is_branch:
            return [(way, self.copy(after, TESTS, known.after_none(instruction, way))) for way, after, known in rows]
        return [(way, self.copy(after, TESTS, known)) for way, after, known in rows]

    def constants_after(self, here: Copy) -> Constants:
        """The constants after a copy's instruction."""
        constants = here.constants.after(self.code[here.slot], here.slot in self.elsewhere)
        for name in (here.slot if here.slot in self.trips else None, self.named.get(here.slot)):
            constants = constants.passing(name) if name is not None else constants
        return constants

    def sorted(self) -> list[Copy]:
        """The copies, each after all that lead to it."""
        finished, order = {self.first: False}, []
        todo = [(self.first, iter(self.first.ways))]
        while todo:
            here, rest = todo[-1]
            for _, after in rest:
                if finished.get(after) is False:
                    raise NoBound("no constant bounds how often this loop runs", after.slot)
                if after not in finished:
                    finished[after] = False
                    todo.append((after, iter(after.ways)))
                    break
            else:
                todo.pop()
                finished[here] = True
                order.append(here)
        return order[::-1]


def wanted_registers(copies: Copies) -> dict[Copy, AbstractSet[int]]:
    """Of each copy the registers whose numbers matter before it: an access, a jump, a call or the end reads them, or what is made of them;
    and the frame pointer."""
    before = {}
    for here in reversed(copies.order):
        after = frozenset().union(*(before[copy] for _, copy in here.ways))
        before[here] = after if here.phase == OUTSIDE else wanted_before(copies, here, after)
    return {here: wanted | {FRAME_POINTER} for here, wanted in before.items()}


def wanted_before(copies: Copies, here: Copy, after: AbstractSet[int]) -> AbstractSet[int]:
    """The same before a copy that isn't the end. `after`: those of the copies behind it."""
    insn = copies.code[here.slot]
    if here.phase.name == CASE:
        return after | {copies.cases[here.slot].register}
    if here.phase == TESTS:
        return after | ({copies.wide[here.slot].register} if here.slot in copies.wide else frozenset())
    is_idle = insn.is_arithmetic and not writes(insn) & after or insn.is_branch and len(here.ways) == 1
    return after if is_idle else reads(insn) | after - writes(insn)


def copies_of(code: Code, numbers: str, marks: MarksOfCopies) -> Copies:
    """The graph of copies: one of the last, of this search or of another one, if the program and these marks are what they were."""
    same = (other for other in MADE if other.code is code and (other.numbers, other.marks) == (numbers, marks))
    made = next(same, None) or Copies(code, numbers, marks)
    MADE[:] = [made, *(other for other in MADE if other is not made)][:MOST_KEPT]
    return made
