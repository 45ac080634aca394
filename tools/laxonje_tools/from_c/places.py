"""What registers and places of the stack surely hold in front of each line: places in values of some maps, and of numbers of which
power of two they are multiples.

Of a place in a value as many of its lowest bits are known as an index that was added leaves. An address that may be 0 is taken for
one: a program compares it first, and what is made of a 0 reaches no value."""
from __future__ import annotations

from typing import TYPE_CHECKING, AbstractSet, Callable, NamedTuple, Optional, Union

from .lines import CALL, FAR_JUMP, JUMP, WIDE, Fault, following_in, written_by

if TYPE_CHECKING:
    from .elf import Relocation
    from .lines import Line

CONTEXT_ARGUMENT, MAP_ARGUMENT, ANSWER, FRAME = 1, 1, 0, 10  # registers
LOOKUP, DOUBLE = 1, 8
LOADS, STORES, ALU32, JUMPS, ALU64 = 1, (2, 3), 4, (5, 6), 7  # classes of opcodes
BY_REGISTER, LOAD_WORD, LOAD_DOUBLE, STORE_DOUBLE = 8, 0x61, 0x79, 0x7B
ADD, SUB, MUL, OR, AND, LSH, NEG, XOR, MOVE, BYTES = 0, 1, 2, 4, 5, 6, 8, 10, 11, 13  # operations, the last: their order
IF_EQUAL_CONSTANT, IF_NOT_CONSTANT, IF_EQUAL, IF_NOT = 0x15, 0x55, 0x1D, 0x5D
START_FIELDS = 0, 4, 8  # of the context: data, data_end and data_meta
ALL_BITS, OF_ZERO = 16, 64  # of a place that is known; and of which power of two 0 is a multiple
ATOMIC = 6  # the mode of a store


class InValue(NamedTuple):
    """A place in a value of a map: its `bits` lowest bits are those of `rest`."""

    map: str
    bits: int
    rest: int

    def moved(self, by: int) -> InValue:
        return self._replace(rest=(self.rest + by) % (1 << self.bits))

    def cut(self, bits: int) -> InValue:
        """The same of fewer bits."""
        bits = min(bits, self.bits)
        return self._replace(bits=bits, rest=self.rest % (1 << bits))


class Multiple(NamedTuple):
    """A number, of 2 to the power of `bits`."""

    bits: int


class OfMap(NamedTuple):
    """The address of a map."""

    map: str


class OnStack(NamedTuple):
    """An address in the frame, None if it isn't known where."""

    place: Optional[int]


class Elsewhere(NamedTuple):
    """An address that is neither on the stack nor in a value of these maps: of the context, the packet or another map's value."""

    is_context: bool = False


Thing = Union[InValue, Multiple, OfMap, OnStack, Elsewhere]
Held = dict[Union[int, tuple[int]], Thing]  # by register, or by place on the stack in a tuple
ZERO = Multiple(OF_ZERO)


def power_in(number: int) -> int:
    """Of which power of two a number is a multiple."""
    return OF_ZERO if number == 0 else (number & -number).bit_length() - 1


def joined(one: Optional[Thing], other: Optional[Thing]) -> Optional[Thing]:
    """What is held on both of two ways; None if that isn't said in one way."""
    if one == other or ZERO in (one, other):
        found = other if one == ZERO else one
        return found if one == other or isinstance(found, (InValue, Elsewhere, Multiple)) else None
    if isinstance(one, Multiple) and isinstance(other, Multiple):
        return min(one, other)
    if isinstance(one, InValue) and isinstance(other, InValue) and one.map == other.map:
        return one.cut(min(other.bits, power_in(one.rest ^ other.rest)))
    return None


class Places:
    """Of each line what is held in front of it. `names`: of the maps whose values are looked at; `variable`: of a relocation
    the map that a variable becomes and the place in its value, None of another one."""

    def __init__(self, lines: list[Line], names: AbstractSet[str], variable: Callable[[Relocation], Optional[tuple[str, int]]]) -> None:
        self.names, self.variable = names, variable
        following, first = following_in(lines), lines[0]
        self.before: dict[Line, Held] = {first: {CONTEXT_ARGUMENT: Elsewhere(True), FRAME: OnStack(0)}}
        todo = [first]
        while todo:
            line = todo.pop()
            behind = self.behind(line, self.before[line])
            for after in following[line]:
                met = behind if after not in self.before else self.met(self.before[after], behind)
                if met != self.before.get(after):
                    self.before[after] = met
                    todo.append(after)

    def met(self, one: Held, other: Held) -> Held:
        both = {key: joined(thing, other[key]) for key, thing in one.items() if key in other}
        return {key: thing for key, thing in both.items() if thing is not None}

    def base(self, line: Line) -> Optional[Thing]:
        """What the register has that is an access's base; None if it is none."""
        kind, held = line.opcode & 7, self.before.get(line, {})
        if kind == LOADS:
            return held.get(line.source)
        return held.get(line.destination) if kind in STORES else None

    def in_value(self, line: Line) -> Optional[InValue]:
        """Where in a value a load or a store reaches; None if it reaches none."""
        base = self.base(line)
        return base.moved(line.offset) if isinstance(base, InValue) else None

    # --- what a line leaves

    def behind(self, line: Line, held: Held) -> Held:
        """What is held behind a line."""
        kind, out = line.opcode & 7, dict(held)
        for register in written_by(line):
            out.pop(register, None)
        if line.opcode == CALL:
            self.put(out, ANSWER, self.answer(line, held))
        elif line.opcode == WIDE:
            self.put(out, line.destination, self.named(line))
        elif kind == LOADS:
            self.put(out, line.destination, self.loaded(line, held))
        elif kind in STORES:
            self.store(line, held, out)
        elif kind in (ALU32, ALU64):
            self.put(out, line.destination, self.computed(line, held))
        return out

    def put(self, out: Held, key: object, thing: Optional[Thing]) -> None:
        if thing is not None:
            out[key] = thing

    def answer(self, line: Line, held: Held) -> Optional[Thing]:
        given = held.get(MAP_ARGUMENT)
        if line.source or line.immediate != LOOKUP:
            return None
        return InValue(given.map, ALL_BITS, 0) if isinstance(given, OfMap) and given.map in self.names else Elsewhere()

    def named(self, line: Line) -> Optional[Thing]:
        """What a wide load gives."""
        if line.row is None:
            return None
        variable = self.variable(line.row)
        if variable is not None:
            return InValue(variable[0], ALL_BITS, variable[1])
        return OfMap(line.row.name) if not line.row.section else Elsewhere()

    def loaded(self, line: Line, held: Held) -> Optional[Thing]:
        base = held.get(line.source)
        if base == Elsewhere(True) and line.opcode == LOAD_WORD and line.offset in START_FIELDS:
            return Elsewhere()
        if line.opcode == LOAD_DOUBLE and isinstance(base, OnStack) and base.place is not None:
            return held.get((base.place + line.offset,))
        return Multiple(0)

    def store(self, line: Line, held: Held, out: Held) -> None:
        """Puts what a store leaves on the stack."""
        base = held.get(line.destination)
        if isinstance(base, (InValue, Elsewhere)):
            return
        at = base.place + line.offset if isinstance(base, OnStack) and base.place is not None else None
        for key in [key for key in out if isinstance(key, tuple) and (at is None or at - DOUBLE < key[0] < at + DOUBLE)]:
            del out[key]
        if at is not None and line.opcode == STORE_DOUBLE:
            self.put(out, (at,), held.get(line.source))

    def computed(self, line: Line, held: Held) -> Optional[Thing]:
        """What arithmetic leaves."""
        by_register, operation, is_whole = bool(line.opcode & BY_REGISTER), line.opcode >> 4, line.opcode & 7 == ALU64
        own, other = held.get(line.destination), held.get(line.source) if by_register else Multiple(power_in(line.immediate))
        if operation == MOVE:
            return other if is_whole and not line.offset or isinstance(other, Multiple) and not line.offset else None
        if is_whole and operation in (ADD, SUB):
            sign, number = 1 if operation == ADD else -1, None if by_register else line.immediate
            found = self.added(own, other, sign, number)
            if found is None and operation == ADD and by_register:
                found = self.added(other, own, sign, None)
            if found is not None:
                return found
        own, other = (thing.bits if isinstance(thing, Multiple) else 0 for thing in (own, other))
        return Multiple(power_of(operation, by_register, own, other, line.immediate))

    def added(self, address: Optional[Thing], number: Optional[Thing], sign: int, constant: Optional[int]) -> Optional[Thing]:
        """An address to which a number is added; None if it is none."""
        if isinstance(address, InValue):
            bits = number.bits if isinstance(number, Multiple) else 0
            return address.moved(sign * constant) if constant is not None else address.cut(bits)
        if isinstance(address, OnStack):
            return OnStack(address.place + sign * constant if constant is not None and address.place is not None else None)
        return Elsewhere() if isinstance(address, Elsewhere) else None


def power_of(operation: int, by_register: bool, own: int, other: int, constant: int) -> int:
    """Of which power of two the result of arithmetic is a multiple, if its operands are of these."""
    if operation in (ADD, SUB, OR, XOR):
        return min(own, other)
    if operation == AND:
        return max(own, other)
    if operation == MUL:
        return min(OF_ZERO, own + other)
    if operation == LSH and not by_register:
        return min(OF_ZERO, own + constant)
    return own if operation == NEG else 0


def check_uses(lines: list[Line], places: Places) -> None:
    """Raises Fault if an address of a value is used for something else than an access, an addition or a comparison with 0."""
    for line in lines:
        held, kind = places.before.get(line, {}), line.opcode & 7
        own, other = (isinstance(held.get(register), InValue) for register in (line.destination, line.source))
        is_order = kind in (ALU32, ALU64) and line.opcode >> 4 == BYTES  # of which no other register is read
        by_register = bool(line.opcode & BY_REGISTER) and not is_order
        is_wrong = False
        if kind in JUMPS and line.is_jump and line.opcode not in (JUMP, FAR_JUMP):
            with_zero = not line.immediate if not by_register else ZERO in (held.get(line.destination), held.get(line.source))
            compared = own or by_register and other
            is_wrong = compared and not (line.opcode in (IF_EQUAL_CONSTANT, IF_NOT_CONSTANT, IF_EQUAL, IF_NOT) and with_zero)
        elif kind in (ALU32, ALU64) and line.opcode >> 4 == MOVE:
            is_wrong = by_register and other and (kind == ALU32 or line.offset != 0)
        elif kind in (ALU32, ALU64):
            is_moved = kind == ALU64 and line.opcode >> 4 in (ADD, SUB)
            wrong_number = by_register and other and (own or line.opcode >> 4 == SUB)
            is_wrong = (own or by_register and other) and (not is_moved or wrong_number)
        elif kind == STORES[1]:
            is_wrong = other and (line.opcode >> 5 == ATOMIC or not isinstance(held.get(line.destination), OnStack))
        if is_wrong:
            fault = Fault("uses the address of a map's value as a number")
            fault.slot = line.origin
            raise fault
