"""What registers and stack slots stand for: a packet's address as the packet's start, a constant, and atoms.

An atom is a number that one copy made. ADDED: a number that was added to an address there. MET: the distance of an
address on which the ways into that copy disagree. If such a meeting is marked, the address is made anew after it
from the distance, which each way in has stored; the atom is then KEPT. If it isn't marked nothing is done, and a
refusal that comes of it names the meeting."""
from __future__ import annotations

from enum import Enum
from math import gcd
from typing import TYPE_CHECKING, AbstractSet, NamedTuple, Optional, Union

from .constants import FRAME as FRAME_ADDRESS
from .constants import is_address, is_number
from .copies import Copy
from .instructions import (
    ADD,
    ALU64,
    AND,
    CALL,
    CONTEXT_ARGUMENT,
    EXIT,
    FRAME_POINTER,
    JUMP,
    LOAD_DOUBLE,
    LOAD_WORD,
    LSH,
    MASK_64,
    MOV,
    MUL,
    STORE_DOUBLE,
    SUB,
    WIDE_LOAD,
    signed,
)
from .remembered import remembered

if TYPE_CHECKING:
    from .constants import Constant
    from .copies import Copies
    from .instructions import Instruction

ADDED, MET, KEPT = "added", "met", "kept"
START_FIELD, END_FIELD, META_FIELD = 0, 4, 8  # of the context


class Thing(Enum):
    """What isn't an address in the packet. MIXED: an address on some ways, and something else on others."""

    NUMBER = 1
    MIXED = 2
    CONTEXT = 3
    FRAME = 4
    PACKET_END = 5
    MAP = 6
    VALUE = 7


class Multiple(NamedTuple):
    """A number of which it is known that it is a multiple of another one."""

    of: int


def multiple_of(value: object) -> Optional[int]:
    """What a number is a multiple of; None of what is no number."""
    return 1 if value == Thing.NUMBER else value.of if isinstance(value, Multiple) else None


class StackSlot(NamedTuple):
    """A place beside the registers: eight bytes of the stack."""

    offset: int


Place = Union[int, StackSlot]  # a register, or a place of the stack


class Atom(NamedTuple):
    name: str
    copy: Copy
    place: object  # a register, or a StackSlot


class PacketAddress(NamedTuple):
    """The packet's start, plus a constant and atoms."""

    constant: int = 0
    atoms: tuple = ()

    def moved(self, constant: int = 0, atom: Optional[Atom] = None) -> PacketAddress:
        return PacketAddress(self.constant + constant, self.atoms + ((atom,) if atom else ()))


class Remade(NamedTuple):
    """An address that is made anew after a meeting: from its stored distance, or at a distance from another one."""

    place: object
    leader: object = None
    distance: int = 0


def in_order(place: Place) -> tuple[int, int]:
    """Registers come first: an address on the stack may be made from one in a register."""
    return (1, place.offset) if isinstance(place, StackSlot) else (0, place)


def met_without_packet(there: list) -> Union[Multiple, Thing]:
    """What stands in a place where ways meet that have different things there."""
    if all(multiple_of(known) is not None for known in there):
        return Multiple(gcd(*map(multiple_of, there)))
    return Thing.MIXED


def number_of(operation: int, a: int, b: int, constant: Optional[Constant]) -> Union[Multiple, Thing]:
    """What arithmetic makes of multiples of two numbers."""
    if operation in (ADD, SUB):
        return Multiple(gcd(a, b))
    if is_number(constant) and constant >= 0 and operation in (MUL, LSH):
        return Multiple(a * constant if operation == MUL else a << constant % 64)
    if is_number(constant) and constant > 0 and operation == AND:
        return Multiple(constant & -constant)
    return Thing.NUMBER


def is_marked(meetings: AbstractSet[tuple], here: Copy, place: Place) -> bool:
    """Whether a meeting is among those that are marked, by copy or by slot."""
    kept = place if isinstance(place, StackSlot) else None
    return (here.key, kept) in meetings or (here.slot, kept) in meetings


class Addresses:
    """`meetings`: where an address on which ways disagree is made anew. `restarts`: (key of a copy, place) where one is made anew all the same.

    before  of each copy, what each place stands for
    remade  of each copy, the places that are made anew
    stored  of each way (copy, way), the distances that are stored on it: (atom, address)"""

    def __init__(self, copies: Copies, meetings: AbstractSet[tuple], restarts: AbstractSet[tuple]) -> None:
        self.elsewhere, self.meetings, self.restarts = copies.elsewhere, meetings, restarts
        self.before, self.remade, self.stored, after = {}, {}, {}, {}
        for here in copies.order:
            if here is copies.first:
                places = {CONTEXT_ARGUMENT: Thing.CONTEXT, FRAME_POINTER: Thing.FRAME}
            else:
                ways = [(before, way, after[before]) for before, way in here.before]
                places = self.meet(here, ways, copies.wanted[here])
            self.before[here] = places
            after[here] = self.behind(here, copies.code[here.slot], places) if here.is_instruction else places

    def meet(self, here: Copy, ways: list, wanted: AbstractSet[int]) -> dict:
        """What the places stand for where ways meet. `wanted`: the registers that matter there."""
        passed = passed_on(ways[0][2], wanted) if len(ways) == 1 else None
        if passed is not None and not self.is_anew(here, passed):
            return passed
        known_by_way = [known for _, _, known in ways]
        on_stack = sorted(place for place in known_by_way[0] if isinstance(place, StackSlot))
        places, leaders = {}, []
        for place in [*sorted(wanted), *on_stack]:  # an address on the stack may be made from one in a register
            there = [known.get(place, Thing.NUMBER) for known in known_by_way]
            again = isinstance(there[0], PacketAddress) and (here.key, place) in self.restarts
            if there.count(there[0]) == len(there) and not again:
                places[place] = there[0]
            elif not all(isinstance(known, PacketAddress) for known in there):
                places[place] = met_without_packet(there)
            elif again or is_marked(self.meetings, here, place):
                self.remake(here, place, there, ways, places, leaders)
            else:
                places[place] = PacketAddress().moved(atom=Atom(MET, here, place))
        return places

    def is_anew(self, here: Copy, places: dict) -> bool:
        """Whether an address is made anew at a copy to which one way leads."""
        rows = places.items() if self.restarts else ()
        return any(isinstance(there, PacketAddress) and (here.key, place) in self.restarts for place, there in rows)

    def remake(self, here: Copy, place: Place, there: list, ways: list, places: dict, leaders: list) -> None:
        """One that has the same distance from another on all ways follows that one."""
        for leader, led in leaders:
            apart = {own.constant - other.constant for own, other in zip(there, led)}
            if len(apart) == 1 and all(own.atoms == other.atoms for own, other in zip(there, led)):
                (distance,) = apart
                places[place] = places[leader].moved(distance)
                self.remade.setdefault(here, []).append(Remade(place, leader, distance))
                return
        atom = Atom(KEPT, here, place)
        places[place] = PacketAddress().moved(atom=atom)
        if not isinstance(place, StackSlot):
            leaders.append((place, there))
        self.remade.setdefault(here, []).append(Remade(place))
        for (before, way, _), address in zip(ways, there):
            self.stored.setdefault((before, way), []).append((atom, address))

    def behind(self, here: Copy, instruction: Instruction, before: dict) -> dict:
        """What an instruction makes of the places."""
        if instruction.is_branch or instruction.opcode in (JUMP, EXIT):
            return before
        places = dict(before)
        if instruction.is_arithmetic:
            places[instruction.destination] = self.result(here, instruction, places)
        elif instruction.is_load:
            places[instruction.destination] = self.loaded(here, instruction, places)
        elif instruction.opcode == WIDE_LOAD:
            places[instruction.destination] = self.named(instruction)
        elif instruction.is_store:
            self.store(here, instruction, places)
        elif instruction.opcode == CALL:
            for register in range(1, 6):
                places.pop(register, None)
            places[0] = Thing.VALUE
        return places

    def named(self, wide: Instruction) -> Thing:
        """What a wide load gives."""
        return Thing.MAP if wide.source or wide.map is not None else Thing.NUMBER

    def result(self, here: Copy, instruction: Instruction, places: dict) -> object:
        operation, by_register = instruction.operation, instruction.by_register
        if instruction.kind != ALU64 or instruction.offset:
            return Thing.NUMBER
        a = places.get(instruction.destination, Thing.NUMBER)
        b = places.get(instruction.source, Thing.NUMBER) if by_register else Multiple(abs(instruction.immediate))
        constant = here.constants.registers.get(instruction.source) if by_register else instruction.immediate
        if operation == MOV:
            return b
        if multiple_of(a) is not None and multiple_of(b) is not None:
            return number_of(operation, multiple_of(a), multiple_of(b), constant)
        if operation not in (ADD, SUB):
            return Thing.NUMBER
        if isinstance(a, PacketAddress) and is_number(constant):
            return a.moved(signed(constant & MASK_64) * (1 if operation == ADD else -1))
        if operation == ADD and isinstance(a, PacketAddress) and multiple_of(b) is not None:
            return a.moved(atom=Atom(ADDED, here, instruction.source))
        if operation == ADD and isinstance(b, PacketAddress) and multiple_of(a) is not None:
            return b.moved(atom=Atom(ADDED, here, instruction.destination))
        return a if a in (Thing.FRAME, Thing.VALUE) else Thing.NUMBER

    def loaded(self, here: Copy, load: Instruction, places: dict) -> object:
        if places.get(load.source) == Thing.CONTEXT and load.opcode == LOAD_WORD:
            start = PacketAddress()
            fields = {START_FIELD: start, END_FIELD: Thing.PACKET_END, META_FIELD: start}
            return fields.get(load.offset, Thing.NUMBER)
        base = here.constants.registers.get(load.source)
        if load.opcode == LOAD_DOUBLE and is_address(base, FRAME_ADDRESS):
            return places.get(StackSlot(base.offset + load.offset), Thing.NUMBER)
        return Thing.NUMBER

    def store(self, here: Copy, store: Instruction, places: dict) -> None:
        at = here.constants.stack_offset(store)
        if at is not None:
            for place in [place for place in places if isinstance(place, StackSlot)]:
                if place.offset < at + store.size and at < place.offset + 8:
                    del places[place]
            if store.opcode == STORE_DOUBLE and at % 8 == 0:
                places[StackSlot(at)] = places.get(store.source, Thing.NUMBER)
        elif here.slot not in self.elsewhere:
            for place in [place for place in places if isinstance(place, StackSlot)]:
                del places[place]
        if store.fetches:
            places[store.source] = Thing.NUMBER


def passed_on(known: dict, wanted: AbstractSet[int]) -> dict:
    """What is known of the stack, and of the wanted registers, of which a new one is a number."""
    gone = [place for place in known if place not in wanted and not isinstance(place, StackSlot)]
    fresh = wanted - known.keys()
    if not gone and not fresh:
        return known
    places = {**known, **dict.fromkeys(fresh, Thing.NUMBER)}
    for place in gone:
        del places[place]
    return places


@remembered
def addresses_of(copies: Copies, meetings: AbstractSet[tuple], restarts: AbstractSet[tuple]) -> Addresses:
    """The addresses in a graph of copies with these marks."""
    return Addresses(copies, meetings, restarts)
