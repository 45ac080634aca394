"""The graph of copies as a program: one copy after the other, and between them instructions of our own.

Our own instructions use registers that aren't live, or that they put back, and stack slots below the program's own."""
from __future__ import annotations

from enum import Enum
from typing import TYPE_CHECKING, AbstractSet, Callable, Container, NamedTuple, Optional

from .addresses import ADDED, KEPT, MET, Atom, PacketAddress, StackSlot, Thing
from .constants import VALUE, is_address
from .copies import CASE, MOST_DISTANCE, OUTSIDE, TESTS, Copy
from .graph import SIZE, AddedToNumber, Fail
from .accesses import write_difference, write_narrow_load, write_rebased, write_word_addition
from .keys import write_key
from .instructions import (
    ADD,
    ADD_CONSTANT,
    ADD_REGISTER,
    AND_CONSTANT,
    CONTEXT_ARGUMENT,
    EXIT,
    FRAME_POINTER,
    IF_ABOVE_CONSTANT,
    IF_ABOVE_REGISTER,
    IF_EQUAL_CONSTANT,
    JUMP,
    LOAD_DOUBLE,
    LOAD_WORD,
    MOVE_CONSTANT,
    MOVE_REGISTER,
    STORE_DOUBLE,
    SUB,
    XOR_REGISTER,
    Instruction,
)
from .own_stack import OwnStack, shared_slots
from .parts import COUNTER_BYTES, Access, Lying, Part, place_of

if TYPE_CHECKING:
    from .addresses import Addresses
    from .copies import Copies
    from .marks import Marks

MOST_SLOTS = 4096
END_FIELD, INTERFACE_FIELD = 4, 12  # of the context
ABORTED = 0
CONTEXT_SLOT, ZERO_SLOT = "context", "zero"  # names of our own stack slots
THE_END = "outside"  # where `r0 = 0; exit` stands


class Kind(Enum):
    """Whose instruction a slot has: a COPY of the original's, our OWN, or the end if an access lies OUTSIDE."""

    COPY = "copy"
    OWN = "own"
    OUTSIDE = "outside"


class Label(NamedTuple):
    """What a slot of the result is: for a copy its slot in the original, for our own the one that it stands before."""

    kind: Kind
    slot: int
    copy: Optional[Copy] = None


class Needs(Fail):
    """Meetings that have to be marked too, since an address after them is made of theirs."""

    def __init__(self, meetings: set) -> None:
        super().__init__("a meeting isn't marked")
        self.meetings = meetings


class Emitter:
    """Writes a program.

    marks: those of `search`:
    guards   keys or slots of copies whose access is compared with the packet's end anew
    rebased  keys of copies whose access gets an address that is made anew
    limited  keys of copies to which a distance is handed on that a test has to bound
    blurred  of slots of additions to an address the register of the number, of which the verifier isn't to know that it
             is a constant on some ways: with a constant the sum would be another kind of address
    differences  by the slots of stores to a counter of which the difference is added
    keys     slots of lookups whose key is copied to the stack
    anew     by the slots of a jump and of what comes behind it a copy of what it compares, which is made anew on this way
    cuts     slots from which on a number is cut to 32 bits, which is kept
    lengths  by the slots of additions the register of the number, and one of our own in which it is kept
    kept     by the slots of loads of counters what is kept of them, and in `again` which loads read that again
    moved    by map the parts of its values that have a counter of their own

    `reached`: by map the accesses in its values; those of None may be in any. `key_sizes`: by map how many bytes a lookup reads; `with_parts`: of
    which maps a load may take a part of a counter. `lies`:
    of the original's slots where accesses in values lie; `keys`: which keys are copied."""

    def __init__(self, copies: Copies, addresses: Addresses, marks: Marks, key_sizes: dict[str, int], with_parts: AbstractSet[str]) -> None:
        self.copies, self.addresses, self.end, self.context, self.key_sizes = copies, addresses, THE_END, CONTEXT_SLOT, key_sizes
        self.marks, self.reached, self.lies, self.keys, self.with_parts = marks, {}, {}, {}, with_parts
        self.known = {slot: row.counter for row in marks.differences.values() for slot in row.known}
        self.own = OwnStack(copies, shared_slots(copies, addresses))
        self.out, self.labels, self.jumps, self.places = [], [], [], {}
        self.stored = [address for row in addresses.stored.values() for _, address in row]
        unmarked = {(atom.copy, atom.place) for address in self.stored for atom in address.atoms if atom.name == MET}
        if unmarked:
            raise Needs(unmarked)
        self.saved = {}
        for atom in {atom for address in self.stored for atom in address.atoms if atom.name == ADDED}:
            self.saved.setdefault(atom.copy, []).append(atom)
        self.write()

    # --- one instruction

    def put(self, instruction: Instruction, kind: Kind, slot: int, copy: Optional[Copy] = None) -> Instruction:
        self.out.append(instruction)
        self.labels.append(Label(kind, slot, copy))
        return instruction

    def put_own(self, slot: int, *fields: object, copy: Optional[Copy] = None) -> Instruction:
        return self.put(Instruction(*fields), Kind.OWN, slot, copy)

    def put_copy(self, instruction: Instruction, here: Copy) -> Instruction:
        return self.put(instruction, Kind.COPY, here.slot, here)

    def put_jump(self, slot: int, target: object, *fields: object, copy: Optional[Copy] = None) -> None:
        """A jump of our own: by default one without a condition."""
        self.jumps.append((self.put_own(slot, *(fields or (JUMP,)), copy=copy), target))

    def save(self, name: object, register: int, slot: int) -> None:
        self.put_own(slot, STORE_DOUBLE, FRAME_POINTER, register, self.own[name])

    def load(self, register: int, name: object, slot: int) -> None:
        self.put_own(slot, LOAD_DOUBLE, register, FRAME_POINTER, self.own[name])

    def borrow(
        self, count: int, slot: int, live: AbstractSet[int], taken: Container[int] = ()
    ) -> tuple[list[int], Callable[[], None]]:
        """Registers for our use: those that aren't live, then live ones, which are saved; and how to put these back."""
        kept = {register for _, register in self.marks.lengths.values()}
        usable = [register for register in range(FRAME_POINTER - 1, -1, -1) if register not in taken and register not in kept]
        free = [register for register in usable if register not in live]
        lent = [register for register in usable if register in live][: max(0, count - len(free))]
        for number, register in enumerate(lent):
            self.save(("lent", number), register, slot)

        def give_back() -> None:
            for number, register in enumerate(lent):
                self.load(register, ("lent", number), slot)

        return (free + lent)[:count], give_back

    # --- what stands before and between copies

    def store_distances(self, before: Copy, way: int, after: Copy) -> None:
        """On a way to a meeting: the distance from the packet's start of each address that is made anew there."""
        slot, live = after.slot, self.copies.live[after.slot]
        for atom, (constant, atoms) in self.addresses.stored.get((before, way), []):
            if atoms == (atom,) and not constant:
                continue
            (total, *more), give_back = self.borrow(2 if len(atoms) > 1 else 1, slot, live)
            self.load(total, atoms[0] if atoms else ZERO_SLOT, slot)
            for part in atoms[1:]:
                self.load(more[0], part, slot)
                self.put_own(slot, ADD_REGISTER, total, more[0])
            if constant:
                self.put_own(slot, ADD_CONSTANT, total, 0, 0, constant)
            if after.key in self.marks.limited and len(atoms) > 1:
                self.put_jump(slot, THE_END, IF_ABOVE_CONSTANT, total, 0, 0, MOST_DISTANCE)
            self.save(atom, total, slot)
            give_back()

    def remake(self, here: Copy) -> None:
        """After a meeting: each address as the packet's start plus its distance."""
        slot, live, rows = here.slot, self.copies.live[here.slot], self.addresses.remade.get(here, [])
        settled = {row.place for row in rows if not isinstance(row.place, StackSlot)}
        for row in rows:
            on_stack, led = isinstance(row.place, StackSlot), row.leader is not None
            taken = () if on_stack else (row.place,)
            wanted = (1 if on_stack else 0) + (0 if led else 1)
            lent, give_back = self.borrow(wanted, slot, live | settled, taken)
            target, *more = lent if on_stack else (row.place, *lent)
            if led:
                self.put_own(slot, MOVE_REGISTER, target, row.leader)
                if row.distance:
                    self.put_own(slot, ADD_CONSTANT, target, 0, 0, row.distance)
            else:
                self.load(target, CONTEXT_SLOT, slot)
                self.put_own(slot, LOAD_WORD, target, target)
                self.load(more[0], Atom(KEPT, here, row.place), slot)
                self.put_own(slot, ADD_REGISTER, target, more[0])
            if on_stack:
                self.put_own(slot, STORE_DOUBLE, FRAME_POINTER, target, row.place.offset)
            give_back()

    def move_anew(self, here: Copy, after: Copy) -> None:
        """On a way behind a jump: a copy of what it compares, made anew. The verifier knows what the jump says of the compared register alone."""
        row = self.marks.anew.get((here.slot, after.slot))
        if row is not None:
            self.put_own(after.slot, MOVE_REGISTER, row.copy, row.compared)

    def guard(self, here: Copy) -> None:
        """Before an access: the end of what it reaches is compared with the packet's end."""
        slot, access, live = here.slot, self.copies.code[here.slot], self.copies.live[here.slot]
        places = self.addresses.before[here]
        ends = [register for register in live if places.get(register) == Thing.PACKET_END]
        (reached, *more), give_back = self.borrow(1 if ends else 2, slot, live, (access.base,))
        end = ends[0] if ends else more[0]
        if not ends:
            self.load(end, CONTEXT_SLOT, slot)
            self.put_own(slot, LOAD_WORD, end, end, END_FIELD)
        self.put_own(slot, MOVE_REGISTER, reached, access.base)
        self.put_own(slot, ADD_CONSTANT, reached, 0, 0, access.offset + access.size)
        self.put_jump(slot, THE_END, IF_ABOVE_REGISTER, reached, end)
        give_back()

    # --- all

    def write(self) -> None:
        self.write_start()
        for here, following in zip(self.copies.order, [*self.copies.order[1:], None]):
            self.places[here] = len(self.out)
            self.remake(here)
            branch = self.write_copy(here)
            if branch is None:
                for way, after in here.ways:
                    self.lead(here, way, after, following)
            else:
                self.write_ways(here, branch, following)
        if any(target == THE_END for _, target in self.jumps):
            self.places[THE_END] = len(self.out)
            self.put(Instruction(MOVE_CONSTANT, 0, immediate=ABORTED), Kind.OUTSIDE, 0)
            self.put(Instruction(EXIT), Kind.OUTSIDE, 0)

    def write_start(self) -> None:
        """Keeps the context, and a 0 of which the verifier knows only that it is 0 or 1. So a distance is a number on
        every way and a constant on none; else the verifier would keep it apart."""
        if self.stored or self.marks.guards or self.marks.rebased:
            self.save(CONTEXT_SLOT, CONTEXT_ARGUMENT, 0)
        if self.marks.blurred or any(not address.atoms for address in self.stored):
            self.put_own(0, LOAD_WORD, 0, CONTEXT_ARGUMENT, INTERFACE_FIELD)
            self.put_own(0, XOR_REGISTER, 0, 0)
            self.put_own(0, AND_CONSTANT, 0, 0, 0, 1)
            self.save(ZERO_SLOT, 0, 0)

    def write_copy(self, here: Copy) -> Optional[Instruction]:
        """What stands at a copy. A branch is given back: its target comes later."""
        slot = here.slot
        if here.phase == OUTSIDE:
            self.put_jump(slot, THE_END)
            return None
        if here.phase == TESTS:
            if len(here.ways) == 1:
                return None
            wide = self.copies.wide[slot]
            return self.put_own(slot, IF_ABOVE_CONSTANT, wide.register, 0, 0, wide.most, copy=here)
        if here.phase.name == CASE:
            register, numbers, _ = self.copies.cases[slot]
            return self.put_own(slot, IF_EQUAL_CONSTANT, register, 0, 0, numbers[here.phase.number], copy=here)
        return self.write_instruction(here, self.copies.code[slot])

    def write_instruction(self, here: Copy, insn: Instruction) -> Optional[Instruction]:
        slot = here.slot
        if slot in self.marks.blurred:
            (zero,), give_back = self.borrow(1, slot, self.copies.live[slot])
            self.load(zero, ZERO_SLOT, slot)
            self.put_own(slot, ADD_REGISTER, self.marks.blurred[slot], zero)
            give_back()
        for atom in sorted(self.saved.get(here, []), key=lambda atom: atom.place):
            self.save(atom, atom.place, slot)
        if slot in self.marks.cuts:
            self.save(("cut", insn.destination), insn.destination, slot)
        if slot in self.marks.lengths:
            number, register = self.marks.lengths[slot]
            self.put_own(slot, MOVE_REGISTER, register, number)
        if self.write_otherwise(here, insn):
            return None
        if insn.is_branch:
            if len(here.ways) == 1:
                return None
            return self.put(
                Instruction(insn.opcode, insn.destination, insn.source, 0, insn.immediate), Kind.COPY, slot, here
            )
        if insn.opcode != JUMP and not self.goes_to_accesses(here, insn):
            fields = (
                insn.opcode,
                insn.destination,
                insn.source,
                self.offset(here, insn),
                insn.immediate,
                insn.upper,
                insn.map,
            )
            self.put(Instruction(*fields), Kind.COPY, slot, here)
            if slot in self.known:
                self.save(("counted", self.known[slot]), insn.destination, slot + 1)
            for name in self.marks.kept.get(slot, ()):
                self.save(name, insn.destination, slot + 1)
            if slot in self.marks.again:
                self.load(insn.destination, self.marks.again[slot], slot + 1)
        return None

    def write_otherwise(self, here: Copy, insn: Instruction) -> bool:
        """Whether the result has something else in the place of this instruction; it is written then."""
        slot, marks = here.slot, self.marks
        if here.key in marks.rebased:
            write_rebased(self, here, insn)
        elif slot in marks.narrow:
            write_narrow_load(self, here, insn)
        elif here.key in marks.guards or slot in marks.guards:
            self.guard(here)
            return False
        elif slot in marks.differences:
            write_difference(self, here, insn)
        elif slot in marks.adds:
            write_word_addition(self, here, insn)
        elif slot in marks.keys:
            write_key(self, here)
            return False
        else:
            return False
        return True

    def goes_to_accesses(self, here: Copy, insn: Instruction) -> bool:
        """Whether it adds a constant to a map's value: the accesses have it in their offsets instead."""
        if not insn.is_arithmetic or insn.operation not in (ADD, SUB):
            return False
        if not is_address(self.copies.constants_after(here).registers.get(insn.destination), VALUE):
            return False
        if not is_address(here.constants.registers.get(insn.destination), VALUE):
            raise AddedToNumber("the address of a map's value is added to a number: add the number to the address", here.slot)
        return True

    def offset(self, here: Copy, insn: Instruction) -> int:
        """The offset of an access, with what was added to its map's value, and where the number lies in the result's."""
        if not (insn.is_load or insn.is_store):
            return insn.offset
        base, carries = here.constants.registers.get(insn.base), here.slot in self.marks.adds
        if is_address(base, VALUE):
            name, part = base.map, Part(insn.offset + base.offset, insn.size)
        elif self.is_elsewhere(here, insn.base) or insn.is_load and here.slot in self.copies.elsewhere:
            return insn.offset
        else:
            name, part = None, Part(insn.offset, insn.size)
        access = Access(part, here.slot, carries or here.slot in self.marks.differences, carries)
        self.reached.setdefault(name, set()).add(access)
        place = place_of(self.marks.moved, name, part)
        self.lies.setdefault(here.slot, set()).add(Lying(place - part.place, place % COUNTER_BYTES))
        return place

    def is_elsewhere(self, here: Copy, register: int) -> bool:
        """Whether a register surely has no address of a value."""
        place = self.addresses.before[here].get(register)
        return isinstance(place, PacketAddress) or place in (Thing.FRAME, Thing.CONTEXT)

    def lead(self, here: Copy, way: int, after: Copy, following: Optional[Copy]) -> None:
        """From a copy to the next one."""
        self.store_distances(here, way, after)
        self.move_anew(here, after)
        if after is not following:
            self.put_jump(after.slot, after)

    def write_ways(self, here: Copy, branch: Instruction, following: Optional[Copy]) -> None:
        """After a branch: where it isn't taken, and where distances are stored and copies made anew if it is."""
        (way, fallen), (other, jumped) = here.ways
        self.store_distances(here, way, fallen)
        self.move_anew(here, fallen)
        stub = self.addresses.stored.get((here, other)) or (here.slot, jumped.slot) in self.marks.anew
        if stub or fallen is not following:
            self.put_jump(fallen.slot, fallen)
        self.jumps.append((branch, (here, other) if stub else jumped))
        if stub:
            self.places[here, other] = len(self.out)
            self.lead(here, other, jumped, following)

    def part_ways(self) -> None:
        """A jump of our own behind each branch whose both ways lead to the next slot, which `xdpbox same` doesn't take."""
        number = {id(instruction): at for at, instruction in enumerate(self.out)}
        places = [number[id(jump)] for jump, to in self.jumps if jump.is_branch and self.places[to] == number[id(jump)] + 1]
        for at in sorted(places, reverse=True):
            self.out.insert(at + 1, Instruction(JUMP))
            self.labels.insert(at + 1, Label(Kind.OWN, self.labels[at].slot + (self.labels[at].kind == Kind.COPY)))
            self.places = {name: place + (place > at) for name, place in self.places.items()}

    def program(self) -> tuple[list[str], list[tuple[int, str]], dict[int, Label]]:
        """The program's words, its relocations, and the label of each of its slots."""
        self.part_ways()
        starts, total = [], 0
        for instruction in self.out:
            starts.append(total)
            total += instruction.slots
        starts.append(total)
        if total > MOST_SLOTS:
            raise Fail(f"it would have {total} slots, of which a program has at most {MOST_SLOTS}", None, SIZE)
        number = {id(instruction): at for at, instruction in enumerate(self.out)}
        offsets = {id(jump): starts[self.places[target]] - starts[number[id(jump)]] - 1 for jump, target in self.jumps}
        words = [word for instruction in self.out for word in instruction.words(offsets.get(id(instruction)))]
        relocations = [(starts[at], insn.map) for at, insn in enumerate(self.out) if insn.map is not None]
        return words, relocations, {starts[at]: label for at, label in enumerate(self.labels)}
