"""The tool's own slots of the stack, below those of the program, and which names may share one."""
from __future__ import annotations

from typing import TYPE_CHECKING, AbstractSet

from .addresses import ADDED, KEPT, Atom, in_order
from .constants import FRAME, is_address
from .graph import SIZE, Fail
from .instructions import CALL
from .remembered import remembered

if TYPE_CHECKING:
    from .addresses import Addresses
    from .copies import Copies

STACK_BYTES = 512


class OwnStack:
    """Our own stack slots, by name, below the lowest byte that the program touches. `shared`: for names of numbers that
    are needed for a while, which of them may use one slot."""

    def __init__(self, copies: Copies, shared: dict) -> None:
        self.top, self.shared, self.offsets = -((7 - lowest_byte(copies)) // 8 * 8), shared, {}

    def __getitem__(self, name: object) -> int:
        name = self.shared.get(name, name)
        if name not in self.offsets:
            self.offsets[name] = self.top - 8 * (len(self.offsets) + 1)
            if self.offsets[name] < -STACK_BYTES:
                raise Fail(f"it would need more than the {STACK_BYTES} bytes of the stack", None, SIZE)
        return self.offsets[name]


@remembered
def lowest_byte(copies: Copies) -> int:
    """The lowest byte of the stack that the program touches, as far below its end as it lies."""
    lowest = 0
    for here in copies.order:
        instruction, registers = copies.code[here.slot], here.constants.registers
        at = here.constants.stack_offset(instruction) if instruction.is_store else None
        if instruction.opcode == CALL and is_address(registers.get(2), FRAME):
            at = registers[2].offset
        lowest = min(lowest, at or 0)
    return lowest


@remembered
def shared_slots(copies: Copies, addresses: Addresses) -> dict:
    """For each atom that is kept on the stack a number: two that are needed at once have different ones."""
    saved, needed, beside = {}, {}, {}
    for atom in {atom for row in addresses.stored.values() for _, address in row for atom in address.atoms}:
        if atom.name == ADDED:
            saved.setdefault(atom.copy, set()).add(atom)

    def together(atoms: AbstractSet[Atom]) -> None:
        for atom in atoms:
            beside.setdefault(atom, set()).update(atoms)

    for here in reversed(copies.order):
        later = set()
        for way, after in here.ways:
            rows = addresses.stored.get((here, way))
            if rows is None:  # what is needed together behind it was seen there
                later |= needed[after]
                continue
            written = {atom for atom, _ in rows}
            read = {part for _, address in rows for part in address.atoms}
            together(written | read | needed[after])
            later |= read | needed[after] - written
        kept = {Atom(KEPT, here, row.place) for row in addresses.remade.get(here, []) if row.leader is None}
        if len(here.ways) > 1 or here in saved:
            together(later | saved.get(here, set()))
        needed[here] = later - saved.get(here, set()) | kept
        if kept:
            together(needed[here])
    order = {here: number for number, here in enumerate(copies.order)}
    numbers = {}
    for atom in sorted(beside, key=lambda atom: (order[atom.copy], atom.name, in_order(atom.place))):
        taken = {numbers[other] for other in beside[atom] if other in numbers}
        numbers[atom] = next(number for number in range(len(taken) + 1) if number not in taken)
    return {atom: ("shared", number) for atom, number in numbers.items()}
