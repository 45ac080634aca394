"""What a search has found out that a program needs, and what it found. No mark is taken back."""
from __future__ import annotations

from copy import copy
from dataclasses import dataclass, field, replace
from typing import TYPE_CHECKING, AbstractSet, NamedTuple, Optional

if TYPE_CHECKING:
    from .instructions import Code
    from .keys import Key
    from .parts import Lying


class MarksOfCopies(NamedTuple):
    """Those of the marks on which the graph of copies depends."""

    wide: dict
    cases: dict
    trips: dict
    differences: dict
    nones: bool
    values: int
    parted: AbstractSet[int]
    told: dict


class Anew(NamedTuple):
    """A copy of the register that a jump compares, and that one."""

    copy: int
    compared: int


class Form(NamedTuple):
    """What the found program is to be like. `fuses`: whether a load, additions and a store become one atomic addition. `by_place`: whether
    each index into a value is told apart by all places of the value, and not by the numbers that the verifier names, which are those of
    one of its notes. `in_rows`: whether a masked number is told apart where it is one of a row, so that tests of all of them leave no
    other number. `by_copies`: whether a register of which a masked copy is compared is made anew of that, and a number that is cut to 32
    bits is kept in front of it. `by_ways`: whether what stands behind all loops, and where addresses that ways disagree on meet, is copied
    for each of these ways. `rereads`: whether a store of a whole counter that is no count adds the difference from
    what stands there then. `guards`: slots of accesses whose end is compared with the packet's."""

    fuses: bool = True
    by_place: bool = False
    in_rows: bool = False
    by_copies: bool = False
    by_ways: bool = False
    rereads: bool = False
    guards: frozenset[int] = frozenset()


@dataclass
class Marks:
    meetings: set = field(default_factory=set)  # (copy's key or slot, stack slot or None)
    guards: set = field(default_factory=set)  # keys of copies, or slots
    limited: set = field(default_factory=set)  # keys of copies
    restarts: set = field(default_factory=set)  # (key of a copy, register)
    wide: dict = field(default_factory=dict)  # by slot
    cases: dict = field(default_factory=dict)  # by slot
    blurred: dict = field(default_factory=dict)  # by slot
    values: int = 0  # what is followed of lookups: RESULTS, MAPS, or nothing
    parted: set = field(default_factory=set)  # slots behind which each way to them has a copy of its own
    told: dict = field(default_factory=dict)  # by slot what may be an address or 0, which are told apart
    nones: bool = False  # whether ways on which a lookup found nothing are kept apart
    counts: list = field(default_factory=list)  # slots of stores
    differences: dict = field(default_factory=dict)  # by the slot of a store
    adds: set = field(default_factory=set)  # slots of atomic additions of four bytes
    trips: dict = field(default_factory=dict)  # of slots in loops, how often a way comes by
    lengths: dict = field(default_factory=dict)  # by the slot of an addition the register of the number, and the one in which it is kept
    cuts: set = field(default_factory=set)  # slots from which on a number is cut to 32 bits
    anew: dict = field(default_factory=dict)  # by the slots of a jump, and of what comes behind it, the copy that is made anew on this way
    narrow: set = field(default_factory=set)  # slots of loads
    rebased: set = field(default_factory=set)  # keys of copies, or slots
    keys: set = field(default_factory=set)  # slots of lookups
    moved: dict = field(default_factory=dict)  # by map the parts of values that have a counter of their own
    kept: dict = field(default_factory=dict)  # by the slots of loads of counters the names of what is kept of them
    again: dict = field(default_factory=dict)  # by the slots of loads that read a counter again the name of what was kept of it

    def of_copies(self) -> MarksOfCopies:
        """Those of copies as they are now: later marks don't change these."""
        rows = dict(self.wide), dict(self.cases), dict(self.trips), dict(self.differences)
        return MarksOfCopies(*rows, self.nones, self.values, set(self.parted), dict(self.told))

    def now(self) -> Marks:
        """All of them as they are now."""
        return replace(self, **{name: copy(marks) for name, marks in vars(self).items()})

    def met(self) -> set[int]:
        """The slots where addresses are made anew."""
        return {key if isinstance(key, int) else key[0] for key, _ in self.meetings}


class Found(NamedTuple):
    """What a search has found out of a program: by the slot of an access in a value where it lies; the slots of those that are to a
    part of a counter; by that of a lookup whose key isn't on the stack its keys; and below which place of the stack it has nothing."""

    accesses: dict[int, set[Lying]]
    parts: set[int]
    keys: dict[int, set[Key]]
    top: int


@dataclass
class Result:
    """A program that the verifier accepts. `labels`: of its slots. `code`, `counts`, `differences`: of the original.
    `moved`: by map the parts of values that have a counter of their own. `way`: of the search, which numbers it tells apart and
    what it marks. `has_rows`: whether a masked number can be told apart where it is one of a row. `found`: where its
    accesses in values lie. `masks`: the slots of masks whose numbers would be one of a row between two shifts. `meets`: the slots
    behind all loops where addresses that ways disagree on are made anew. `form`: what it was to be like."""

    words: list
    relocations: list
    labels: dict
    code: Code
    counts: list
    differences: dict
    moved: dict
    way: tuple
    has_rows: bool = False
    found: Optional[Found] = None
    masks: AbstractSet[int] = frozenset()
    meets: AbstractSet[int] = frozenset()
    form: Form = Form()

    @property
    def text(self) -> tuple:
        """What two results have in common that are the same program, made in the same way of the original."""
        labels = tuple((slot, label.kind, label.slot) for slot, label in self.labels.items())
        return tuple(self.words), tuple(self.relocations), labels, repr(self.moved)
