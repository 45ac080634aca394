"""Marks of accesses in maps' values: loads of parts of counters, stores as counts or differences, and atomic additions of four bytes."""
from __future__ import annotations

from typing import TYPE_CHECKING

from .addresses import Addresses, Thing
from .constants import MAPS
from .counts import difference, fused
from .parts import COUNTER_BYTES, has_parts

if TYPE_CHECKING:
    from .copies import Copies
    from .instructions import Code
    from .marks import Form, Marks


class OfValues:
    """What a search marks of these."""

    settings: dict
    code: Code
    form: Form
    marks: Marks
    copies: Copies
    addresses: Addresses

    def follow(self, what: int) -> bool:
        """Follows this of lookups: values of two maps get a copy each of what comes after their ways met."""
        fresh = self.marks.values < what
        self.marks.values = max(self.marks.values, what)
        return fresh

    def in_values(self) -> list[int]:
        """The slots of accesses that surely are in a map's value, in the order of the program."""
        places = ((here, self.code[here.slot]) for here in self.copies.order if here.is_instruction)
        reach = (here for here, insn in places if insn.is_load or insn.is_store)
        found = {here.slot: None for here in reach if self.addresses.before[here].get(self.code[here.slot].base) == Thing.VALUE}
        return list(found)

    def narrow_all(self, slot: int) -> bool:
        """A load of a part of a counter, and all others where no map takes such loads: these would be refused next."""
        takes_parts = any(row.get("parts") for row in self.settings.get("map", []))
        others = [] if takes_parts else [other for other in self.in_values() if self.code[other].is_load]
        return any([self.narrow(other) for other in [slot, *others]])

    def fuse_all(self, slot: int) -> bool:
        """A store to a counter, and all others, which would be refused next."""
        stores = [other for other in self.in_values() if self.code[other].is_store and not self.code[other].is_atomic]
        if not self.fuse(slot):
            return False
        for other in stores:
            if other != slot:
                self.fuse(other)
        return True

    def narrow(self, slot: int) -> bool:
        """A load of a part of a counter."""
        fresh = slot not in self.marks.narrow and self.code[slot].size < 8
        self.marks.narrow |= {slot} if fresh else set()
        return fresh

    def fuse(self, slot: int) -> bool:
        if self.code[slot].is_atomic:
            return False
        mended = fused(self.code, slot) if self.form.fuses else None
        if mended is None:
            row = difference(self.code, slot, self.marks.nones)
            if self.form.rereads and row is not None and self.code[slot].size == COUNTER_BYTES and fused(self.code, slot) is None:
                row = row._replace(known=frozenset(), told=False)
            fresh = row is not None and slot not in self.marks.differences
            self.marks.differences.update({slot: row} if fresh else {})
            if fresh and (self.code[slot].size < COUNTER_BYTES or has_parts(self.settings)):
                self.follow(MAPS)
            return fresh
        self.code = mended
        self.marks.counts.append(slot)
        return True

    def add_whole(self, slot: int) -> bool:
        """An atomic addition of four bytes."""
        fresh = self.code[slot].adds_word and slot not in self.marks.adds
        self.marks.adds |= {slot} if fresh else set()
        self.follow(MAPS)
        return fresh
