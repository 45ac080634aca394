"""The way to an accepted program: each refusal says which mark to add.

The verifier's answer, as `xdpbox explain` gives it, drives everything; there are no rules of the verifier's here. The
first program is that of the copies alone. Then, one mark per refusal:

  V9 at an access    through an address of a meeting: the meeting is marked. Through one to which a number was added:
                     the number's range is narrowed by a test (`wide`), as of an index of constants, or its few
                     values are told apart (`cases`). A
                     distance of several such numbers is bounded by a test where it is stored (`limited`), or made anew
                     from the distance where it was compared with the packet's end (`restarts`)
                     If more ways meet than the verifier keeps apart, since an added number is a constant on some: it
                     is hidden that it is (`blurred`)
  V10                what the access reaches is compared with the packet's end anew (`guards`); where it still lies in
                     front of what was compared, its address is made anew first (`rebased`)
  a loop             that nothing bounds but a masked number, or one that was compared with a constant: a copy for each
                     number (`cases`), or for each step up to it (`trips`); and so of one that adds the carries of a sum
  V17                of a key in the packet or in a map's value: it is copied to the stack (`keys`)
  V17, V9 at a value  of two lookups whose ways met: a copy behind the meeting for each map (`values`)
  V9 at an access    through what is an address on some ways, and 0 or a number on others: copies for each (`told`)
  V9 at 0             where what a lookup gave is tested twice: a copy for the ways on which it was 0 (`nones`)
  V19                 an atomic addition of four bytes becomes one to the whole counter (`adds`)
  V14 at a load      the whole counter is loaded, and the part cut out (`narrow`)
  V14 at a store     a load, an addition and a store become one atomic addition (`counts`); else the difference from
                     what was loaded is added, if the load stays (`differences`). A number of fewer than eight bytes
                     that lies below another one of its counter gets a counter of its own (`moved`)

No mark is taken back, so the search ends. It is made in several `ways`."""
from __future__ import annotations

from typing import TYPE_CHECKING, Iterable, Optional, Sequence

from .addresses import ADDED, KEPT, MET, PacketAddress, StackSlot, Thing, addresses_of, is_marked, multiple_of
from .constants import MAPS, RESULTS
from .copies import MOST_COPIES, Cases, Wide, copies_of
from .emit import Kind, Needs
from .few import Few
from .graph import SIZE, AddedToNumber, Fail, NoBound, TooMany, loops, slots_that_reach
from .indices import bound_index, places_in_value
from .instructions import MASK_32
from .marks import Anew, Form, Found, Marks, Result
from .masks import bounded_copies, cuts, in_shifts, masked, row_before
from .keys import KEY_ARGUMENT
from .of_values import OfValues
from .parts import COUNTER_BYTES, NeedsCounters, check_parts, moved_with, with_counters
from .settings import instructions_of, key_sizes, text_of, with_parts, without_rows
from .sources import Sources, sources_of
from .steps import Steps, refusal
from .verifier import WORK, StillRefused, verdict
from .written import written

if TYPE_CHECKING:
    from .addresses import Place
    from .copies import Copy
    from .emit import Label
    from .verifier import Verdict
    from .written import Written

MOST_TURNS, MOST_CASES = 200, 64
MOST_ALIKE = 3  # marks at copies of one slot, from which on all its copies are marked
MOST_JUDGED = 60000  # slots, in all programs of one search
MOST_POSITIVE = MASK_32  # a number up to here is none that is negative in 64 bits
# causes that no other program with the same runs would avoid: of decoding and of structure, but for the loop
OF_THE_BYTES = {"V0", "V1", "V2", "V3", "V4", "V6", "V16", "V19"}

BY_COPY, BY_SLOT, BY_ACCESS = "by copy", "by slot", "by access"


def are_few(numbers: Sequence[int]) -> bool:
    """Whether there are numbers, and no more than are told apart. Of a range there may be 2^64."""
    return 0 < len(numbers[: MOST_CASES + 1]) <= MOST_CASES


class Search(OfValues):
    """One search. `numbers`: which are told apart; `way`: what is marked first if an address was lost: a meeting
    as one copy (BY_COPY) or at all copies of its slot (BY_SLOT), or the access, to be rebased (BY_ACCESS). `form`: of what it finds."""

    def __init__(self, settings: dict, xdpbox: str, numbers: str, way: str, form: Form = Form()) -> None:
        self.settings, self.xdpbox, self.numbers, self.way = without_rows(settings), xdpbox, numbers, way
        self.form, self.has_rows, self.masks = form, False, set()
        self.code = instructions_of(settings)
        self.near = slots_that_reach(self.code, loops(self.code))
        self.marks = Marks(guards=set(form.guards))
        if form.by_copies:
            self.marks.anew = {(row.jump, row.after): Anew(row.register, row.compared) for row in bounded_copies(self.code)}
            self.marks.cuts = set(cuts(self.code))
        for row in settings.get("again", []):
            self.marks.again[row["slot"]] = name = "counted", row["slot"]
            for load in row["loads"]:
                self.marks.kept.setdefault(load, []).append(name)
        self.copies = self.addresses = self.labels = None
        self.reached = {}  # by map the accesses in its values
        self.found = None  # where they lie
        self.began = False  # whether there was a program to ask the verifier of
        self.is_by_way = False  # whether another way might have led elsewhere

    @property
    def has_one_copy_each(self) -> bool:
        """Whether each meeting that is marked as one copy is the only copy of its slot, so that by slots the same is found."""
        slots = [copy.slot for copy in self.copies.order]
        keys = {key for key, _ in self.marks.meetings if not isinstance(key, int)}
        return all(slots.count(key[0]) == 1 for key in keys) and keys <= {copy.key for copy in self.copies.order}

    def mark(self, here: Copy, place: Place) -> tuple:
        """How a meeting is marked. All its registers are: one of them is often made from another."""
        return (here.slot if self.way == BY_SLOT else here.key, place if isinstance(place, StackSlot) else None)

    def mark_meetings(self, rows: Iterable[tuple[Copy, Place]]) -> bool:
        """Marks meetings, (copy, place) each: whether one is new. If several copies of a slot are marked, all are."""
        self.is_by_way = True
        meets = {here.slot for here, _ in rows} - self.near if self.form.by_ways else set()
        if not meets <= self.marks.parted:
            self.marks.parted |= meets
            return True
        fresh = {self.mark(*row) for row in rows if not is_marked(self.marks.meetings, *row)}
        self.marks.meetings |= fresh
        for key, kept in fresh:
            slot = key if isinstance(key, int) else key[0]
            alike = sum(other[0] == slot for other, _ in self.marks.meetings if not isinstance(other, int))
            if alike >= MOST_ALIKE:
                self.marks.meetings.add((slot, kept))
        return bool(fresh)

    def mark_guard(self, here: Copy) -> bool:
        """Marks an access to be guarded, in all copies of its slot if several need it."""
        if here.key in self.marks.guards or here.slot in self.marks.guards | self.marks.keys:
            return False
        self.marks.guards.add(here.key)
        if sum(key[0] == here.slot for key in self.marks.guards if not isinstance(key, int)) >= MOST_ALIKE:
            self.marks.guards.add(here.slot)
        return True

    def run(self) -> Result:
        judged = 0
        for _ in range(MOST_TURNS):
            WORK.check()
            program = self.emitted()
            if program is None:
                continue
            words, relocations, self.labels = program.words, program.relocations, program.labels
            self.began = True
            judged += len(words)
            WORK.slots += len(words)
            if judged > MOST_JUDGED:
                break
            answer = verdict(self.xdpbox, text_of(with_counters(self.settings, self.marks.moved), words, relocations))
            if answer.accepted and not self.keeps_parts():
                continue
            if answer.accepted:
                return self.result(words, relocations)
            if answer.cause is None:
                raise Fail(answer.words.strip() or "xdpbox gave no answer")
            if not self.learn(answer):
                label = self.labels.get(answer.slot)
                raise StillRefused(label.slot if label else None, answer)
        raise Fail("it isn't accepted after many changes", None, SIZE)

    def emitted(self) -> Optional[Written]:
        """The program with the marks as they are; None if a further meeting had to be marked."""
        marks = self.marks
        try:
            self.copies = copies_of(self.code, self.numbers, marks.of_copies())
        except (NoBound, TooMany) as loop:
            WORK.slots += MOST_COPIES
            if not Steps(self.code, self.marks, loop.slot).told_apart(isinstance(loop, NoBound)):
                raise refusal(self.code, loop) from None
            return None
        WORK.slots += len(self.copies.order)
        self.addresses = addresses_of(self.copies, frozenset(marks.meetings), frozenset(marks.restarts))
        try:
            made = written(self.copies, self.addresses, marks.now(), key_sizes(self.settings), with_parts(self.settings))
        except Needs as needs:
            self.mark_meetings(needs.meetings)
            return None
        except AddedToNumber:
            if not self.tell_nones_apart():  # it may be 0 there, as a lookup gives it
                raise
            return None
        self.reached, self.found = made.reached, Found(made.lies, self.parts(), made.keys, made.top)
        return made

    def parts(self) -> set[int]:
        """The slots of accesses to a part of a counter that are written otherwise."""
        stores = {slot for slot in self.marks.differences if self.code[slot].size < COUNTER_BYTES}
        return self.marks.narrow | stores | self.marks.adds

    def keeps_parts(self) -> bool:
        """Whether no store changes another number of its counter; else parts that need it get counters of their own."""
        try:
            check_parts(self.settings, self.marks.moved, self.reached)
        except NeedsCounters as needs:
            self.marks.moved = moved_with(self.settings, self.marks.moved, needs)
            return False
        return True

    def result(self, words: list[str], relocations: list[tuple[int, str]]) -> Result:
        marks = self.marks
        way = self.numbers, self.way
        rows = words, relocations, self.labels, self.code, sorted(marks.counts), marks.differences, marks.moved, way, self.has_rows
        return Result(*rows, self.found, self.masks, marks.met() - self.near, self.form)

    # --- what a refusal asks for; each answers whether there is a new mark

    def learn(self, answer: Verdict) -> bool:
        label = self.labels.get(answer.slot)
        if label is None or label.kind != Kind.COPY and not self.is_own_load(label):
            return False
        instruction = self.code[label.slot]
        register = KEY_ARGUMENT if label.slot in self.marks.keys else instruction.base
        if answer.cause == "V14":
            return self.narrow_all(label.slot) if instruction.is_load else self.fuse_all(label.slot)
        if answer.cause == "V19":
            return any([self.add_whole(slot) for slot in sorted(self.code) if self.code[slot].adds_word])
        if answer.cause == "V17":
            return self.copy_key(label.copy) or self.follow(MAPS)
        if not (instruction.is_load or instruction.is_store or label.slot in self.marks.keys):
            return False
        self.is_by_way |= answer.cause == "V10"
        if answer.cause == "V10" and self.way == BY_ACCESS:
            return self.rebase(label.copy, instruction.base)
        if answer.cause == "V10":
            return self.mark_guard(label.copy) or self.rebase(label.copy, instruction.base)
        if answer.cause != "V9":
            return False
        if answer.is_none(register) and self.tell_nones_apart():
            return True
        address = self.addresses.before[label.copy].get(register)
        if address == Thing.VALUE and (self.follow(RESULTS) or self.follow(MAPS)):
            return True
        if address == Thing.MIXED and self.tell_none(label.slot, register):
            return True
        if not isinstance(address, PacketAddress):
            return self.tell_apart(answer) or bound_index(self.code, label.slot, self.settings, self.marks)
        self.is_by_way = True
        if self.way == BY_ACCESS:
            return self.rebase(label.copy, instruction.base)
        meetings = [(atom.copy, atom.place) for atom in address.atoms if atom.name == MET]
        if self.mark_meetings(meetings) or answer.too_many_notes and self.blur(address):
            return True
        if self.widen(answer, address) or self.limit(address) or self.restart(label.copy, register):
            return True
        return self.rebase(label.copy, instruction.base)

    def is_own_load(self, label: Label) -> bool:
        """Whether it is of a load of our own: through the address of a store of which the difference is added, or through that
        of a key that is copied."""
        marked = label.slot in self.marks.differences or label.slot in self.marks.keys
        return marked and label.copy is not None and label.copy.slot == label.slot

    def copy_key(self, here: Copy) -> bool:
        """A lookup whose key lies in the packet or in a map's value. Its map has to be known, for the size of the key."""
        key = self.addresses.before[here].get(KEY_ARGUMENT)
        if here.slot in self.marks.keys or not isinstance(key, PacketAddress) and key != Thing.VALUE:
            return False
        self.marks.keys.add(here.slot)
        self.follow(MAPS)
        return True

    def tell_nones_apart(self) -> bool:
        """A second test of what a lookup gave: ways on which the first one found 0 get copies of their own."""
        fresh, self.marks.nones = not self.marks.nones, True
        self.follow(RESULTS)
        return fresh

    def tell_none(self, slot: int, register: int) -> bool:
        """An address on some ways, and 0 or another number on others: these get copies of their own."""
        found = {at: sources.with_(self.marks.told.get(at, Sources())) for at, sources in sources_of(self.code, slot, register).items()}
        fresh = any(self.marks.told.get(at) != sources for at, sources in found.items())
        self.marks.told.update(found)
        return fresh

    def rebase(self, here: Copy, register: int) -> bool:
        """An access in front of what was compared: its address is made anew from its own distance, and compared."""
        address = self.addresses.before[here].get(register)
        if not isinstance(address, PacketAddress) or here.key in self.marks.rebased or here.slot in self.marks.keys:
            return False
        self.marks.rebased.add(here.key)
        return True

    def blur(self, address: PacketAddress) -> bool:
        """Numbers that were added, and are constants on some ways alone: the verifier would keep the sums apart."""
        fresh = {atom.copy.slot: atom.place for atom in address.atoms if atom.name == ADDED}
        fresh = {slot: place for slot, place in fresh.items() if slot not in self.marks.blurred}
        self.marks.blurred.update(fresh)
        return bool(fresh)

    def widen(self, answer: Verdict, address: PacketAddress) -> bool:
        """A number that is too wide for an address: a test in front of its addition, the named one or the last."""
        lost = answer.lost()
        named = self.labels.get(lost.slot) if lost else None
        added = [
            (atom.copy, atom.place)
            for atom in address.atoms
            if atom.name == ADDED and atom.copy.slot not in self.marks.wide
        ]
        chosen = [row for row in added if named and row[0] is named.copy] or added[-1:]
        if not chosen:
            return False
        here, register = chosen[0]
        positive = bool(named) and here is named.copy and lost.span is not None and lost.span[1] <= MOST_POSITIVE
        self.marks.wide[here.slot] = Wide(register, positive)
        return True

    def limit(self, address: PacketAddress) -> bool:
        """A distance that is the sum of several numbers, and all that it is made of: tests where they are stored."""
        stored = {}
        for row in self.addresses.stored.values():
            for atom, made_of in row:
                stored.setdefault(atom, []).extend(more for more in made_of.atoms if more.name == KEPT)
        keys, todo = set(), [atom for atom in address.atoms if atom.name == KEPT]
        while todo:
            atom = todo.pop()
            if atom.copy.key not in keys:
                keys.add(atom.copy.key)
                todo += stored.get(atom, [])
        fresh = not keys <= self.marks.limited
        self.marks.limited |= keys
        for slot in {key[0] for key in keys}:
            if sum(key[0] == slot for key in self.marks.limited) >= MOST_ALIKE:
                self.marks.limited |= {copy.key for copy in self.copies.order if copy.slot == slot}
        return fresh

    def restart(self, here: Copy, register: int) -> bool:
        """An address plus numbers whose sum may lie far past any packet: it was compared with the
        packet's end, and is made anew from its distance there."""
        if (here.key, register) in self.marks.restarts:
            return False
        chosen = [here]
        if sum(key[0] == here.slot for key, _ in self.marks.restarts) >= MOST_ALIKE:
            chosen += [copy for copy in self.copies.order[self.copies.order.index(here) :] if copy.slot == here.slot]
        self.marks.restarts |= {(copy.key, register) for copy in chosen}
        self.marks.limited |= {copy.key for copy in chosen}
        return True

    def tell_apart(self, answer: Verdict) -> bool:
        """A number of few values that is added to an address of the stack or of a map's value: a copy for each."""
        lost = answer.lost()
        label = self.labels.get(lost.slot) if lost else None
        if label is None or label.copy is None or lost.was not in ("fp", "map_value"):
            return False
        if lost.register is None or label.slot in self.marks.cases:
            return False
        found = masked(self.code, label.slot, lost.register)
        stride = multiple_of(self.addresses.before[label.copy].get(lost.register)) or 1
        if self.form.in_rows and lost.was == "map_value" and self.follow(MAPS):
            return True
        index = label.copy, self.code, lost.register
        places = places_in_value(*index, self.addresses, self.settings) if lost.was == "map_value" else ()
        row = row_before(self.code, label.slot, lost.register, places or lost.multiples_of(stride)) if found is None else found.row
        self.has_rows |= row is not None
        self.masks |= {found.mask} if found is not None and row is None and [*in_shifts(self.code[found.mask])] else set()
        if self.form.in_rows and row is not None and row.slot not in self.marks.cases:
            self.marks.cases[row.slot] = Cases(lost.register, tuple(row.numbers), label.slot)
            return True
        numbers = found.numbers if found is not None and found.numbers else lost.multiples_of(stride)
        numbers = numbers if are_few(numbers) else Few(self.code).numbers(label.slot, lost.register) or numbers
        if lost.was == "map_value" and (self.form.by_place or not are_few(numbers)):
            if self.follow(MAPS):
                return True
            numbers = places
        if not are_few(numbers):
            return False
        self.marks.cases[label.slot] = Cases(lost.register, tuple(numbers))
        return True
