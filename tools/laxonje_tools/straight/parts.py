"""Numbers of fewer than eight bytes in a map's value, and which of them get a counter of their own.

A store to such a number adds the difference to its whole counter. Of two queues that do it at once the second may take
the number below 0, or above its size, and so it would change what lies above it in the counter. A number that is stored
below another one therefore stands alone in a counter behind those of the value."""
from __future__ import annotations

from typing import Iterable, Iterator, NamedTuple, Optional

from .graph import SHARED, Fail

COUNTER_BYTES, MOST_COUNTERS = 8, 8
EACH_WHOLE = "make each of them a __u64"
CARRIES = "an atomic addition of four bytes may change those above them in the same number: add to all of it, or make it a __u32"


class Part(NamedTuple):
    """Bytes of a value: from which place on, and how many."""

    place: int
    size: int

    @property
    def end(self) -> int:
        return self.place + self.size

    @property
    def counter(self) -> int:
        """The counter in which it begins."""
        return self.place // COUNTER_BYTES

    def holds(self, other: Part) -> bool:
        return self.place <= other.place and other.end <= self.end

    def meets(self, other: Part) -> bool:
        """Whether the two have a byte in common."""
        return self.place < other.end and other.place < self.end

    def with_(self, other: Part) -> Part:
        place = min(self.place, other.place)
        return Part(place, max(self.end, other.end) - place)


def parts_by_counter(place: int, size: int) -> Iterator[Part]:
    """Bytes of a value, as parts that lie in one counter each."""
    end = place + size
    while place < end:
        part = Part(place, min(end, place - place % COUNTER_BYTES + COUNTER_BYTES) - place)
        yield part
        place = part.end


Moved = dict[str, dict[Part, int]]  # by the map's name the parts that have a counter of their own, and which


class NeedsCounters(Fail):
    """Parts of a map's values that need a counter of their own."""

    def __init__(self, name: str, parts: Iterable[Part], slot: int) -> None:
        super().__init__("a number shares its counter", slot)
        self.name, self.parts = name, list(parts)


class SharedCounter(Fail):
    """A store that may change another number of its counter. `several`: by the slots of accesses to several numbers at once these, from
    where each access begins."""

    def __init__(self, fault: Fail, several: dict[int, list[Part]]) -> None:
        super().__init__(f"{fault}", fault.slot, fault.cause)
        self.several = several


class Access(NamedTuple):
    """An access in a map's value. `slot`: of the original. `is_set`: whether its difference is added, or what it adds is; `carries`: the latter,
    of four bytes, which leaves what is carried in the bytes above them."""

    part: Part
    slot: int
    is_set: bool
    carries: bool = False


class Lying(NamedTuple):
    """Where an access in a value lies in the result's: by how much it is moved, and from which byte of its counter on."""

    by: int
    low: int


def place_of(moved: Moved, name: Optional[str], part: Part) -> int:
    """Where a part lies in the result's value."""
    for whole, counter in moved.get(name, {}).items():
        if whole.holds(part):
            return COUNTER_BYTES * counter + part.place - whole.place
    return part.place


def with_counters(settings: dict, moved: Moved) -> dict:
    """Settings whose maps have the counters that were added."""
    added = {name: len(parts) for name, parts in moved.items()}
    rows = [
        {**row, "counters": row.get("counters", 1) + added[row["name"]]} if added.get(row["name"]) else row
        for row in settings.get("map", [])
    ]
    return {**settings, "map": rows} if rows else settings


def declared(settings: dict, name: str) -> list[dict]:
    """The numbers of a map's value as C declares them: rows with a name, a place, a size, and whether it is a bit field."""
    return settings.get("numbers", {}).get(name, [])


def has_parts(settings: dict) -> bool:
    """Whether C declares numbers of fewer than eight bytes, or bit fields, in a value."""
    return any(row["bits"] or row["size"] < COUNTER_BYTES for rows in settings.get("numbers", {}).values() for row in rows)


def check_parts(settings: dict, moved: Moved, reached: dict[Optional[str], set[Access]]) -> None:
    """Ends if a store may change another number of its counter. `reached`: by map the accesses in its values; those of None may be
    in any."""
    if not has_parts(settings) and all(row.part.size == COUNTER_BYTES for rows in reached.values() for row in rows if row.is_set):
        return
    for name in sorted(reached, key=str):
        accesses = reached[name] | reached.get(None, set())
        own, wanted = moved.get(name, {}), {}
        wholes = {row.part for row in accesses if is_whole(settings, name, row, accesses)}
        parts = [row.part for row in accesses if row.part not in wholes]
        for row in sorted(row for row in accesses if row.is_set and row.part not in wholes):
            try:
                whole = stored_below(declared(settings, name), row, parts)
            except Fail as fault:
                several = several_in(declared(settings, name), accesses)
                are_alike = all(alike_in(declared(settings, other), rows, several) for other, rows in reached.items() if other != name)
                raise SharedCounter(fault, several if are_alike else {}) from fault
            if whole is not None and whole not in own:
                wanted.setdefault(whole, row.slot)
        if any(part.meets(other) for part in own for other in wanted):
            raise Fail(f"{name} has numbers that are reached in several ways: {EACH_WHOLE}", min(wanted.values()), SHARED)
        if wanted and name is None:
            raise Fail("a store may change another number of its counter, of which the map isn't known", min(wanted.values()))
        if wanted:
            raise NeedsCounters(name, wanted, min(wanted.values()))


def is_whole(settings: dict, name: Optional[str], store: Access, accesses: Iterable[Access]) -> bool:
    """Whether a store is of all numbers of a counter, in a map that one queue at a time changes, and no other is of a number below another
    one, or of a bit field."""
    if name not in settings.get("alone", ()) or not store.is_set or store.part.size != COUNTER_BYTES:
        return False
    beside = (row.part for row in accesses if row.is_set and row.part.meets(store.part))
    has_bits = any(row["bits"] and store.part.meets(part_of(row)) for row in declared(settings, name))
    return not has_bits and all(part.end == store.part.end for part in beside)


def stored_below(rows: list[dict], store: Access, reached: list[Part]) -> Optional[Part]:
    """The number that a store is to, if it may change what lies above it in the counter; or None. Fail if no number
    holds all that is reached at once with it. `rows`: as they are declared."""
    numbers = [part_of(row) for row in rows]
    whole = number_of(rows, store, joined(store.part, reached), reached)
    if store.carries and whole.end > store.part.end:
        raise Fail(CARRIES, store.slot, SHARED)
    above = (part for part in [*numbers, *reached] if part.place >= whole.end)
    return whole if any(part.counter == whole.counter for part in above) else None


def number_of(rows: list[dict], store: Access, whole: Part, reached: list[Part]) -> Part:
    """The number that a store is to: a counter without bit fields, or all of several numbers, if these bytes are reached all at once
    alone. `whole`: what is reached at once with its bytes."""
    inside = [row for row in rows if whole.meets(part_of(row))]
    is_whole = whole.size == COUNTER_BYTES or len(inside) > 1 and all(whole.holds(part_of(row)) for row in inside)
    is_at_once = is_whole and all(part == whole for part in reached if part.meets(whole))
    if is_at_once and not any(row["bits"] for row in inside):
        return whole
    holding = [row for row in inside if part_of(row).holds(whole)]
    if holding:
        number = min((part_of(row) for row in holding), key=lambda part: part.size)
        within = [row for row in rows if number.holds(part_of(row))]
        fields = [row for row in within if row["bits"]]
        beside = any(number.holds(part) and part.place >= whole.end for part in reached)
        if len(fields) > 1 or beside or any(row["place"] >= store.part.end for row in within):
            raise shared(within, store)
        return number
    if len(inside) > 1:
        raise shared(inside, store)
    if not inside and whole != store.part:
        words = f"a store of {store.part.size} bytes may change others of the {whole.size} that are reached at once"
        raise Fail(f"{words}: {EACH_WHOLE}", store.slot, SHARED)
    return whole


def several_in(rows: list[dict], accesses: Iterable[Access]) -> dict[int, list[Part]]:
    """By the slots of accesses to several numbers these, from where each access begins; none if something reaches bytes of no number, or
    if a number isn't whole in such an access, or two have a byte in common. Bytes between two numbers may be stored, and may not be
    loaded."""
    numbers, found = sorted({part_of(row) for row in rows}), {}
    for access in accesses:
        inside = [part for part in numbers if access.part.meets(part)]
        are_apart = all(one.end <= other.place for one, other in zip(inside, inside[1:]))
        is_of_several = len(inside) > 1 and are_apart and all(access.part.holds(part) for part in inside)
        if is_of_several and (access.is_set or sum(part.size for part in inside) == access.part.size):
            parts = [Part(part.place - access.part.place, part.size) for part in inside]
            if found.setdefault(access.slot, parts) != parts:
                return {}
        elif len(inside) != 1 or not inside[0].holds(access.part):
            return {}
    return {} if any(row["bits"] for row in rows) else found


def alike_in(rows: list[dict], accesses: Iterable[Access], several: dict[int, list[Part]]) -> bool:
    """Whether each of these accesses, which are in another map, or in one that isn't known, has the same parts there: bytes between two
    numbers of one map may be a number of the other."""
    numbers = sorted({part_of(row) for row in rows})
    there = ((several[row.slot], row.part) for row in accesses if row.slot in several)
    return all(parts == [Part(at.place - part.place, at.size) for at in numbers if part.meets(at)] for parts, part in there)


def shared(rows: list[dict], store: Access) -> Fail:
    """Of a store to one of numbers that can't be told apart."""
    names = ", ".join(dict.fromkeys(row["name"] for row in rows))
    return Fail(f"a store may change another one of {names}, which lie in one counter: {EACH_WHOLE}", store.slot, SHARED)


def part_of(row: dict) -> Part:
    """The bytes of a number as it is declared."""
    return Part(row["place"], row["size"])


def joined(part: Part, others: Iterable[Part]) -> Part:
    """The bytes that hang together with a part: of all that have one in common."""
    others, before = list(others), None
    while part != before:
        before = part
        for other in others:
            part = part.with_(other) if part.meets(other) else part
    return part


def moved_with(settings: dict, moved: Moved, needs: NeedsCounters) -> Moved:
    """The same with counters for further parts, one for each. Fail if a value would have too many."""
    row = next(row for row in settings["map"] if row["name"] == needs.name)
    counters = row.get("counters", 1)
    parts = sorted({*moved.get(needs.name, {}), *needs.parts})
    if counters + len(parts) > MOST_COUNTERS:
        raise Fail(
            f"{len(parts)} numbers of {needs.name} are stored below another one of their counter, and each needs one of its"
            f" own: its {counters} and these are more than {MOST_COUNTERS}: {EACH_WHOLE}, or use more than one map",
            needs.slot,
            SHARED,
        )
    if any(part.counter != (part.end - 1) // COUNTER_BYTES for part in parts):
        raise Fail(f"a number of {needs.name} lies in two counters: don't pack the struct", needs.slot, SHARED)
    return {**moved, needs.name: {part: counters + number for number, part in enumerate(parts)}}


def check_values(settings: dict, moved: Moved) -> None:
    """Ends if a map has parts with a counter of their own, and it is given what its counters begin with."""
    for row in settings.get("map", []):
        if row.get("values") and moved.get(row["name"]):
            raise Fail(f"numbers of {row['name']} need counters of their own, and what its counters begin with is given: {EACH_WHOLE}")


def places_of(settings: dict, moved: Moved) -> Iterator[str]:
    """Where a host finds the numbers of fewer than eight bytes: a line each."""
    for row in settings.get("map", []):
        rows = [part for part in declared(settings, row["name"]) if part["size"] < COUNTER_BYTES and not part["bits"]]
        own = moved.get(row["name"], {})
        whole = [part for part in rows if all(one.holds(part_of(part)) or not one.meets(part_of(part)) for one in own)]
        named = {part_of(part): part["name"] for part in whole}
        unnamed = {part: f"the number at byte {part.place}" for part in own if part not in named}
        for part, name in sorted({**named, **unnamed}.items()):
            yield f"map {row['name']}: {name} is {bits_of(place_of(moved, row['name'], part), part.size)}"


def bits_of(place: int, size: int) -> str:
    """Where bytes of a value lie, in words. They may begin in one counter and end in the next."""
    counter, low, above = place // COUNTER_BYTES, 8 * (place % COUNTER_BYTES), 8 * (place % COUNTER_BYTES + size - COUNTER_BYTES)
    if above > 0:
        return f"bits {low} to {8 * COUNTER_BYTES - 1} of counter {counter}, and above these bits 0 to {above - 1} of counter {counter + 1}"
    return f"bits {low} to {low + 8 * size - 1} of counter {counter}"
