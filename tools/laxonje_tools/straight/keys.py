"""Keys of lookups that lie in the packet or in a map's value: each is copied to our own stack."""
from __future__ import annotations

from typing import TYPE_CHECKING, Iterator, NamedTuple

from .constants import MAP, VALUE, is_address
from .graph import Fail
from .instructions import (
    ADD_CONSTANT,
    ADD_REGISTER,
    ALU64,
    FRAME_POINTER,
    LDX,
    LOAD_DOUBLE,
    LOAD_WORD,
    LSH,
    MOVE_REGISTER,
    RSH,
    STORE_DOUBLE,
)
from .parts import COUNTER_BYTES, Access, parts_by_counter, place_of

if TYPE_CHECKING:
    from .parts import Part
    from .copies import Copy
    from .emit import Emitter

MAP_ARGUMENT, KEY_ARGUMENT = 1, 2  # of a lookup: its registers
KEY_SLOT = "key"
WORD_REGISTER, PART_REGISTER = 3, 4  # for a key that is copied
LSH_CONSTANT, RSH_CONSTANT = ALU64 | LSH, ALU64 | RSH
LOADS = (8, LOAD_DOUBLE), (4, LOAD_WORD), (2, LDX | 0x68), (1, LDX | 0x70)  # by how many bytes they load


class Key(NamedTuple):
    """A key that isn't on the stack: the map of its lookup, and its size; and if it lies in a map's value, of its parts by counters
    where they lie in the key, their sizes, and where they lie in the value, from the key's beginning on."""

    of_map: str
    size: int
    parts: tuple[tuple[int, int, int], ...] = ()
    low: int = 0  # the byte of a counter with which it begins

    @property
    def words(self) -> range:
        """Where its words begin."""
        return range(0, self.size, COUNTER_BYTES)


def write_key(emitter: Emitter, here: Copy) -> None:
    """In front of a lookup: its key, which lies in the packet or in a map's value, on our own stack."""
    slot, known = here.slot, here.constants.registers.get(MAP_ARGUMENT)
    if not is_address(known, MAP):
        raise Fail("the map of this lookup isn't known, and its key lies in the packet or in a map's value", slot)
    key = key_of(emitter, here, known.map)
    names = [(KEY_SLOT, key.size, at) for at in key.words]
    places = {name: emitter.own[name] for name in reversed(names)}  # one behind the other
    address = here.constants.registers.get(KEY_ARGUMENT)
    base = address.offset if is_address(address, VALUE) else 0
    emitter.keys.setdefault(slot, set()).add(key)
    for fields in copied_key(key, [places[name] for name in names], base):
        emitter.put_own(slot, *fields, copy=here if fields[0] & 7 == LDX else None)


def key_of(emitter: Emitter, here: Copy, name: str) -> Key:
    """The key of a lookup in a map. One that is a part of a counter which can be loaded by itself is as one in the packet."""
    address, size, parts = here.constants.registers.get(KEY_ARGUMENT), emitter.key_sizes[name], []
    if not is_address(address, VALUE):
        return Key(name, size)
    words = [(address.offset + at, min(COUNTER_BYTES, size - at)) for at in range(0, size, COUNTER_BYTES)]
    for part in [part for word in words for part in parts_by_counter(*word)]:
        emitter.reached.setdefault(address.map, set()).add(Access(part, here.slot, False))
        if address.map in emitter.with_parts and address.map not in emitter.marks.moved and part.size == size < COUNTER_BYTES and is_aligned(part):
            return Key(name, size)
        place = place_of(emitter.marks.moved, address.map, part)
        parts.append((part.place - address.offset, part.size, place - address.offset))
    return Key(name, size, tuple(parts), address.offset % COUNTER_BYTES)


def copied_key(key: Key, places: list[int], base: int = 0) -> Iterator[tuple]:
    """What leaves a copy of a key on the stack, and its address. The registers behind the arguments are free, since a call leaves
    nothing in them. `places`: of the stack, of each word; `base`: how far the key is past what its register has."""
    for at, place in zip(key.words, places):
        yield from word_of_value(key, at, base) if key.parts else word_of_packet(at, key.size, base)
        yield STORE_DOUBLE, FRAME_POINTER, WORD_REGISTER, place
    yield MOVE_REGISTER, KEY_ARGUMENT, FRAME_POINTER
    yield ADD_CONSTANT, KEY_ARGUMENT, 0, 0, places[0]


def is_aligned(part: Part) -> bool:
    """Whether it is loaded at once."""
    return part.size in dict(LOADS) and part.place % part.size == 0


def word_of_packet(at: int, size: int, base: int) -> Iterator[tuple]:
    """Eight bytes of a key in the packet, or those that are left."""
    first, *rest = parts_of_word(at, size)
    yield first.load, WORD_REGISTER, KEY_ARGUMENT, base + first.place
    for part in rest:
        yield part.load, PART_REGISTER, KEY_ARGUMENT, base + part.place
        yield from added_to_word(part.place - at)


def word_of_value(key: Key, at: int, base: int) -> Iterator[tuple]:
    """The same of a key in a map's value, of whose counters each is loaded whole."""
    for part, size, place in key.parts:
        if not at <= part < at + COUNTER_BYTES:
            continue
        low, register = (place + key.low) % COUNTER_BYTES, WORD_REGISTER if part == at else PART_REGISTER
        yield LOAD_DOUBLE, register, KEY_ARGUMENT, base + place - low
        if size < COUNTER_BYTES:
            yield LSH_CONSTANT, register, 0, 0, 8 * (COUNTER_BYTES - size - low)
            yield RSH_CONSTANT, register, 0, 0, 8 * (COUNTER_BYTES - size)
        if part != at:
            yield from added_to_word(part - at)


def added_to_word(place: int) -> Iterator[tuple]:
    """Puts the part that was loaded at a place of the word."""
    yield LSH_CONSTANT, PART_REGISTER, 0, 0, 8 * place
    yield ADD_REGISTER, WORD_REGISTER, PART_REGISTER


class PartOfWord(NamedTuple):
    """Bytes of a key: the load's opcode, and where in the key they lie."""

    load: int
    place: int


def parts_of_word(place: int, size: int) -> list[PartOfWord]:
    """The loads of at most eight bytes of a key, from a place on, the largest first."""
    rows, left = [], min(COUNTER_BYTES, size - place)
    for part, load in LOADS:
        if left & part:
            rows.append(PartOfWord(load, place))
            place += part
    return rows
