"""Calls that Linux answers with another number each time: a clock, and random numbers.

A counter keeps where it is, in a map of one entry that is named for the call. The host writes the time there. Or a command says by how
many nanoseconds it goes on at each call: so the program runs as in Linux if packets come at that rate, and no host knows that map. A
random number is made of how many there were: any sequence may be Linux's."""
from __future__ import annotations

from typing import NamedTuple, Optional

from .elf import MAP_ADDRESS, SLOT_BYTES, Relocation
from .lines import CALL, EXIT, STACK_BYTES, WIDE, Fault, Line, packed

LOOKUP, DOUBLE = 1, 8
ANSWER, FIRST, SECOND, FRAME = 0, 1, 2, 10  # registers
MOV_64, MOV_CONSTANT, ADD_CONSTANT, DIV_CONSTANT, RSH_CONSTANT, MUL, XOR, IF_NOT_CONSTANT = 0xBF, 0xB7, 0x07, 0x37, 0x77, 0x2F, 0xAF, 0x55
STORE_DOUBLE, LOAD_DOUBLE, ADD_ATOMICALLY = 0x7B, 0x79, 0xDB
JIFFIES, JIFFY = 118, 4_000_000  # the latter: nanoseconds, of Debian's CONFIG_HZ of 250
CLOCKS = {
    5: "bpf_ktime_get_ns",
    JIFFIES: "bpf_jiffies64",
    125: "bpf_ktime_get_boot_ns",
    160: "bpf_ktime_get_coarse_ns",
    208: "bpf_ktime_get_tai_ns",
}
CLOCK, COUNTED_CLOCK = CLOCKS[5], f"{CLOCKS[5]}.counted"  # maps: hosts write the time into the first one by its name
RANDOM, RANDOM_NAME = 7, "bpf_get_prandom_u32"
MOST_STEP = (1 << 31) - 1  # nanoseconds
# SplitMix64 (Steele, Lea, Flood: Fast Splittable Pseudorandom Number Generators, 2014): factors, and by how much each product is shifted
# and put over itself
MIXED = (0x9E3779B97F4A7C15, 30), (0xBF58476D1CE4E5B9, 27), (0x94D049BB133111EB, 31)
UPPER_HALF = 32
OF_HOST = (
    "{} gives the time that the host wrote last, the same all through a run: laxonje-netback writes that of CLOCK_MONOTONIC, laxonje-pcap"
    f" the packet's own; in another host it stands still until that writes it into the map {CLOCK}"
)
OF_CLOCK = "{} goes on by {} nanoseconds at each call, as in Linux if packets come so: the map {} has the time"
IN_JIFFIES = f"; in steps of {JIFFY} nanoseconds, as where CONFIG_HZ is 250"
OF_SETTINGS = f"map {CLOCK}: the host writes the time there, in nanoseconds"
OF_RANDOM = f"{RANDOM_NAME} gives the numbers of one sequence, as Linux may; who knows how many there were can tell the next one"


class Sequence(NamedTuple):
    """The map that keeps it, what is added to its counter at each call, 0 if the host alone writes it, whether the answer is mixed, what
    its author should know, and by what the answer is divided."""

    map: str
    step: int
    is_mixed: bool
    note: str
    divisor: int = 1


def sequence_of(number: int, clock: Optional[int]) -> Optional[Sequence]:
    """That of a helper; None if it has none. `clock`: the nanoseconds between two calls, None if the host writes the time."""
    if number == RANDOM:
        return Sequence(RANDOM_NAME, 1, True, OF_RANDOM)
    if number not in CLOCKS:
        return None
    divisor, steps = (JIFFY, IN_JIFFIES) if number == JIFFIES else (1, "")
    if clock is None:
        return Sequence(CLOCK, 0, False, OF_HOST.format(CLOCKS[number]) + steps, divisor)
    return Sequence(COUNTED_CLOCK, clock, False, OF_CLOCK.format(CLOCKS[number], clock, COUNTED_CLOCK) + steps, divisor)


def comments_of(maps: list[str]) -> list[str]:
    """What settings with such maps say of them."""
    return [OF_SETTINGS] if CLOCK in maps else []


def answered(line: Line, row: Sequence, above: int) -> list[Line]:
    """The lines in the place of a call. The map's index is kept below what is in use of the stack, `above`. If there were no counter, which
    there is, the function would end: no way of the program goes on without the number."""
    place = -(above + DOUBLE)
    if -place > STACK_BYTES:
        raise Fault(f"calls {row.map} with more than {STACK_BYTES - DOUBLE} bytes of the stack in use")
    begin = [(STORE_DOUBLE, FRAME, SECOND, place), (MOV_64, SECOND, FRAME), (ADD_CONSTANT, SECOND, 0, 0, place)]
    added = [(MOV_CONSTANT, FIRST, 0, 0, row.step), (ADD_ATOMICALLY, ANSWER, FIRST)] if row.step else []
    address = Line(packed(WIDE, FIRST) + bytes(SLOT_BYTES), line.origin, Relocation(0, MAP_ADDRESS, row.map, 0))
    found = (CALL, 0, 0, 0, LOOKUP), (IF_NOT_CONSTANT,), (MOV_CONSTANT, ANSWER), (EXIT,)
    call, is_there, *stop = (Line(packed(*fields), line.origin) for fields in found)
    line.put(MOV_CONSTANT, SECOND)
    added += [(LOAD_DOUBLE, ANSWER, ANSWER), *([(DIV_CONSTANT, ANSWER, 0, 0, row.divisor)] if row.divisor > 1 else [])]
    rest = [Line(packed(*fields), line.origin) for fields in added]
    rest += mixed_lines(line.origin) if row.is_mixed else []
    is_there.target = rest[0]
    return [line, *(Line(packed(*fields), line.origin) for fields in begin), address, call, is_there, *stop, *rest]


def mixed_lines(origin: int) -> list[Line]:
    """What makes a random number of 32 bits of a count."""
    out = []
    for factor, shift in MIXED:
        out.append(Line(packed(WIDE, FIRST, 0, 0, low_half(factor)) + packed(0, 0, 0, 0, low_half(factor >> 32)), origin))
        rows = (MUL, ANSWER, FIRST), (MOV_64, FIRST, ANSWER), (RSH_CONSTANT, FIRST, 0, 0, shift), (XOR, ANSWER, FIRST)
        out += [Line(packed(*fields), origin) for fields in rows]
    return [*out, Line(packed(RSH_CONSTANT, ANSWER, 0, 0, UPPER_HALF), origin)]


def low_half(number: int) -> int:
    """The low 32 bits, with sign, as an instruction has them."""
    return (number + (1 << 31)) % (1 << 32) - (1 << 31)
