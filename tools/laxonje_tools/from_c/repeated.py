"""bpf_loop, and bpf_for_each_map_elem of an array: a function that is called again and again, until it says that it is enough, or as
often as a number says.

The number of the call, and what is handed on to the function, are kept below what is in use of the stack."""
from __future__ import annotations

from functools import partial
from typing import TYPE_CHECKING, AbstractSet, Callable, Optional

from .elf import MAP_ADDRESS, SLOT_BYTES, Relocation
from .lines import (
    CALL, JUMP, MOV_CONSTANT, MOV_CONSTANT_32, SAVED, STACK_BYTES, WIDE, Fault, Line, following_in, packed, reads, writes,
)  # fmt: skip

if TYPE_CHECKING:
    from .calls import Inlined

LOOP, EACH, LOOKUP = 181, 164, 1
NAMES = {LOOP: "bpf_loop", EACH: "bpf_for_each_map_elem"}
NAME = NAMES[LOOP]
MOST_TIMES, TOO_MANY = 1 << 23, -7  # of Linux: BPF_MAX_LOOPS, and E2BIG
FRAME, DOUBLE = 10, 8
MOV_64, ADD_CONSTANT, AND_REGISTER = 0xBF, 0x07, 0x5F
STORE_DOUBLE, LOAD_DOUBLE = 0x7B, 0x79
IF_AT_LEAST, IF_AT_LEAST_CONSTANT, IF_EQUAL_CONSTANT, IF_ABOVE_CONSTANT = 0x3D, 0x35, 0x15, 0x25
KEPT = 3  # numbers on the stack: which call it is, what is handed on, and how many there are at most


def check_flags(name: str, flags: Optional[int]) -> None:
    if flags != 0:
        raise Fault(f"calls {name} with flags that aren't 0: there are none")


def lines_for(line: Line, *rows: tuple) -> list[Line]:
    return [Line(packed(*fields), line.origin) for fields in rows]


def above_with(above: int, kept: int, name: str) -> int:
    """How much of the stack is in use with so many numbers more."""
    if above + DOUBLE * kept > STACK_BYTES:
        raise Fault(f"calls {name} with more than {STACK_BYTES - DOUBLE * kept} bytes of the stack in use")
    return above + DOUBLE * kept


def repeated(line: Line, times: Optional[int], above: int, call: Callable[[Line, int], Inlined]) -> tuple[list[Line], int]:
    """The lines in the place of one: (times, function, what is handed on, flags), and how much of the stack is used in all. `times`: if
    that is a constant; `above`: how much of the stack is in use; `call`: the function in the place of a line, with this much in use."""
    used = above_with(above, KEPT, NAME)
    which, handed, most = (-(above + DOUBLE * place) for place in range(1, KEPT + 1))
    lines = partial(lines_for, line)
    of_32_bits = (MOV_CONSTANT_32, 2, 0, 0, -1), (AND_REGISTER, 1, 2)  # what is compared in front of them bounds the number behind them too
    count = lines(*of_32_bits, (STORE_DOUBLE, FRAME, 1, most), (MOV_CONSTANT, 0, 0, 0, TOO_MANY), (IF_ABOVE_CONSTANT, 1, 0, 0, MOST_TIMES))
    begin = lines((STORE_DOUBLE, FRAME, 3, handed), (MOV_CONSTANT,), (STORE_DOUBLE, FRAME, 0, which))
    head = lines((LOAD_DOUBLE, 1, FRAME, which), (LOAD_DOUBLE, 2, FRAME, most), (IF_AT_LEAST, 1, 2))
    if times is not None:
        count, head[1:] = [], lines((IF_AT_LEAST_CONSTANT, 1, 0, 0, times))
    (handing, called) = lines((LOAD_DOUBLE, 2, FRAME, handed), (CALL,))
    step = lines((LOAD_DOUBLE, 1, FRAME, which), (ADD_CONSTANT, 1, 0, 0, 1), (STORE_DOUBLE, FRAME, 1, which), (IF_EQUAL_CONSTANT,))
    (answer, end) = lines((LOAD_DOUBLE, 0, FRAME, which), (JUMP,))
    if count:
        count[-1].target = end
    head[-1].target, step[-1].target = answer, head[0]
    line.put(JUMP)  # jumps to the call stay right
    inner = call(called, used)
    around = [line, *count, *begin, *head, handing]
    return [*around, *with_last(inner.lines, step, answer), answer, end], inner.used


def with_last(inner: list[Line], step: list[Line], answer: Line) -> list[Line]:
    """A function's lines, and those that lead to the next call; behind them are lines of their own for its ways out on which it says that it
    is enough, so that these are in no loop. `answer`: what comes behind the last call."""
    outs, last = {line for line in inner if line.target is inner[-1]}, [Line(row.raw, row.origin) for row in step[:-1]]
    before, enough, more = ways_in(inner), with_answer(inner, True), with_answer(inner, False)
    left, behind = [], {}
    for line in (line for out in outs for line in before[out]):
        if line not in enough:
            left.append(line)
        elif line.target in outs:
            line.target = last[0]
        else:
            behind[line] = Line(packed(JUMP), line.origin, target=last[0])
    if len(left) == sum(len(before[out]) for out in outs):
        return [*inner, *step]
    lines = [row for line in inner for row in (line, behind.get(line)) if row is not None]
    if not more.issuperset(left):
        return [*lines, *step, Line(packed(JUMP), answer.origin, target=answer), *last]
    step[-1].raw = packed(JUMP)
    without_answers(lines)
    return [*lines, *step, *last]


def without_answers(lines: list[Line]) -> None:
    """Makes jumps to the next line of those that give an answer which nobody reads."""
    following, read = following_in(lines), {line for line in lines if reads(line, 0)}
    needed, before, todo = set(), ways_in(lines), list(read)
    while todo:
        line = todo.pop()
        fresh = [row for row in before[line] if row not in needed]  # behind which it is read
        needed.update(fresh)
        todo += [row for row in fresh if row not in read and not writes(row, 0)]
    for line in lines:
        if line.opcode in (MOV_CONSTANT, MOV_CONSTANT_32) and not line.destination and line not in needed and following[line]:
            line.put(JUMP)


def ways_in(lines: list[Line]) -> dict[Line, list[Line]]:
    """Of each line those in front of it."""
    before = {line: [] for line in lines}
    for line, following in following_in(lines).items():
        for after in [row for row in following if row in before]:
            before[after].append(line)
    return before


def with_answer(lines: list[Line], is_enough: bool) -> set[Line]:
    """The lines behind which the answer is surely a constant: one that isn't 0, or 0."""
    following, before = following_in(lines), ways_in(lines)
    found, todo = set(lines), list(lines)
    while todo:
        line = todo.pop()
        is_constant = line.opcode in (MOV_CONSTANT, MOV_CONSTANT_32) and bool(line.immediate) == is_enough
        if line in found and not (is_constant if writes(line, 0) else bool(before[line]) and found.issuperset(before[line])):
            found.remove(line)
            todo += following[line]
    return found


def with_kept(inner: Inlined, needed: AbstractSet[int]) -> Inlined:
    """The same with registers that are needed behind it and that it changes kept on the stack meanwhile."""
    kept = [register for register in SAVED if register in needed and any(writes(row, register) for row in inner.lines)]
    used = above_with(inner.used, len(kept), "a function again and again")
    first, *rest = inner.lines
    places = [(register, -(used - DOUBLE * number)) for number, register in enumerate(kept)]
    begin = lines_for(first, *((STORE_DOUBLE, FRAME, register, place) for register, place in places))
    back = lines_for(first, *((LOAD_DOUBLE, register, FRAME, place) for register, place in places))
    return inner._replace(lines=[first, *begin, *rest, *back], used=used)


def for_each(line: Line, of_map: str, entries: int, above: int, call: Callable[[Line, int], Inlined]) -> tuple[list[Line], int]:
    """The same of (map, function, what is handed on, flags): the function has the map, the address of a key, that of its value, and what
    is handed on. `entries`: of the map, which is an array."""
    used, lines = above_with(above, KEPT - 1, NAMES[EACH]), partial(lines_for, line)
    which, handed = (-(above + DOUBLE * place) for place in range(1, KEPT))

    def address() -> Line:
        return Line(packed(WIDE, 1) + bytes(SLOT_BYTES), line.origin, Relocation(0, MAP_ADDRESS, of_map, 0))

    begin = lines((STORE_DOUBLE, FRAME, 3, handed), (MOV_CONSTANT,), (STORE_DOUBLE, FRAME, 0, which))
    key = (MOV_64, 2, FRAME), (ADD_CONSTANT, 2, 0, 0, which)
    head = lines((LOAD_DOUBLE, 1, FRAME, which), (IF_AT_LEAST_CONSTANT, 1, 0, 0, entries), *key)
    found = lines((CALL, 0, 0, 0, LOOKUP), (IF_EQUAL_CONSTANT,), (MOV_64, 3, 0), *key)
    (handing, called) = lines((LOAD_DOUBLE, 4, FRAME, handed), (CALL,))
    step = lines((LOAD_DOUBLE, 1, FRAME, which), (ADD_CONSTANT, 1, 0, 0, 1), (STORE_DOUBLE, FRAME, 1, which), (IF_EQUAL_CONSTANT,))
    (answer, end) = lines((LOAD_DOUBLE, 0, FRAME, which), (JUMP,))
    head[1].target, found[1].target, step[-1].target = answer, answer, head[0]
    line.put(JUMP)  # jumps to the call stay right
    inner = call(called, used)
    given = [*head, address(), *found, address(), handing]
    return [line, *begin, *given, *inner.lines, *step, answer, end], inner.used
