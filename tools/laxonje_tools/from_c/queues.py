"""Queues and stacks, as arrays: a value lies in the row of its number, and two counters say how many were pushed and how many of them are
gone.

One queue of the host at a time judges: two that push at once would take one row."""
from __future__ import annotations

from typing import TYPE_CHECKING, NamedTuple, Optional

from .faults import ARRAYS, INDEX_BYTES
from .lines import MOV_CONSTANT, Fault
from .one_queue import HOSTS
from .tables import (
    ADD_ATOMICALLY, ADD_CONSTANT, ANY, FRAME, FULL, IF_AT_LEAST_CONSTANT, IF_EQUAL_CONSTANT, IS_NONE, LOAD, LOADS, MOV_64, STORE, STORES, THERE, Writing,
)  # fmt: skip

if TYPE_CHECKING:
    from .btf import MapOfC
    from .lines import Line

QUEUE, STACK = QUEUES = 22, 23  # kinds of maps
PUSH, POP, PEEK = HELPERS = 87, 88, 89
SUB, MOD_CONSTANT, IF_EQUAL, IF_BELOW_CONSTANT = 0x1F, 0x97, 0x1D, 0xA5
STORE_CONSTANTS = {1: 0x72, 2: 0x6A, 4: 0x62, 8: 0x7A}  # by size
PUSHED, GONE = 0, 8  # where these counters lie
NOTE = "{} is an array here, which the host reads: {}"


class Queue(NamedTuple):
    """A queue or a stack as it is declared, and the numbers of a value, as (place, size)."""

    declared: MapOfC
    parts: list[tuple[int, int]]

    @property
    def is_stack(self) -> bool:
        return self.declared.type == STACK

    @property
    def count_name(self) -> str:
        """Of the map that has the counts."""
        return f"{self.declared.name}.counts"

    @property
    def maps(self) -> list[tuple[str, int, int]]:
        """That of the counts: its name, entries and counters."""
        return [(self.count_name, 1, 2)]

    def as_array(self) -> MapOfC:
        """The array that has the values."""
        return self.declared._replace(type=ARRAYS[0], key_bytes=INDEX_BYTES)

    @property
    def note(self) -> str:
        return NOTE.format(self.declared.name, HOSTS)

    @property
    def comment(self) -> str:
        """Where a host finds the values."""
        name, entries = self.declared.name, self.declared.entries
        return f"map {name}: values A to B - 1, of which V lies in row V mod {entries}: B is counter 0 of {self.count_name}, and A counter 1"


def moved(line: Line, helper: int, queue: Queue, flags: Optional[int], above: int) -> list[Line]:
    """The lines in the place of a helper's call. `flags`: of a push, None if they aren't constant; `above`: how much of the stack is in use."""
    writing = Writing(line, queue, above)
    if helper == PUSH:
        pushed(writing, queue, flags)
    else:
        taken(writing, queue, helper == PEEK)
    return writing.lines()


def pushed(writing: Writing, queue: Queue, flags: Optional[int]) -> None:
    """bpf_map_push_elem: (map, value, flags). With BPF_EXIST the oldest value makes room."""
    entries = queue.declared.entries
    if flags not in (ANY, THERE):
        raise Fault("calls bpf_map_push_elem with flags that aren't BPF_ANY or BPF_EXIST")
    writing.put((STORE, FRAME, 2, writing.value))
    writing.count()
    writing.put((LOAD, 2, 1, PUSHED), (LOAD, 3, 1, GONE), (MOV_64, 4, 2), (SUB, 4, 3))
    if flags == ANY:
        writing.jump("end", IF_AT_LEAST_CONSTANT, 4, 0, 0, entries)
    else:
        writing.jump("room", IF_BELOW_CONSTANT, 4, 0, 0, entries)
        writing.put((MOV_CONSTANT, 3, 0, 0, 1), (ADD_ATOMICALLY, 1, 3, GONE))
        writing.mark("room")
    writing.put((MOV_CONSTANT, 3, 0, 0, 1), (ADD_ATOMICALLY, 1, 3, PUSHED))
    to_row(writing, entries)
    for at, size in queue.parts:
        writing.put((LOADS[size], 2, 3, at), (STORES[size], 1, 2, at))
    writing.put((MOV_CONSTANT,))


def taken(writing: Writing, queue: Queue, stays: bool) -> None:
    """bpf_map_pop_elem and bpf_map_peek_elem: (map, value). If there is none, zeros are left. `stays`: whether the value stays."""
    writing.put(*((STORE_CONSTANTS[size], 2, 0, at) for at, size in queue.parts), (STORE, FRAME, 2, writing.value))
    writing.count()
    writing.put((LOAD, 2, 1, PUSHED), (LOAD, 3, 1, GONE), (MOV_CONSTANT, 0, 0, 0, IS_NONE))
    writing.jump("end", IF_EQUAL, 2, 3)
    writing.put((ADD_CONSTANT, 2, 0, 0, -1) if queue.is_stack else (MOV_64, 2, 3))
    if not stays:
        step, place = (-1, PUSHED) if queue.is_stack else (1, GONE)
        writing.put((MOV_CONSTANT, 3, 0, 0, step), (ADD_ATOMICALLY, 1, 3, place))
    to_row(writing, queue.declared.entries)
    for at, size in queue.parts:
        writing.put((LOADS[size], 2, 1, at), (STORES[size], 3, 2, at))
    writing.put((MOV_CONSTANT,))


def to_row(writing: Writing, entries: int) -> None:
    """Leaves the row of the number in register 2 in register 1, and the address of the value in 3."""
    writing.put((MOD_CONSTANT, 2, 0, 0, entries), (STORE, FRAME, 2, writing.index))
    writing.row()
    writing.put((MOV_64, 1, 0), (MOV_CONSTANT, 0, 0, 0, FULL))
    writing.jump("end", IF_EQUAL_CONSTANT, 1)
    writing.put((LOAD, 3, FRAME, writing.value))
