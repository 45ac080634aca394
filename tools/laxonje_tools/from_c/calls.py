"""Calls that have an honest answer: functions of the file, which are written where they are called, and helpers in the place
of which stand the instructions that do the same, or the answer of what isn't here (`absent`).

It is done before anything is compared. A function's frame lies below that of its caller, and registers that the caller
still reads are kept there. Of a helper that copies or sums the size has to be a constant."""
from __future__ import annotations

import struct
from functools import partial
from typing import TYPE_CHECKING, AbstractSet, Callable, Iterator, NamedTuple, Optional

from .absent import DEVICES, LOCKS, REDIRECT, REDIRECT_MAP, SENT_BACK
from .calls_apart import with_calls_apart
from .elf import SLOT_BYTES
from .frames import below_frames, check_frames, frame_of, move_frame, named_by
from .helpers import END_FIELD, START_FIELD, action_in_flags, compared_with_mtu, copied, redirected, updated, words_of
from .lines import (
    CALL, EXIT, JUMP, MOV_CONSTANT, SAVED, STACK_BYTES, Fault, Line, constant_in, lines_of, map_in, packed, put_all, read_later, set_in,
    stack_place_in, writes, written,
)  # fmt: skip
from .many import Many, many_of
from .many import looked_up as looked_up_in_many
from .one_queue import HOSTS, ONE_QUEUE
from .own_device import sent_back
from .queues import HELPERS as OF_QUEUES
from .queues import PUSH, QUEUES, Queue, moved
from .repeated import EACH, LOOP, NAMES, check_flags, for_each, repeated, with_kept
from .sequences import answered, sequence_of
from .stale import check_rows
from .sums import summed_of
from .tables import HASHES, LOOKUP, OF_ROWS, Writing, changes_rows, parts_stored, table_of, with_row

if TYPE_CHECKING:
    from collections.abc import Mapping

    from .absent import Absent
    from .btf import MapOfC
    from .elf import Function
    from .tables import Table

LOCAL, FRAME, MOST_DEPTH, MOST_SLOTS = 1, 10, 8, 4096
SUB, LOAD_WORD, LOAD_DOUBLE, STORE_DOUBLE, STORE_DOUBLE_CONSTANT = 0x1F, 0x61, 0x79, 0x7B, 0x7A
UPDATE, ANY, THERE = 2, 0, 2  # the latter two are flags: BPF_ANY, BPF_EXIST
LOCK, UNLOCK, PRINTK, CPU, CSUM_DIFF, CHECK_MTU, VPRINTK, BUFF_LEN, LOAD_BYTES, STORE_BYTES = 93, 94, 6, 8, 28, 163, 177, 188, 189, 190
WITHOUT_LOCK = "the lock is left out: while another queue judges too, what it guards isn't done in one step"
ONE_AT_A_TIME = f"the lock is left out: {HOSTS}"
TO_ITS_DEVICE = "bpf_redirect to the device that the packet came from gives XDP_TX"
OF_ODD_SIZES = "bpf_csum_diff of a size that is no multiple of 4 gives -EINVAL, as in Linux before 6.13"
OF_ITS_DEVICE = "bpf_check_mtu answers for the packet's own device, with an MTU of {}; any other device isn't there (-ENODEV)"


class Replaced(NamedTuple):
    """A function without such calls. `origins`: of each slot the one of the function as it was. `notes`: (slot, words). `maps`: the
    names of those that were added, each of one counter. `stack`: how many bytes of it are used, None if that isn't shown. `tables`:
    the hash maps that are tables, by their names; `many`: the arrays whose values lie in several maps; `queues`: queues and stacks."""

    code: bytes
    relocations: list
    origins: list
    notes: list
    maps: list
    stack: Optional[int]
    tables: Mapping[str, Table] = {}
    many: Mapping[str, Many] = {}
    queues: Mapping[str, Queue] = {}


class Inlined(NamedTuple):
    """A function's lines without calls, and how much of the stack is used in all."""

    lines: list[Line]
    used: int


class Array(NamedTuple):
    """An array, or a hash map: the numbers of a value, as (place, size), how many values there are, and how it is declared."""

    parts: list[tuple[int, int]]
    entries: int
    declared: MapOfC

    @property
    def is_hash(self) -> bool:
        return self.declared.type in HASHES


class Calls:
    """The functions of a file, and of a call the one that it leads to. `absent`: what is left out. `maps`: arrays and hash maps by their
    names. `frames`: by name how much of the stack a function uses, None of an object file. `mtu`:
    that of the device that packets come from, None if it isn't said; `clock`: the nanoseconds between two calls for the time, None if the
    host writes it. `in_rows`: whether a value of a table that has more than one counter is several rows."""

    def __init__(
        self,
        functions: list[Function],
        relocations: Callable,
        absent: Absent,
        maps: Mapping[str, Array],
        frames: Optional[Mapping[str, int]],
        mtu: Optional[int] = None,
        clock: Optional[int] = None,
        in_rows: bool = False,
    ) -> None:
        self.functions, self.relocations, self.absent, self.frames = functions, relocations, absent, frames
        self.queues = {name: Queue(row.declared, row.parts) for name, row in maps.items() if row.declared.type in QUEUES}
        self.arrays = {name: row for name, row in maps.items() if not row.is_hash and name not in self.queues}
        self.hashes, self.tables = {name: row for name, row in maps.items() if row.is_hash}, {}
        found = {name: many_of(row.declared) for name, row in self.arrays.items()}
        self.many = {name: row for name, row in found.items() if row is not None}
        self.looked_up, self.changed = {}, {}  # by the last line in the place of a call the table
        self.mtu, self.clock, self.in_rows, self.notes, self.sent_back, self.maps = mtu, clock, in_rows, [], set(), {}
        self.blank = set()  # words of the stack that a call may leave as they are, and that clang may load before it looks at the answer

    def replaced(self, function: Function) -> Replaced:
        self.tables = {name: table_of(self.hashes[name].declared, self.in_rows) for name in sorted(self.filled_by(function))}
        own, (lines, used) = self.frame(function), self.inlined(function, 0, 0)
        is_shown = self.frames is not None or below_frames(lines) is None
        if not is_shown and used > own:
            check_frames(lines)
        check_rows(lines, self.looked_up, self.changed)
        for line in lines:
            if line.row is not None and self.absent.has(line.row.name):
                line.put(MOV_CONSTANT, line.destination, 0, 0, self.absent.flags_of(line.row.name))
        lines = [*(Line(packed(STORE_DOUBLE_CONSTANT, FRAME, 0, at), 0) for at in sorted(self.blank)), *lines]
        return Replaced(*written(lines), sorted(set(self.notes)), list(self.maps), used if is_shown else None, self.tables, self.many, self.queues)

    def filled_by(self, function: Function) -> set[str]:
        """The hash maps to which a function adds rows, or those that it calls."""
        found, seen, todo = set(), set(), [function]
        while todo:
            here = todo.pop()
            if (here.section, here.place) in seen:
                continue
            seen.add((here.section, here.place))
            lines = self.lines_in(here)
            for line in lines:
                is_update = (line.opcode, line.source, line.immediate) == (CALL, 0, UPDATE) and line.row is None
                found |= {map_in(lines, line, 1)} & self.hashes.keys() if is_update else set()
                place = (line.row.section, line.row.place) if line.row is not None else None
                todo += [other for other in (self.called(here, line), self.function_at(place)) if other is not None]
        return found

    def lines_in(self, function: Function) -> list[Line]:
        """A function's lines, with calls of which each has one map, and one constant, where it needs them."""
        return with_calls_apart(lines_of(function.code, list(self.relocations(function))), self.is_known)

    def is_known(self, lines: list[Line], call: Line) -> bool:
        """Whether the lines in front of a call say what it needs."""
        needs_map = call.immediate in OF_ROWS and (self.tables or self.many or call.immediate != LOOKUP)
        needs_map = needs_map or call.immediate in OF_QUEUES
        needs_constant = call.immediate in (UPDATE, LOAD_BYTES, STORE_BYTES)
        return (not needs_map or map_in(lines, call, 1) is not None) and (not needs_constant or constant_in(lines, call, 4) is not None)

    def function_at(self, place: Optional[tuple[str, int]]) -> Optional[Function]:
        """The function that stands there, as (section, place); None if there is none."""
        return next((other for other in self.functions if (other.section, other.place) == place), None)

    def frame(self, function: Function) -> int:
        """How many bytes of the stack a function uses by itself."""
        return frame_of(lines_of(function.code, []), function.name, self.frames or {})

    def inlined(self, function: Function, depth: int, above: int, origin: Optional[int] = None) -> Inlined:
        """A function's lines without calls. `depth`: how many calls lead to it; `above`: the stack that they use."""
        lines = self.lines_in(function)
        used, needed = above + self.frame(function), read_later(lines)
        deepest = [used]
        if depth:
            move_frame(lines, above)
        else:
            self.sent_back = set(sent_back(lines))
        out = []
        for line in lines:
            line.origin, line.bottom = line.origin if origin is None else origin, -used
            try:
                called, again = self.called(function, line), self.repeats(line, lines)
                if called is not None:
                    inner = self.call(line, called, depth, used, needed[line])
                elif again is not None:
                    inner = with_kept(self.again(line, lines, used, partial(self.call, function=again, depth=depth, needed=frozenset())), needed[line])
                else:
                    inner = Inlined(self.helped(line, lines, used), used)
                out += inner.lines
                deepest.append(inner.used)
            except Fault as fault:
                fault.slot = line.origin
                raise
        if len(out) > MOST_SLOTS:
            raise Fault(f"calls functions so often that it would have more than {MOST_SLOTS} slots")
        return Inlined(out, max(*deepest, named_by(out)))

    def called(self, function: Function, line: Line) -> Optional[Function]:
        """The function of the file that a line of another one calls; None if it calls none."""
        if line.opcode != CALL or line.source != LOCAL:
            return None
        if line.row is None:  # from the same section, by the distance
            section, place = function.section, function.place + SLOT_BYTES * (line.slot + line.immediate + 1)
        else:
            section, place = line.row.section, line.row.place + SLOT_BYTES * (line.immediate + 1)
        return self.function_at((section, place))

    def again(self, line: Line, lines: list[Line], used: int, call: Callable) -> Inlined:
        """The lines in the place of a call that calls a function again and again."""

        def called(row: Line, above: int) -> Inlined:
            return call(row, above=above)

        if line.immediate == LOOP:
            return Inlined(*repeated(line, constant_in(lines, line, 1), used, called))
        name = map_in(lines, line, 1)
        if name not in self.arrays:
            raise Fault(f"calls {NAMES[EACH]} of a map that is no array: count the loop by a constant, in C")
        return Inlined(*for_each(line, name, self.arrays[name].entries, used, called))

    def repeats(self, line: Line, lines: list[Line]) -> Optional[Function]:
        """The function that bpf_loop, or bpf_for_each_map_elem, calls at a line, whose address is no more needed then; None if it
        is no such call."""
        if (line.opcode, line.source) != (CALL, 0) or line.immediate not in NAMES or line.row is not None:
            return None
        address = set_in(lines, line, 2)
        place = (address.row.section, address.row.place) if address is not None and address.row is not None else None
        found = self.function_at(place)
        if found is None:
            raise Fault(f"calls {NAMES[line.immediate]} of a function that the lines in front of it don't say")
        check_flags(NAMES[line.immediate], constant_in(lines, line, 4))
        address.put(MOV_CONSTANT, 2)
        return found

    def call(self, line: Line, function: Function, depth: int, above: int, needed: AbstractSet[int]) -> Inlined:
        """A function in the place of its call. `needed`: the registers that its caller reads later."""
        if depth == MOST_DEPTH:
            raise Fault(f"calls functions more than {MOST_DEPTH} deep")
        inner, used = self.inlined(function, depth + 1, above, line.origin)
        kept = [register for register in SAVED if register in needed and any(writes(row, register) for row in inner)]
        places = {register: -(used + 8 * (number + 1)) for number, register in enumerate(kept)}
        whole = used + 8 * len(kept)
        if whole > STACK_BYTES:
            raise Fault(f"calls functions that would need more than {STACK_BYTES} bytes of the stack")
        end = Line(packed(JUMP), line.origin)  # where each way out leads: a jump to the line below
        out = []
        for row in inner:
            out.append(row)
            if row.opcode == EXIT:
                back = [Line(packed(LOAD_DOUBLE, register, FRAME, at), line.origin) for register, at in places.items()]
                leave = Line(packed(JUMP), line.origin, target=end)
                first, *rest = [*back, leave]
                row.raw, row.target = first.raw, first.target
                out += rest
        begin = [Line(packed(STORE_DOUBLE, FRAME, register, at), line.origin) for register, at in places.items()]
        line.put(JUMP)  # jumps to the call stay right
        return Inlined([line, *begin, *out, end], whole)

    # --- helpers

    def helped(self, line: Line, lines: list[Line], above: int) -> list[Line]:
        """The lines in the place of one: itself, or what a helper does. `above`: how much of the stack is in use."""
        if line.opcode != CALL or line.source or line.row is not None:
            return [line]
        number = line.immediate
        if number == CPU:
            self.notes.append((line.origin, "bpf_get_smp_processor_id gives 0 here, as Linux may"))
            return put_all(line, [(MOV_CONSTANT, 0)])
        sequence = sequence_of(number, self.clock)
        if sequence is not None:
            self.notes += [] if any(sequence.note == words for _, words in self.notes) else [(line.origin, sequence.note)]
            self.maps[sequence.map] = None
            return answered(line, sequence, above)
        constant, named = (partial(of, lines, line) for of in (constant_in, map_in))
        if number in OF_ROWS and self.tables and (named(1) is None or named(1) in self.tables):
            return self.of_table(line, named(1), constant(4), above)
        if number in OF_QUEUES and named(1) in self.queues:
            return self.of_queue(line, self.queues[named(1)], constant(3) if number == PUSH else None, above)
        if number in (LOOKUP, UPDATE) and self.many and (named(1) is None or named(1) in self.many):
            return self.of_many(line, named(1), above)
        answer = (SENT_BACK, TO_ITS_DEVICE) if line in self.sent_back else self.absent.answer(number, constant, named)
        if answer is not None:
            self.notes.append((line.origin, answer[1]))
            return put_all(line, [(MOV_CONSTANT, 0, 0, 0, answer[0])])
        if number == REDIRECT and DEVICES in self.absent.left_out:
            self.notes.append((line.origin, "bpf_redirect drops the packet, as in Linux if there is no such device"))
            return redirected(line)
        if number == REDIRECT_MAP and DEVICES in self.absent.left_out:
            self.notes.append((line.origin, "bpf_redirect_map gives the action in its flags, as in Linux while the map is empty"))
            return action_in_flags(line)
        if number in (LOCK, UNLOCK):
            is_alone = LOCKS in self.absent.left_out
            self.maps.update({} if is_alone else {ONE_QUEUE: None})
            self.notes.append((line.origin, WITHOUT_LOCK if is_alone else ONE_AT_A_TIME))
            return put_all(line, [(MOV_CONSTANT, 0)])
        if number in (PRINTK, VPRINTK):
            self.notes.append((line.origin, "what it prints is left out, and the answer is 0"))
            return put_all(line, [(MOV_CONSTANT, 0)])
        if number == CHECK_MTU and self.mtu is not None:
            self.notes.append((line.origin, OF_ITS_DEVICE.format(self.mtu)))
            return compared_with_mtu(line, self.mtu)
        if number == BUFF_LEN:
            return put_all(line, [(LOAD_WORD, 0, 1, END_FIELD), (LOAD_WORD, 1, 1, START_FIELD), (SUB, 0, 1)])
        if number in (LOAD_BYTES, STORE_BYTES):
            size = constant(4)
            place = stack_place_in(lines, line, 3)
            self.blank |= words_of(place, -(place or 0) if size is None else size) if number == LOAD_BYTES else set()
            return copied(line, size, number == STORE_BYTES, place)
        if number == UPDATE and map_in(lines, line, 1) in self.arrays and constant_in(lines, line, 4) in (ANY, THERE):
            return updated(line, self.arrays[map_in(lines, line, 1)].parts, above)
        if number == CSUM_DIFF:
            sizes = constant(2), constant(4)
            self.notes += [(line.origin, OF_ODD_SIZES)] if None in sizes else []
            return summed_of(line, *sizes)
        return [line]

    def of_many(self, line: Line, name: Optional[str], above: int) -> list[Line]:
        """What is in the place of a lookup in an array whose values lie in several maps."""
        if name is None:
            raise Fault(f"looks up in one map or another, and the values of {', '.join(self.many)} lie in several maps: look up in each branch")
        if line.immediate == UPDATE:
            raise Fault(f"calls bpf_map_update_elem of {name}, whose values lie in several maps: look one up, and store")
        return looked_up_in_many(line, self.many[name], above)

    def of_queue(self, line: Line, queue: Queue, flags: Optional[int], above: int) -> list[Line]:
        """What a helper does with a queue or a stack."""
        self.maps[ONE_QUEUE] = None
        self.notes += [] if any(queue.note == words for _, words in self.notes) else [(line.origin, queue.note)]
        return moved(line, line.immediate, queue, flags, above)

    def of_table(self, line: Line, name: Optional[str], flags: Optional[int], above: int) -> list[Line]:
        """What a helper does with a row of a hash map that is a table."""
        number = line.immediate
        if name is None:
            raise Fault(f"calls {OF_ROWS[number]} of one map or another, and the program adds rows to {', '.join(self.tables)}: call it in each branch")
        table, self.maps[ONE_QUEUE] = self.tables[name], None
        if number == UPDATE and not any(table.note in words for _, words in self.notes):
            self.notes.append((line.origin, table.note))
        made = with_row(Writing(line, table, above), number, flags, parts_stored(table, self.hashes[name].parts))
        self.looked_up.update({made[-1]: name} if number == LOOKUP else {})
        self.changed.update({made[-1]: name} if changes_rows(table, number, flags) else {})
        return made


def has_calls(code: bytes) -> Iterator[int]:
    """The slots of calls other than the map lookup."""
    for at in range(0, len(code), SLOT_BYTES):
        opcode, registers, _, number = struct.unpack_from("<BBhi", code, at)
        if opcode == CALL and (registers >> 4 == LOCAL or number != 1):
            yield at // SLOT_BYTES
