"""bpf_redirect to the device that the packet came from, whose answer a program returns: as XDP_TX does, it sends the packet back."""
from __future__ import annotations

from typing import TYPE_CHECKING, Iterator

from .absent import DROPPED, REDIRECT
from .lines import CALL, following_in, reads, writes

if TYPE_CHECKING:
    from .lines import Line

CONTEXT, DEVICE, ZERO = "context", "device", "0"  # what registers surely hold
MOV_64, MOV_CONSTANTS, LOAD_WORD = 0xBF, (0xB7, 0xB4), 0x61
DEVICE_FIELD, ANSWER = 12, 0  # of the context, and the register of a call's answer
WANTED = {1: DEVICE, 2: ZERO}  # by a redirect's arguments
Held = dict[int, str]  # by register


def sent_back(lines: list[Line]) -> Iterator[Line]:
    """The redirects of a program's first function that do what XDP_TX does."""
    redirects = [line for line in lines if (line.opcode, line.source, line.immediate) == (CALL, 0, REDIRECT) and line.row is None]
    held = held_in(lines) if redirects else {}
    for line in redirects:
        if WANTED.items() <= held.get(line, {}).items() and is_returned(lines, line):
            yield line


def held_in(lines: list[Line]) -> dict[Line, Held]:
    """What registers surely hold in front of each line that can be reached."""
    following, held, todo = following_in(lines), {lines[0]: {1: CONTEXT}}, [lines[0]]
    while todo:
        line = todo.pop()
        behind = held_behind(line, held[line])
        for after in following[line]:
            both = dict(behind.items() & held.get(after, behind).items())
            if held.get(after) != both:
                held[after] = both
                todo.append(after)
    return held


def held_behind(line: Line, held: Held) -> Held:
    """The same behind a line."""
    behind = {register: what for register, what in held.items() if not writes(line, register)}
    what = held.get(line.source)
    if line.opcode == MOV_64 and not line.offset and what is not None:
        behind[line.destination] = what
    elif line.opcode == LOAD_WORD and what == CONTEXT and line.offset == DEVICE_FIELD:
        behind[line.destination] = DEVICE
    elif line.opcode in MOV_CONSTANTS and line.immediate == 0:
        behind[line.destination] = ZERO
    return behind


def is_returned(lines: list[Line], call: Line) -> bool:
    """Whether nothing is made of a call's answer but that the function returns it, or in its place a constant that is another action:
    to return XDP_REDIRECT itself sends the packet too."""
    following, seen = following_in(lines), set()
    todo = list(following[call])
    while todo:
        line = todo.pop()
        if line in seen:
            continue
        seen.add(line)
        if reads(line, ANSWER) or writes(line, ANSWER) and not is_other_action(line):
            return False
        todo += [] if writes(line, ANSWER) else following[line]
    return True


def is_other_action(line: Line) -> bool:
    """Whether a line gives a register a constant that isn't XDP_REDIRECT."""
    return line.opcode in MOV_CONSTANTS and line.immediate != DROPPED
