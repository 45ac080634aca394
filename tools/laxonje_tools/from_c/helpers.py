"""Instructions that do what a helper does: copies, an MTU that is compared, a value of an array, and redirects to devices that there aren't."""
from __future__ import annotations

from typing import Optional

from .absent import ABORTED, ACTION, ALL_DEVICES, DROPPED
from .lines import CALL, JUMP, MOV_CONSTANT, STACK_BYTES, Fault, Line, put_all
from .own_device import DEVICE_FIELD

FRAME = 10
MOV_64, MOV_32, ADD_CONSTANT, ADD, SUB, XOR_CONSTANT, AND, AND_CONSTANT, LSH_CONSTANT, ARSH_CONSTANT = (
    0xBF, 0xBC, 0x07, 0x0F, 0x1F, 0xA7, 0x5F, 0x57, 0x67, 0xC7,
)  # fmt: skip
LOAD_BYTE, LOAD_HALF, LOAD_WORD, LOAD_DOUBLE = 0x71, 0x69, 0x61, 0x79
STORE_BYTE, STORE_HALF, STORE_WORD, STORE_DOUBLE = 0x73, 0x6B, 0x63, 0x7B
DOUBLE = 8  # bytes
COPIES = {1: (LOAD_BYTE, STORE_BYTE), 2: (LOAD_HALF, STORE_HALF), 4: (LOAD_WORD, STORE_WORD), 8: (LOAD_DOUBLE, STORE_DOUBLE)}  # by size
IF_ABOVE, IF_ABOVE_CONSTANT, IF_NOT_CONSTANT, IF_EQUAL, IF_EQUAL_CONSTANT, IF_AT_MOST_SIGNED = 0x2D, 0x25, 0x55, 0x1D, 0x15, 0xD5
IF_AT_LEAST, IF_AT_LEAST_CONSTANT = 0x3D, 0x35
LOOKUP, TOO_BIG = 1, -7  # the latter is E2BIG
TOO_FAR, TOO_LONG, MOST_OFFSET = -14, -22, 0xFFFF  # of Linux: EFAULT, EINVAL, and the offset from which on it is the former
NO_FLAGS, NO_DEVICE, TOO_LARGE, HEADER_BYTES = -22, -19, 1, 14  # of Linux: EINVAL, ENODEV, BPF_MTU_CHK_RET_FRAG_NEEDED; of Ethernet
MOST_COPIED = 128  # bytes
START_FIELD, END_FIELD = 0, 4  # of the context
PLACED = [  # what leaves the place of bytes of a packet in registers 1 and 2, and its end in 5, or an answer in 0
    (MOV_32, 2, 2),
    (MOV_CONSTANT, 0, 0, 0, TOO_FAR),
    (IF_ABOVE_CONSTANT, 2, 0, 0, MOST_OFFSET),
    (MOV_CONSTANT, 0, 0, 0, TOO_LONG),
    (LOAD_WORD, 5, 1, END_FIELD),
    (LOAD_WORD, 1, 1, START_FIELD),
    (ADD, 1, 2),
    (MOV_64, 2, 1),
]


def words_of(place: Optional[int], size: int) -> set[int]:
    """The words of the stack that have bytes of a buffer there."""
    return set() if place is None else {at // DOUBLE * DOUBLE for at in range(place, place + size)}


def copied(line: Line, size: Optional[int], is_store: bool, place: Optional[int] = None) -> list[Line]:
    """bpf_xdp_load_bytes and bpf_xdp_store_bytes: (context, offset, buffer, size). `place`: of the buffer on the stack, None if it isn't
    known there."""
    if size is None and place is not None:
        return copied_in_loop(line, is_store, -place)
    if size is None or not 0 < size <= MOST_COPIED:
        name = "bpf_xdp_store_bytes" if is_store else "bpf_xdp_load_bytes"
        raise Fault(
            f"calls {name} of a size that is no constant of 1 to {MOST_COPIED}, and not with a buffer on the stack: use a constant, or compare and"
            " read through data"
        )
    rows = [*PLACED, (ADD_CONSTANT, 2, 0, 0, size), (IF_ABOVE, 2, 5)]
    to, source = (1, 3) if is_store else (3, 1)
    for at in range(size):
        rows += [(LOAD_BYTE, 0, source, at), (STORE_BYTE, to, 0, at)]
    out = put_all(line, [*rows, (MOV_CONSTANT, 0), (JUMP,)])
    for row in out[2], out[9]:
        row.target = out[-1]
    return out


def copied_in_loop(line: Line, is_store: bool, most: int) -> list[Line]:
    """The same of as many bytes as a register says: a loop of at most so many steps, since Linux lets no program reach past the stack's end;
    if these are many, what bounds the size bounds the steps. Each byte is compared with the packet's end too."""
    to, source = (1, 3) if is_store else (3, 1)
    begin = [*PLACED, (ADD, 2, 4), (IF_ABOVE, 2, 5), (MOV_CONSTANT, 2)]
    bound = [(IF_AT_LEAST_CONSTANT, 2, 0, 0, most)] if most <= MOST_COPIED else []
    copy = [(MOV_64, 0, 1), (ADD_CONSTANT, 0, 0, 0, 1), (IF_ABOVE, 0, 5), (LOAD_BYTE, 0, source), (STORE_BYTE, to, 0)]
    head = [(IF_AT_LEAST, 2, 4), *bound, *copy]
    step = [(ADD_CONSTANT, register, 0, 0, 1) for register in (1, 3, 2)]
    out = put_all(line, [*begin, *head, *step, (JUMP,), (MOV_CONSTANT, 0, 0, 0, TOO_LONG), (JUMP,), (MOV_CONSTANT,), (JUMP,)])
    first, too_long = len(begin), len(begin) + len(head) + len(step) + 1
    beyond = [9, *range(first + 1, first + 1 + len(bound)), first + 3 + len(bound)]
    targets = (2, -1), (first, too_long + 2), (too_long - 1, first), (too_long + 1, -1), *((at, too_long) for at in beyond)
    for at, other in targets:
        out[at].target = out[other]
    return out


def compared_with_mtu(line: Line, mtu: int) -> list[Line]:
    """bpf_check_mtu: (context, device, address of a length of 32 bits, what is added to it, flags). A length of 0 is the packet's,
    another one has no link header. The MTU is left in its place."""
    rows = [
        (MOV_CONSTANT, 0, 0, 0, NO_FLAGS),
        (IF_NOT_CONSTANT, 5),
        (MOV_32, 2, 2),
        (IF_EQUAL_CONSTANT, 2),
        (LOAD_WORD, 0, 1, DEVICE_FIELD),
        (IF_EQUAL, 2, 0),
        (MOV_CONSTANT, 0, 0, 0, NO_DEVICE),
        (JUMP,),
        (LOAD_WORD, 2, 3),  # of its own device
        (IF_NOT_CONSTANT, 2),
        (LOAD_WORD, 2, 1, END_FIELD),
        (LOAD_WORD, 0, 1, START_FIELD),
        (SUB, 2, 0),
        (JUMP,),
        (ADD_CONSTANT, 2, 0, 0, HEADER_BYTES),  # of a length that was given
        (ADD, 2, 4),
        (LSH_CONSTANT, 2, 0, 0, 32),
        (ARSH_CONSTANT, 2, 0, 0, 32),
        (MOV_CONSTANT, 0, 0, 0, mtu),
        (STORE_WORD, 3, 0),
        (MOV_CONSTANT,),
        (IF_AT_MOST_SIGNED, 2, 0, 0, mtu + HEADER_BYTES),
        (MOV_CONSTANT, 0, 0, 0, TOO_LARGE),
        (JUMP,),
    ]
    out = put_all(line, rows)
    for at, to in (1, -1), (3, 8), (5, 8), (7, -1), (9, 14), (13, 15), (21, -1):
        out[at].target = out[to]
    return out


def updated(line: Line, parts: list[tuple[int, int]], above: int) -> list[Line]:
    """bpf_map_update_elem: (an array, key, value, flags). The value's address is kept below what is in use of the stack.
    `parts`: the numbers of a value, as (place, size)."""
    place = -(above + DOUBLE)
    if -place > STACK_BYTES:
        raise Fault(f"calls bpf_map_update_elem with more than {STACK_BYTES - DOUBLE} bytes of the stack in use")
    rows = [(STORE_DOUBLE, FRAME, 3, place), (CALL, 0, 0, 0, LOOKUP), (MOV_64, 1, 0), (MOV_CONSTANT, 0, 0, 0, TOO_BIG)]
    rows += [(IF_NOT_CONSTANT, 1, 0, 1), (JUMP,), (LOAD_DOUBLE, 3, FRAME, place)]
    for at, size in parts:
        load, store = COPIES[size]
        rows += [(load, 2, 3, at), (store, 1, 2, at)]
    out = put_all(line, [*rows, (MOV_CONSTANT,), (JUMP,)])
    out[4].target, out[5].target = out[6], out[-1]
    return out


def redirected(line: Line) -> list[Line]:
    """bpf_redirect: (device, flags), to a device that there isn't, with flags that are no constant."""
    out = put_all(line, [(MOV_CONSTANT, 0, 0, 0, ABORTED), (IF_NOT_CONSTANT, 2), (MOV_CONSTANT, 0, 0, 0, DROPPED), (JUMP,)])
    out[1].target = out[-1]
    return out


def action_in_flags(line: Line) -> list[Line]:
    """bpf_redirect_map: (the flags that the map knows, key, flags), while there is nothing in the map."""
    rows = [(MOV_CONSTANT, 0, 0, 0, ABORTED), (XOR_CONSTANT, 1, 0, 0, -1), (AND, 1, 3), (IF_NOT_CONSTANT, 1)]
    rows += [(MOV_CONSTANT, 0, 0, 0, DROPPED), (MOV_64, 2, 3), (AND_CONSTANT, 2, 0, 0, ALL_DEVICES), (IF_NOT_CONSTANT, 2)]
    out = put_all(line, [*rows, (MOV_64, 0, 3), (AND_CONSTANT, 0, 0, 0, ACTION), (JUMP,)])
    for row in out[3], out[7]:
        row.target = out[-1]
    return out
