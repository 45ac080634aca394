"""bpf_csum_diff of sizes that are constants, or of one that a register bounds and 0 for the other."""
from __future__ import annotations

from typing import Optional

from .lines import JUMP, MOV_CONSTANT, Fault, Line, put_all

MOST_SUMMED, WORD, TOO_LONG = 512, 4, -22  # the first two are bytes; the last is of Linux: EINVAL
MOV_64, MOV_32, ADD_CONSTANT, ADD, XOR_CONSTANT, AND_CONSTANT, RSH_CONSTANT = 0xBF, 0xBC, 0x07, 0x0F, 0xA7, 0x57, 0x77
LOAD_WORD, IF_NOT_CONSTANT, IF_AT_LEAST = 0x61, 0x55, 0x3D
# of a sum: what is carried out of 32 bits is added to them, and out of 16; and each bit of 32 is turned over
TO_32_BITS = [(MOV_64, 2, 0), (RSH_CONSTANT, 2, 0, 0, 32), (MOV_32, 0, 0), (ADD, 0, 2)] * 2
TO_16_BITS = [(MOV_64, 2, 0), (RSH_CONSTANT, 2, 0, 0, 16), (AND_CONSTANT, 0, 0, 0, 0xFFFF), (ADD, 0, 2)] * 3
TURNED = [(XOR_CONSTANT, 0, 0, 0, -1), (MOV_32, 0, 0)]
TAKEN_OFF = [*TO_32_BITS, *TURNED]


def summed_of(line: Line, first: Optional[int], second: Optional[int]) -> list[Line]:
    """bpf_csum_diff of constant sizes, or of one side alone that a register bounds."""
    if (first, second) == (0, None):
        return summed_in_loop(line, 3, 4, False)
    if (first, second) == (None, 0):
        return summed_in_loop(line, 1, 2, True)
    return summed(line, first, second)


def summed_in_loop(line: Line, address: int, size: int, is_taken_off: bool) -> list[Line]:
    """bpf_csum_diff of as many bytes as a register says, a multiple of four, at an address in another one: a loop, of which what bounds
    the size bounds the steps."""
    at, word = 5, 2 if size == 4 else 4
    begin = [(MOV_32, 0, 5), *(TURNED if is_taken_off else [])]
    begin += [(MOV_64, at, size), (AND_CONSTANT, at, 0, 0, WORD - 1), (IF_NOT_CONSTANT, at), (MOV_CONSTANT, at)]
    loop = [(IF_AT_LEAST, at, size), (LOAD_WORD, word, address), (ADD, 0, word), (ADD_CONSTANT, address, 0, 0, WORD)]
    loop += [(ADD_CONSTANT, at, 0, 0, WORD), (JUMP,)]
    end = [*(TAKEN_OFF if is_taken_off else []), *TO_16_BITS, (JUMP,)]
    out = put_all(line, [*begin, *loop, *end, (MOV_CONSTANT, 0, 0, 0, TOO_LONG), (JUMP,)])
    first, behind = len(begin), len(begin) + len(loop)
    targets = (first - 2, -2), (first, behind), (behind - 1, first), (behind + len(end) - 1, -1)
    for source, target in targets:
        out[source].target = out[target]
    return out


def summed(line: Line, first: Optional[int], second: Optional[int]) -> list[Line]:
    """bpf_csum_diff: (from, its size, to, its size, a sum to begin with), as Linux does it from 6.13 on: it is folded to 16 bits. What is
    taken off alone is so from the whole, and else turned over and added."""
    if None in (first, second) or first % WORD or second % WORD or not 0 <= first + second <= MOST_SUMMED or min(first, second) < 0:
        raise Fault(
            f"calls bpf_csum_diff of sizes that aren't constant multiples of four, at most {MOST_SUMMED} in all: use constants, or one"
            " size that is bounded, and 0 for the other one"
        )
    rows = [(MOV_CONSTANT, 0)] if first and second else [(MOV_32, 0, 5), *(TURNED if first else [])]
    rows += added_words(1, first) + (TAKEN_OFF if first else [])
    rows += [(MOV_32, 5, 5), (ADD, 0, 5)] if first and second else []
    return put_all(line, [*rows, *added_words(3, second), *TO_16_BITS])


def added_words(address: int, size: int) -> list[tuple]:
    """What adds the words at an address to a sum."""
    return [row for at in range(0, size, WORD) for row in ((LOAD_WORD, 2, address, at), (ADD, 0, 2))]
