"""Why no program was found, in words for the author of a filter: the refusal, and what to write instead."""
from __future__ import annotations

from typing import TYPE_CHECKING, Callable, Iterator, Optional

from .graph import INDEX, SIZE, Fail
from .shown import UNALIKE, UNDECIDED
from .verifier import ENDED, WORK, StillRefused

if TYPE_CHECKING:
    from .verifier import Verdict

# a refusal's words are those of instructions; these are those of C
IN_C = {
    "V5": "bound the loop by a constant too, as `for (int i = 0; i < 16 && more; i++)`; `break` may leave it early",
    "V10": "compare the end of what is read with data_end on each way to this line; or say --guard: if the packet is"
    " too short, the program then ends with ABORTED",
    "V11": "initialize the variable on each way to this line",
    "V12": "the fields of the context are data, data_end, data_meta, ingress_ifindex and rx_queue_index, each a __u32",
    "V13": "test what the lookup gave first: `if (!value) return XDP_PASS;`",
    "V14": "each counter is a __u64: read it whole, and add to it by __sync_fetch_and_add(value, n) or `*value += n`;"
    " to set it, add the difference from what was read of it on each way to this line",
    "V17": "the key, the lookup's second argument, is a variable of four bytes, all of them stored",
    "V19": "of the atomic operations there is the addition of eight bytes alone, __sync_fetch_and_add",
    SIZE: "fewer steps of the loop, or a smaller body: keep the offset as a number, and add it to data anew in each"
    " step",
    UNDECIDED: "count the loop's steps in a __u64 from 0 up to a constant, `for (__u64 i = 0; i < 8 && more; i++)`, and compare numbers"
    " without sign",
    UNALIKE: "compute what is compared, or added to an address, once, as a __u64, and compare that number itself",
    INDEX: "compare the index with how many elements there are, or mask it, on each way to this line",
}
NO_MAP = (
    "the map is the lookup's first argument, and one map on each way to this line: look up in each branch, and use what"
    " it gave there"
)
MIXED_ADDRESS = (
    "an address here is one on some ways, and 0 or another thing on others: test it, and use it, in each branch, or keep what is needed of"
    " it in variables"
)
LIST_KEY = (
    "the key, the lookup's second argument, has as many bytes as the map's keys, all of them stored, also those between its"
    " fields: __builtin_memset(&key, 0, sizeof(key)) first"
)


class Refused(Exception):
    """`answer`: the verifier's, of the program as it was. `why`: why no other one was found. `atomic`: whether an
    atomic operation was refused; `has_loops`: whether the program has loops."""

    def __init__(self, answer: Verdict, why: Fail, atomic: bool = False, has_loops: bool = True) -> None:
        super().__init__(f"{why}")
        self.answer, self.why, self.atomic, self.has_loops = answer, why, atomic, has_loops

    @property
    def cause(self) -> Optional[str]:
        """What it is that refuses it: one of the verifier's causes, SIZE or INDEX; None for one that is in words alone."""
        return self.why.cause or self.answer.cause

    @property
    def last(self) -> Verdict:
        """The verifier's last answer."""
        return self.why.answer if isinstance(self.why, StillRefused) else self.answer

    @property
    def is_of_unset(self) -> bool:
        """Whether something is read that nothing stored: a number, or bytes of a list's key."""
        return self.cause == "V11" or self.cause == "V17" and self.last.has_map and self.last.has_list

    def advice(self) -> Optional[str]:
        """What to write instead, or None."""
        cause, answer = self.cause, self.last
        if cause == "V17" and not answer.has_map:
            return NO_MAP
        if cause == "V17" and answer.has_list:
            return LIST_KEY
        if cause == "V9" and answer.lost() is not None and answer.lost().was == "map_value":
            return IN_C[INDEX]
        if cause in IN_C and (cause != "V19" or self.atomic):
            return IN_C[cause]
        lines = self.answer.words.split("\n") if cause == self.answer.cause else []
        said = (line.partition(": ")[2] for line in lines if line.startswith("write instead"))
        return next(said, None if cause != "V9" else IN_C[SIZE] if self.has_loops else MIXED_ADDRESS)


def describe(
    refused: Refused, place_of: Optional[Callable[[int], Optional[str]]] = None, name: str = "the program"
) -> Iterator[str]:
    """The lines that explain a refusal, of the program as it was. `place_of(slot)`: its line of C, or None."""

    def place(slot: Optional[int]) -> str:
        line = place_of(slot) if place_of and slot is not None else None
        return line or (f"slot {slot}" if slot is not None else name)

    answer, why = refused.answer, refused.why
    if answer.cause is not None:
        yield f"{place(answer.slot)}: refused {answer.cause} at {answer.slot}"
        yield from marked_lines(answer.words.split("\n"))
    yield f"{place(why.slot if why.slot is not None else answer.slot)}: {why}"
    if WORK.is_enough and f"{why}" != ENDED:
        yield ENDED
    if refused.advice():
        yield f"write instead: {refused.advice()}"


def marked_lines(lines: list[str]) -> Iterator[str]:
    """The line of an explanation that names the instruction, and what was known of its registers."""
    for line, below in zip(lines, [*lines[1:], ""]):
        if line.lstrip().startswith(">"):
            yield f"  {line}"
            if below.startswith("     ") and "=" in below:
                yield f"  {below}"
