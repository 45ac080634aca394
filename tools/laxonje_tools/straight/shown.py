"""Whether a result has the runs of the program that it was made of.

This is the one place that decides it: `xdpbox same` says so, whose yes is proved: the same runs, the same by counts, or the same alone.
What isn't shown here isn't printed."""
from __future__ import annotations

from typing import TYPE_CHECKING, NamedTuple, Optional

from .graph import INDEX, Fail, successors
from .instructions import JUMP
from .parts import EACH_WHOLE
from .settings import instructions_of, maps_and_rest, text_beside
from .verifier import WORK, called

if TYPE_CHECKING:
    from .verifier import Stop

PROVED, BY_COUNTS, ALONE = "proved", "proved by counts", "proved alone"
PROVED_BY = {"same": PROVED, "same by counts": BY_COUNTS, "same alone": ALONE}
OUTSIDE = "outside"  # the kind of the slots that end the result if an access lies outside
UNDECIDED, UNALIKE = "undecided", "unalike"  # causes
CAUSES = {"a jump isn't decided": UNDECIDED}  # by what `xdpbox same` says; of all else the other one
NOT_SHOWN = "a program was found that isn't shown to be the same"
TOO_LITTLE = "too little is known of the registers"  # as `xdpbox same` says it
NOT_IN_PACKET = "no comparison shows that this lies in the packet"
NO_BOUND = "nothing bounds the number that is added to an address here"
OTHER_PLACES = f"numbers of fewer than eight bytes share a counter, and can't be written out as accesses of whole counters: {EACH_WHOLE}"


class NoComparison(Fail):
    """An access that no comparison shows to lie in the packet. `top`: below this place of the stack the program has nothing."""

    def __init__(self, slot: int, top: int) -> None:
        super().__init__(NOT_IN_PACKET, slot, "V10")
        self.top = top


class Unknown(Fail):
    """An access of which `xdpbox same` knows too little."""


class Shown(NamedTuple):
    """`how`: PROVED, BY_COUNTS or ALONE. `missing`: why the result can't be taken, or None."""

    how: str = PROVED
    missing: Optional[Fail] = None


class Rewriting(NamedTuple):
    """Settings as they were, and as they are. `labels`: of each slot of the latter the kind and a slot of the former."""

    original: dict
    result: dict
    labels: dict


def shown(xdpbox: str, made: Rewriting, top: int) -> Shown:
    """What is shown of a result. `top`: below this place of the stack the original has nothing."""
    asked = question(*made)
    if asked is None:
        return Shown(missing=Fail(OTHER_PLACES, None, "V14"))
    WORK.slots += len(made.result["program"])
    answer = called(xdpbox, asked)
    return Shown(missing=what_is_missing(made, answer.stop, top)) if answer.how is None else Shown(PROVED_BY[answer.how])


def question(original: dict, result: dict, labels: dict) -> Optional[str]:
    """What `xdpbox same` is asked of a result, or None: both have to have the same maps, which they haven't if a part has a counter
    of its own; and an original with addresses of constants or globals is no program for xdpbox."""
    if original.get("tables") or original.get("globals") or maps_and_rest(original) != maps_and_rest(result):
        return None
    return text_beside(result, original, labels)


def what_is_missing(made: Rewriting, stop: Optional[Stop], top: int) -> Fail:
    """Why a result can't be taken. `stop`: where its comparison stops."""
    if stop is None:
        return Fail(NOT_SHOWN, None, UNALIKE)
    if not ends_outside(made, stop.slot):
        words = f"{NOT_SHOWN}: xdpbox same stops at its slot {stop.slot}, the original's {stop.original}: {stop.words}"
        insn = instructions_of(made.original).get(stop.original)
        is_access = insn is not None and (insn.is_load or insn.is_store)
        kind = Unknown if is_access and stop.words == TOO_LITTLE else Fail
        return kind(words, stop.original, CAUSES.get(stop.words, UNALIKE))
    slot = made.labels[stop.slot][1]
    insn = instructions_of(made.original)[slot]
    if insn.is_load or insn.is_store:
        return NoComparison(slot, top)
    return Fail(NO_BOUND, slot, INDEX)


def ends_outside(made: Rewriting, slot: int) -> bool:
    """Whether a slot of the result leads to its end if something lies outside, by jumps without a condition."""
    code = instructions_of(made.result)
    todo = successors(code, slot) if slot in code else []
    while todo:
        after = todo.pop()
        if made.labels.get(after, ("", 0))[0] == OUTSIDE:
            return True
        if after in code and code[after].opcode == JUMP:
            todo += successors(code, after)
    return False
