"""The searches: in several ways, until somebody takes what one finds.

As few numbers are told apart as loops need, their counters alone, all in loops, or all; a meeting is marked as one copy or at all
copies of its slot, or none, and each access is rebased."""
from __future__ import annotations

import contextlib
from typing import TYPE_CHECKING, AbstractSet, Iterator, Optional

from .copies import COUNTERS, EVERYWHERE, IN_LOOPS, STEERING
from .graph import SHARED, SIZE, Fail, TooMany, loops
from .marks import Form
from .masks import bounded_copies, cuts
from .search import BY_ACCESS, BY_COPY, BY_SLOT, Search
from .settings import instructions_of

if TYPE_CHECKING:
    from .marks import Result

# the searches, in groups of which the smaller result comes first
WAYS = [
    (STEERING, (BY_COPY, BY_SLOT)),
    (STEERING, (BY_ACCESS,)),
    (COUNTERS, (BY_COPY, BY_SLOT)),
    (IN_LOOPS, (BY_COPY, BY_SLOT)),
    (EVERYWHERE, (BY_COPY, BY_SLOT)),
]
TOO_LONG: dict[tuple, TooMany] = {}  # by a program and the numbers that are told apart: of which there are too many copies, whatever is marked


def without_counts(settings: dict, xdpbox: str, result: Result) -> Optional[Result]:
    """What the same search finds if each count is a difference too: counts are proved neither beside differences nor where maps have
    parts. None if there is nothing of the kind."""
    have_parts = any(row.get("parts") for row in settings.get("map", []))
    return next(uncounted(settings, xdpbox, result), None) if result.differences or have_parts else None


def uncounted(settings: dict, xdpbox: str, result: Result) -> Iterator[Result]:
    """What the same search finds if each count is a difference."""
    if result.counts:
        with contextlib.suppress(Fail):
            yield Search(settings, xdpbox, *result.way, Form(fuses=False)).run()


def searched_again(settings: dict, xdpbox: str, result: Result) -> Iterator[Result]:
    """What the same search finds of the program written out: with counts, and if there are some with each as a difference; then the same
    with masked numbers told apart where they are of a row, and with registers made anew of copies that were compared."""
    for in_rows in (False, True) if result.has_rows or result.masks else (False,):
        for fuses in (True, False):
            with contextlib.suppress(Fail):
                found = Search(settings, xdpbox, *result.way, Form(fuses, in_rows=in_rows)).run()
                yield found
                if not found.counts:
                    break
    if any(bounded_copies(instructions_of(settings))):
        yield from by_copies(settings, xdpbox, result)


def by_place(settings: dict, xdpbox: str, result: Result) -> Optional[Result]:
    """What the same search finds if indices into values are told apart by all places of these: the verifier names the numbers of one
    of the ways that meet there. None if it finds nothing."""
    try:
        return Search(settings, xdpbox, *result.way, Form(by_place=True)).run()
    except Fail:
        return None


def compared_again(settings: dict, xdpbox: str, result: Result, slots: AbstractSet[int]) -> Optional[Result]:
    """What the same search finds if the accesses of these slots are compared with the packet's end; None if it finds nothing."""
    try:
        return Search(settings, xdpbox, *result.way, result.form._replace(guards=frozenset(slots))).run()
    except Fail:
        return None


def in_rows(settings: dict, xdpbox: str, result: Result) -> Iterator[Result]:
    """What the same search finds if masked numbers are told apart where they are of a row: longer, and proved more often; then that with
    each count as a difference."""
    for fuses in (True, False) if result.has_rows else ():
        with contextlib.suppress(Fail):
            yield Search(settings, xdpbox, *result.way, Form(fuses, in_rows=True)).run()


def by_copies(settings: dict, xdpbox: str, result: Result) -> Iterator[Result]:
    """What the same search finds if registers are made anew of copies that were compared, and numbers kept that are cut."""
    code = instructions_of(settings)
    if [*bounded_copies(code), *cuts(code)]:
        with contextlib.suppress(Fail):
            yield Search(settings, xdpbox, *result.way, Form(by_copies=True)).run()


def by_ways(settings: dict, xdpbox: str, result: Result) -> Iterator[Result]:
    """What the same search finds if what stands behind all loops is copied for each way on which an address is another one: with counts, and
    with each count as a difference."""
    for fuses in (True, False) if result.meets else ():
        with contextlib.suppress(Fail):
            yield Search(settings, xdpbox, *result.way, Form(fuses, by_ways=True)).run()


def reread(settings: dict, xdpbox: str, result: Result) -> Iterator[Result]:
    """What the same search finds if a number that was computed of a counter is set: as in Linux, what another queue counts in between is
    lost then."""
    if any(row.known for row in result.differences.values()):
        with contextlib.suppress(Fail):
            yield Search(settings, xdpbox, *result.way, Form(fuses=False, rereads=True)).run()


def searches(
    settings: dict, xdpbox: str, faults: list[Fail], unguarded: list[Result], at_once: bool = False, at_size: bool = False
) -> Iterator[Result]:
    """What the searches find, the smaller of two programs first. The next two begin only if nobody took one of
    these, and none that would have too many copies again, or lead to the same again. Why a search found none is added to the
    faults. If some results of the first ones want a guard that nobody asked for (`unguarded`), others do too, but for those that
    tell all numbers apart. Of numbers that share a counter all say the same. `at_once`: whether the first ones alone are made, or, `at_size`, if these find nothing but what is too large."""
    done = set() if loops(instructions_of(settings)) else {COUNTERS, IN_LOOPS}
    for numbers, ways in WAYS[:1] if at_once else WAYS:
        results, key = [], (tuple(settings["program"]), repr(settings.get("reloc")), numbers)
        if numbers in done or unguarded and numbers == IN_LOOPS:
            continue
        if key in TOO_LONG:
            faults.append(TOO_LONG[key])
            ways = ()
        for way in ways:
            search = Search(settings, xdpbox, numbers, way)
            try:
                results.append(search.run())
                if way == BY_COPY and search.has_one_copy_each:
                    break
            except Fail as fail:
                faults.append(fail)
                if fail.cause == SHARED:
                    return
                if isinstance(fail, TooMany) and not search.began:
                    done |= {numbers}
                    TOO_LONG[key] = fail
            done |= set() if search.is_by_way else {numbers}
            if numbers in done:
                break
        yield from sorted(results, key=lambda result: len(result.words))
        if at_size and not results and all(fault.cause == SIZE for fault in faults):
            break
