"""What `tools/straighten` and `tools/settings-from-c` have in common: a program that the verifier accepts and that was
shown to be the same, or why there is none."""
from __future__ import annotations

import os
import pathlib
import shutil
from dataclasses import dataclass, field, replace
from typing import TYPE_CHECKING, Callable, Iterator, NamedTuple, Optional

from laxonje_tools.output import fail, in_one_line

from .graph import INDEX, SHARED, SIZE, Fail, loops
from .guarded import GUARDED, MOST_GUARDS, with_guards
from .lowered import may_lower
from .parts import SharedCounter, check_values, places_of, with_counters
from .refused import Refused
from .search import OF_THE_BYTES
from .settings import as_text, instructions_of, relocations_of, without_rows
from .shown import ALONE, BY_COUNTS, PROVED, NoComparison, Rewriting, Unknown, question, shown
from .split import with_split
from .verifier import StillRefused, Verdict, verdict
from .ways import by_copies, by_place, by_ways, compared_again, in_rows, reread, searched_again, searches, uncounted, without_counts
from .written_out import More, written_out

if TYPE_CHECKING:
    from .marks import Result

WRITTEN_OUT = "beside the program with small numbers and keys written out"
IN_MEMORY = {
    "tables": "its constants can't be maps: at most 65536 bytes in each section, and 16 maps in all",
    "globals": "its globals can't be looked up in front of it: the stack has no room for their addresses, or an object file doesn't say how"
    " much of it is used",
}
NO_XDPBOX = "xdpbox isn't here: XDPBOX names it, and tools/build-unproved xdpbox builds it in minutes"
NOTHING_HELPS = "nothing is rewritten that helps"
FUSED = (
    "a load, an addition and a store are one atomic addition: on a map that isn't per CPU, Linux would lose counts here"
)
ADDED_LATER = (
    "what is stored is added as the difference from what was loaded, in two steps: another queue may count between"
)
SET = "a counter is set by adding the difference from what stands there, in two steps: another queue may count between"
LOWERED = (
    "; if two queues lower it at once, it may go below 0, where it reads as nearly 2^{}: compare it with sign, as"
    " `({})*value <= 0`"
)
SIGNED = {1: "signed char", 2: "short", 4: "int", 8: "long long"}  # by size
HOW = PROVED, BY_COUNTS, ALONE  # the best way first
ENOUGH = PROVED, BY_COUNTS  # after which no other settings are tried
MOST_UNKNOWN = 4  # accesses of which too little is known, of a result
MOST_ASKED = 10000  # slots, in all results that can't be taken
TOP = pathlib.Path(__file__).resolve().parents[3]
ATOMIC, WORD_ADDED = ("c3", "db"), "00000000"  # opcodes, and the constant of an addition


@dataclass
class Straight:
    """A program that is accepted and the same. `labels`: of each slot the kind, and a slot of the original. `notes`: what its author
    should know. `how`: it was shown to be the same. `asked`: what `xdpbox same` was asked of it, None of a program with tests in front of
    accesses that is accepted as it is. `moved`: by map the parts of values that have a counter of their own. `written_out`: settings
    with the program written out, if it is the same as that; `labels` are of them then. `guards`: how many such tests there are. `sets`:
    whether a counter is set, or a number of fewer than eight bytes, so that no form is shown in a better way."""

    words: list
    relocations: list
    labels: dict
    notes: list
    how: Optional[str]
    asked: Optional[str] = None
    moved: dict = field(default_factory=dict)
    written_out: Optional[dict] = None
    guards: int = 0
    sets: bool = False

    def comment(self, settings: dict) -> str:
        """The lines that settings with this program have."""
        first = f"# straightened: {len(settings['program'])} slots -> {len(self.words)}{f', {self.how}' if self.how else ''}\n"
        first += f"# {WRITTEN_OUT}: {len(self.written_out['program'])} slots\n" if self.written_out else ""
        first += f"# with tests in front of accesses that --guard put in: {self.guards}\n" if self.guards else ""
        places = "".join(f"# {in_one_line(line)}\n" for line in places_of(settings, self.moved))
        return first + places.encode("ascii", "backslashreplace").decode()

    def settings(self, settings: dict) -> dict:
        """Settings with the counters that this program needs."""
        return with_counters(settings, self.moved)


def xdpbox_program() -> Optional[str]:
    """The path of xdpbox: $XDPBOX, the repository's own, or one on the PATH. None if there is none."""
    built, named = TOP / "crates/xdpbox/out/xdpbox", os.environ.get("XDPBOX")
    if named and shutil.which(named) is None:
        fail(f"XDPBOX names {named}, which isn't a program that can be run")
    if named:
        return named
    return str(built) if built.exists() else shutil.which("xdpbox")


class Wanted(NamedTuple):
    """`guard`: an access that nothing shows to lie in the packet may get a test in front of it that ends the program. `per_cpu`: whether
    a store's slot is to a per-CPU map. `at_once`: whether the first searches alone are made, since another form is shown, or may be.
    `asked`: how many slots the results had that weren't shown to be the same. `splits`: whether accesses to several numbers are split.
    `at_size`: whether there are no more searches if the first ones find programs that are too large, since another form may be smaller.
    `better`: whether another form is shown alone, and so only what is shown in a better way is wanted."""

    guard: bool = False
    per_cpu: Callable = lambda slot: False
    at_once: bool = False
    asked: Optional[list[int]] = None
    splits: bool = False
    at_size: bool = False
    better: bool = False

    @property
    def is_enough(self) -> bool:
        """Whether no more results are asked about."""
        return sum(self.asked) > MOST_ASKED


def is_accepted(settings: dict, xdpbox: str) -> bool:
    """Whether the program of the settings is accepted as it is."""
    return not (settings.get("tables") or settings.get("globals")) and verdict(xdpbox, as_text(without_rows(settings))).accepted


def better_of(forms: list[dict], xdpbox: str, wanted: Wanted = Wanted()) -> tuple[dict, Optional[Straight]]:
    """Of settings with one program those that are accepted as they are, with None; else those of which another program is shown
    to be the same in the best way, the first of two, with that program. Raises what refuses the first if all are refused."""
    for settings in forms:
        if is_accepted(settings, xdpbox):
            return settings, None
    found, refusals, others = [], [], []
    for settings in forms:
        try:
            at_once = wanted.at_once or any(row.how == ALONE for _, row in found)
            at_size = not found and settings is not forms[-1]
            found.append((settings, straightened(settings, xdpbox, wanted._replace(at_once=at_once, at_size=at_size, better=bool(found)))))
        except Refused as refused:
            refusals.append(refused)
            others += [settings] if refused.cause == SIZE and at_size else []
            if refused.cause == SHARED:  # of stores, which are the same in each form
                break
        if found and (found[-1][1].how in ENOUGH or found[-1][1].sets):
            break
    if not found and others:
        return better_of(others, xdpbox, wanted)
    if not found:
        raise refusals[0]
    return min(found, key=lambda row: HOW.index(row[1].how))


def straightened(settings: dict, xdpbox: str, wanted: Wanted = Wanted()) -> Optional[Straight]:
    """None if the program of the settings is accepted as it is."""
    try:
        return rewritten(settings, xdpbox, wanted)
    except Refused as refused:
        found = guarded(settings, xdpbox, wanted, refused.why) if wanted.guard else None
        found = split(settings, xdpbox, wanted, refused.why) if wanted.splits and found is None else found
        if found is None:
            raise
        return found


def split(settings: dict, xdpbox: str, wanted: Wanted, why: Fail) -> Optional[Straight]:
    """A program with one access for each number where one reaches several; None if there is none. `why`: it was refused without."""
    several = why.several if isinstance(why, SharedCounter) else {}
    given = with_split(settings, instructions_of(settings), several) if several else None
    try:
        found = None if given is None else rewritten(given.settings, xdpbox, wanted)
    except Refused:
        return None
    if found is None:
        return None
    notes = [(given.origins[slot], note) for slot, note in found.notes]
    return replace(found, notes=notes, written_out=found.written_out or with_counters(given.settings, found.moved))


def guarded(settings: dict, xdpbox: str, wanted: Wanted, why: Fail) -> Optional[Straight]:
    """A program with tests in front of accesses that nothing shows to lie in the packet, as few as are needed; None if there is none.
    `why`: it was refused without."""
    slots, origins, top = [], list(range(len(settings["program"]))), None
    while isinstance(why, NoComparison) and len(slots) < MOST_GUARDS and origins[why.slot] not in slots:
        slots.append(origins[why.slot])
        top = why.top if top is None else top
        given = with_guards(settings, instructions_of(settings), slots, top)
        if given is None:
            return None
        origins = given.origins
        try:
            found = rewritten(given.settings, xdpbox, wanted)
        except Refused as refused:
            why = refused.why
            continue
        notes = [(origins[slot], note) for slot, note in found.notes] if found else []
        notes += [(slot, GUARDED) for slot in slots]
        if found is None:
            return Straight(given.settings["program"], relocations_of(given.settings), {}, notes, None, guards=len(slots))
        return replace(found, notes=notes, guards=len(slots))
    return None


def rewritten(settings: dict, xdpbox: str, wanted: Wanted) -> Optional[Straight]:
    """The same without further tests."""
    missing = next((words for key, words in IN_MEMORY.items() if settings.get(key)), None)
    if missing is not None:
        raise Refused(Verdict(""), Fail(missing))
    answer = verdict(xdpbox, as_text(without_rows(settings)))
    if answer.accepted:
        return None
    if answer.cause is None:
        raise Refused(answer, Fail(answer.words.strip() or f"{xdpbox} gave no answer"))
    word = settings["program"][answer.slot] if answer.slot < len(settings["program"]) else ""
    if answer.cause in OF_THE_BYTES and not (answer.cause == "V19" and word.startswith("c3") and word.endswith(WORD_ADDED)):
        raise Refused(answer, Fail(NOTHING_HELPS, answer.slot), word.startswith(ATOMIC))
    missing, faults, unguarded, wanted, tried = None, [], [], wanted._replace(asked=[]), set()
    for result in searches(settings, xdpbox, faults, unguarded, wanted.at_once, wanted.at_size):
        if result.text in tried:
            continue
        tried.add(result.text)
        program, missing = taken_best(xdpbox, settings, result, wanted)
        if missing is not None and missing.cause == INDEX:
            program, missing = taken_by_place(xdpbox, settings, result, wanted, missing)
        if missing is None:
            return program
        if isinstance(missing, NoComparison):
            unguarded.append(result)
        if wanted.is_enough:
            break
    fault = missing or best_of(faults)
    if isinstance(fault, StillRefused) and (fault.slot, fault.cause) == (answer.slot, answer.cause):
        fault = Fail(NOTHING_HELPS, answer.slot, answer.cause)
    raise Refused(answer, fault, has_loops=bool(loops(instructions_of(settings))))


def taken_by_place(
    xdpbox: str, settings: dict, result: Result, wanted: Wanted, missing: Fail
) -> tuple[Optional[Straight], Optional[Fail]]:
    """The same of a result that something is missing to, since its indices may be others."""
    other = by_place(settings, xdpbox, result)
    program = None if other is None else taken(xdpbox, settings, other, wanted)[0]
    return program, missing if program is None else None


def taken_best(xdpbox: str, settings: dict, result: Result, wanted: Wanted) -> tuple[Optional[Straight], Optional[Fail]]:
    """A result that is shown to be the same, in one of its forms, or what is missing to that."""
    is_written_out = any(result.moved.values()) or bool(result.found.parts or result.found.keys)  # beside that alone it is shown
    other = None if is_written_out else without_counts(settings, xdpbox, result)
    program = None if other is None else taken(xdpbox, settings, other, wanted)[0]
    tried: list[dict] = []
    program = program or taken_written_out(xdpbox, settings, result, wanted, tried)
    if program is not None:
        return program, None
    simple = taken_guarded(xdpbox, settings, result, wanted)
    if simple[0] is not None:
        return simple
    faults = [simple[1]]

    def first_shown(*makers: Callable[..., Iterator[Result]]) -> Optional[Straight]:
        """The first of other forms that is shown to be the same."""
        for other in (other for forms in makers if not (is_written_out or wanted.is_enough) for other in forms(settings, xdpbox, result)):
            program, fault = taken(xdpbox, settings, other, wanted)
            if program is not None:
                return program
            faults.append(fault)
        return None

    program = first_shown(in_rows, by_copies, *([uncounted] if other is None else []))
    for more in (More(words=True), More(*(True for _ in More._fields))):
        program = program or taken_written_out(xdpbox, settings, result, wanted, tried, more)
    program = program or first_shown(by_ways, reread)
    return (None, plainest_of(faults)) if program is None else (program, None)


def plainest_of(faults: list[Fail]) -> Fail:
    """Of what is missing to several forms the first that is an access's or a number's, or else the first."""
    return next((fault for fault in faults if fault.cause in ("V10", INDEX)), faults[0])


def taken_written_out(
    xdpbox: str, settings: dict, result: Result, wanted: Wanted, tried: list[dict], more: More = More()
) -> Optional[Straight]:
    """A result of the program written out that is proved to be the same as that; None if there is none. A number that is stored is
    read first: so nothing is said of several queues then. What a count adds is the difference from what was loaded, so that no count
    of another queue is lost. `more`: what is written out beside; `tried`: those with programs of which none was found."""
    other = written_out(settings, instructions_of(settings), result, more)
    if other is None or other.has_stores and wanted.better or any(row.get("values") and result.moved.get(row["name"]) for row in settings["map"]):
        return None
    if other.settings in tried:
        return None
    tried.append(other.settings)
    for found in searched_again(other.settings, xdpbox, result):
        program, _ = taken_guarded(xdpbox, other.settings, found, wanted)
        if program is None or found.moved:
            continue
        how, notes = ALONE if other.has_stores else program.how, list(notes_of(result, wanted.per_cpu))
        return replace(program, how=how, notes=notes, moved=result.moved, written_out=other.settings, sets=program.sets or other.has_stores)
    return None


def taken_guarded(xdpbox: str, settings: dict, result: Result, wanted: Wanted) -> tuple[Optional[Straight], Optional[Fail]]:
    """The same of a result, or of what the same search finds if accesses of which too little is known are compared with the packet's end."""
    slots: set[int] = set()
    program, fault = taken(xdpbox, settings, result, wanted)
    while isinstance(fault, Unknown) and fault.slot not in slots and len(slots) < MOST_UNKNOWN:
        slots.add(fault.slot)
        other = compared_again(settings, xdpbox, result, slots)
        if other is None:
            break
        program, fault = taken(xdpbox, settings, other, wanted)
    return program, fault


def taken(xdpbox: str, settings: dict, result: Result, wanted: Wanted) -> tuple[Optional[Straight], Optional[Fail]]:
    """A result that is shown to be the same, and what is missing to that; one of the two is None."""
    try:
        check_values(settings, result.moved)
    except Fail as fault:
        return None, fault
    labels = {slot: (label.kind.value, label.slot) for slot, label in result.labels.items()}
    relocations = [{"slot": slot, "map": name} for slot, name in result.relocations]
    rebuilt = {**with_counters(settings, result.moved), "program": result.words, "reloc": relocations}
    judged = shown(xdpbox, Rewriting(settings, rebuilt, labels), result.found.top)
    if judged.missing is not None:
        wanted.asked.append(len(result.words))
        return None, judged.missing
    notes, asked = list(notes_of(result, wanted.per_cpu)), question(settings, rebuilt, labels)
    sets = judged.how == ALONE and bool(result.differences)
    return Straight(result.words, result.relocations, labels, notes, judged.how, asked, result.moved, sets=sets), None


def best_of(faults: list[Fail]) -> Fail:
    """The first reason of several searches if it is the size of a program; else the first that names a place, or else the first."""
    if faults[0].cause == SIZE:
        return faults[0]
    placed = [fault for fault in faults if fault.slot is not None]
    return (placed or faults)[0]


def notes_of(result: Result, per_cpu: Callable[[int], bool]) -> Iterator[tuple[int, str]]:
    for slot in result.counts:
        if not per_cpu(slot):
            yield slot, FUSED
    for slot, row in sorted(result.differences.items()):
        note = SET if row.told or not row.known else ADDED_LATER
        if may_lower(result.code, slot, row):
            size = result.code[slot].size
            note += LOWERED.format(8 * size, SIGNED[size])
        yield slot, note
