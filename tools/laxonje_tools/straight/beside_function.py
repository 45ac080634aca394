"""Whether a result has the runs of the object's function itself, and not only of what the tools made of it first.

Calls that are written out, globals that are looked up, constants with other numbers, numbers of fewer than eight bytes and keys that are
written out make another function of it. What did isn't looked at here: `xdpbox same` reads the object and says so."""
from __future__ import annotations

from typing import TYPE_CHECKING, Optional

from .settings import text_beside_function
from .shown import PROVED, PROVED_BY
from .verifier import called

if TYPE_CHECKING:
    from .command import Straight

OF_OBJECT = "proved beside the object's own function"
OF_TOOL = "proved beside the function as this tool changed it first, and not beside the object's own"


def beside_function(xdpbox: str, settings: dict, found: Optional[Straight], data: bytes, function: str) -> Optional[str]:
    """What `xdpbox same` is asked of printed settings beside a function of an object; None if it isn't shown as they were beside what the
    tools made of it. `found`: None of a program that is as clang made it."""
    how, labels = (PROVED, {}) if found is None else (found.how, found.labels)
    if how is None or found is not None and found.written_out is not None:
        return None
    asked = text_beside_function(settings_of(settings, found), data, function, labels)
    return asked if PROVED_BY.get(called(xdpbox, asked).how) == how else None


def settings_of(settings: dict, found: Optional[Straight]) -> dict:
    """Settings as they are printed."""
    if found is None:
        return settings
    relocations = [{"slot": slot, "map": name} for slot, name in found.relocations]
    return {**found.settings(settings), "program": found.words, "reloc": relocations}
