"""Programs that searches wrote. Another search begins with the same marks, and takes them as they are."""
from __future__ import annotations

from typing import TYPE_CHECKING, AbstractSet, NamedTuple, Optional

from .emit import Emitter
from .remembered import remembered

if TYPE_CHECKING:
    from .addresses import Addresses
    from .copies import Copies
    from .emit import Label
    from .keys import Key
    from .marks import Marks
    from .parts import Access, Lying


class Written(NamedTuple):
    """A program's words, its relocations, and the label of each of its slots. `reached`, `lies`, `keys`: as `Emitter` has them; `top`:
    below which place of the stack the original has nothing."""

    words: list[str]
    relocations: list[tuple[int, str]]
    labels: dict[int, Label]
    reached: dict[Optional[str], set[Access]]
    lies: dict[int, set[Lying]]
    keys: dict[int, set[Key]]
    top: int


@remembered
def written(copies: Copies, addresses: Addresses, marks: Marks, key_sizes: dict[str, int], with_parts: AbstractSet[str]) -> Written:
    """The program of these copies, as `Emitter` writes it. No mark is changed later."""
    emitter = Emitter(copies, addresses, marks, key_sizes, with_parts)
    return Written(*emitter.program(), emitter.reached, emitter.lies, emitter.keys, emitter.own.top)
