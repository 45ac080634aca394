"""What is asked of a program again and again: a search changes a program seldom, and asks much of it."""
from __future__ import annotations

import functools
from typing import TYPE_CHECKING, Callable, TypeVar

if TYPE_CHECKING:
    from .instructions import Code

Answer = TypeVar("Answer")
MOST_KEPT = 16  # answers, of one function


def remembered(function: Callable[..., Answer]) -> Callable[..., Answer]:
    """The same function of a program or a graph of its copies, and of words beside, which keeps its last answers. Neither is changed once it
    is made, and no answer is."""
    kept = []

    @functools.wraps(function)
    def answered(code: Code, *words: object, **named: object) -> Answer:
        for at, (of, before, answer) in enumerate(kept):
            if of is code and before == (words, named):
                kept.insert(0, kept.pop(at))
                return answer
        answer = function(code, *words, **named)
        kept.insert(0, (code, (words, named), answer))
        del kept[MOST_KEPT:]
        return answer

    return answered
