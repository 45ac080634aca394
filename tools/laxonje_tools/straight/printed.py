"""What the tools print: settings that were read again, and that `xdpbox check` accepts."""
from __future__ import annotations

from typing import Optional

from laxonje_tools.output import fail, put

from .settings import is_text_of, whole_text_of
from .verifier import refusal


def put_settings(
    head: str, settings: dict, words: list[str], relocations: list[tuple[int, str]], xdpbox: Optional[str]
) -> None:
    """Prints settings with another program, under a comment. Ends if they would be others when they are read, or if
    xdpbox refuses them. `xdpbox`: None if it isn't to be asked."""
    text = head + whole_text_of(settings, words, relocations)
    if not is_text_of(text, settings, words, relocations):
        fail("what was found can't be written as settings: this is a fault of the tool, so nothing is printed")
    refused = None if xdpbox is None else refusal(xdpbox, text)
    if refused is not None:
        fail(f"what was found can't be printed: {refused}")
    put(text)
