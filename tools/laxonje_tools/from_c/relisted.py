"""Other rows for the lists of settings that were printed: nothing is compiled, and nothing is verified, since a program is
verified for all lists."""
from __future__ import annotations

import re
import tomllib
from typing import TYPE_CHECKING, Iterable, Iterator

from laxonje_tools.straight.settings import lines_of_list

from . import lists
from .faults import faults_of_list
from .maps import Map
from .values import Unset

if TYPE_CHECKING:
    from .lists import Key

ROWS, SIZE = re.compile(r"^rows = \[[^]]*\]\n", re.MULTILINE), re.compile(r"^size = [0-9]+\n", re.MULTILINE)


def with_lists(text: str, files: Iterable[tuple[str, str]]) -> str:
    """A settings text whose maps have the rows of these files. All else stays, to the byte, but for the comment of an empty list."""
    for name, path in files:
        text = with_rows(text, name, path, lists.keys_of_file(path))
    return text


def with_rows(text: str, name: str, path: str, keys: list[Key]) -> str:
    """A settings text with the rows of one map."""
    settings = tomllib.loads(text)
    found = [row for row in settings.get("map", []) if row.get("name") == name and row.get("key") in (lists.EXACT, lists.PREFIX)]
    if not found:
        raise Unset(f"there is no list {name}")
    row = found[0]
    if row.get("values"):
        raise Unset(f"the values of {name} are those of its rows: give both to the filter in C")
    known = Map(name, row["entries"], row.get("counters", 1), row["key"], row["size"])
    for fault in faults_of_list(known, keys):
        raise Unset(f"{path}: {fault}")
    had_rows = bool(row.get("rows"))
    row["rows"] = [key.row(known.kind) for key in keys]
    for made in candidates(text, had_rows, "".join(f"{line}\n" for line in lines_of_list({"rows": row["rows"]}))):
        if are(settings, made):
            return made.replace(f"# map {name}: an empty list; --list {name}=FILE fills it\n", "")
    raise Unset(f"the list {name} isn't as this tool prints it")


def are(settings: dict, text: str) -> bool:
    """Whether a text has these settings. One with two lists in a map has none."""
    try:
        return tomllib.loads(text) == settings
    except tomllib.TOMLDecodeError:
        return False


def candidates(text: str, had_rows: bool, lines: str) -> Iterator[str]:
    """The text with these lines in the place of each list, or behind each size of keys."""
    for place in (ROWS if had_rows else SIZE).finditer(text):
        yield text[: place.start() if had_rows else place.end()] + lines + text[place.end() :]
