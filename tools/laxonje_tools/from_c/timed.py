"""The time that a filter is given between packets: settings whose counters begin with what the packets before have left."""
from __future__ import annotations

import re
import tomllib
from decimal import Decimal
from typing import Optional

from laxonje_tools.straight.settings import CONSTANTS, relocations_of, whole_text_of

from .sequences import CLOCK

AT, NANOSECONDS = "at", {"ns": 1, "us": 10**3, "ms": 10**6, "s": 10**9}
TIME = re.compile(r"([0-9]{1,19}(?:\.[0-9]{1,9})?)(ns|us|ms|s)", re.ASCII)
MOST_TIME = (1 << 63) - 1  # that a counter of settings may begin with


class NoTime(Exception):
    """Why a line says no time, in words."""


def time_of(words: list[str], before: Optional[int]) -> int:
    """The nanoseconds of a line's words. `before`: those of the last one."""
    found = TIME.fullmatch(words[0]) if len(words) == 1 else None
    if found is None:
        raise NoTime(f"{AT} wants a number with ns, us, ms or s behind it, as {AT} 1.5s")
    time = Decimal(found[1]) * NANOSECONDS[found[2]]
    if time > MOST_TIME or time % 1:
        raise NoTime(f"a time has 0 to {MOST_TIME} nanoseconds, and no part of one")
    if before is not None and time < before:
        raise NoTime("the time doesn't go back")
    return int(time)


def with_counters(text: str, lines: Optional[list[str]], time: Optional[int]) -> str:
    """Settings whose counters begin with what these lines say, None if with their own, and with that time, None if with theirs."""
    if time is None:
        return text
    settings = tomllib.loads(text)
    if lines is not None:
        left = counters_in(lines)
        settings["map"] = [row if row.get("key") == CONSTANTS else {**row, "values": values_of(row, left)} for row in settings["map"]]
    settings["map"] = [{**row, "values": [time]} if row["name"] == CLOCK else row for row in settings["map"]]
    return whole_text_of(settings, settings["program"], relocations_of(settings))


def counters_in(lines: list[str]) -> dict[str, dict[tuple[int, ...], int]]:
    """By map the counters that aren't 0, by their entry and, if there are several, their place in it."""
    found: dict[str, dict[tuple[int, ...], int]] = {}
    for _, name, *places, number in map(str.split, lines):
        found.setdefault(name, {})[tuple(map(int, places))] = int(number)
    return found


def values_of(row: dict, left: dict[str, dict[tuple[int, ...], int]]) -> list[int]:
    """What a map's counters begin with."""
    here, each = left.get(row["name"], {}), row.get("counters", 1)
    numbers = {entry * each + sum(place): number for (entry, *place), number in here.items()}
    return [numbers.get(at, 0) for at in range(max(numbers, default=-1) + 1)]
