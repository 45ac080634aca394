"""A map by whose name a host knows that one queue at a time may judge. Then what a lock guards is done in one step, and so is what a program does
to the rows of a table."""
from __future__ import annotations

ONE_QUEUE = "bpf_spin_lock"  # the map: no program uses it
HOSTS = f"laxonje-netback has one queue at a time judge; another host has to do so, where there is the map {ONE_QUEUE}"
OF_SETTINGS = f"map {ONE_QUEUE}: the host has one queue at a time judge"


def comments_of(maps: list[str]) -> list[str]:
    """What settings with such maps say of it."""
    return [OF_SETTINGS] if ONE_QUEUE in maps else []
