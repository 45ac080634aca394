"""Packets for random filters: bytes that their conditions often meet, some with the beginning of IPv4."""
from __future__ import annotations

from typing import TYPE_CHECKING

from .maps import LIKELY_BYTES

if TYPE_CHECKING:
    import random

LENGTHS = 14, 15, 20, 34, 38, 42, 54, 60, 64, 64, 80, 100, 128, 200
ETHERTYPE, IPV4, VERSION, PROTOCOL = 12, b"\x08\x00", 14, 23  # places, and what stands at the first two
PROTOCOLS = 1, 6, 17


def some_packets(chance: random.Random, count: int) -> list[bytes]:
    return [some_packet(chance) for _ in range(count)]


def some_packet(chance: random.Random) -> bytes:
    found = bytearray(chance.choice((*LIKELY_BYTES, chance.randrange(256))) for _ in range(chance.choice(LENGTHS)))
    if len(found) > PROTOCOL and chance.random() < 0.5:
        found[ETHERTYPE : ETHERTYPE + len(IPV4)], found[VERSION], found[PROTOCOL] = IPV4, 0x45, chance.choice(PROTOCOLS)
    return bytes(found)
