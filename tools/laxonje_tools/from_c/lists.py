"""Files of addresses or prefixes, one a line as people write them, as the rows of a map's list."""
from __future__ import annotations

import ipaddress
import pathlib
import re
from typing import NamedTuple, Optional

from laxonje_tools.output import fail

MOST_ROWS = 65536
MAC, BYTES = re.compile(r"[0-9A-Fa-f]{2}(:[0-9A-Fa-f]{2}){5}"), re.compile(r"0x([0-9A-Fa-f]{2}){1,64}")
EXACT, PREFIX = "exact", "prefix"  # kinds of keys, as settings have them
LENGTH_BYTES = 4  # of a prefix's length, in front of its data


class Fault(Exception):
    """Why a file is no list, in words."""


class Key(NamedTuple):
    """The data of a key, and how many bits of it are a prefix: None for an address."""

    data: bytes
    bits: Optional[int] = None

    @property
    def prefix(self) -> Key:
        """The same as a prefix, which an address is as a whole."""
        return self if self.bits is not None else Key(self.data, 8 * len(self.data))

    def row(self, kind: str) -> str:
        """The key in hex, as a program gives one of this kind to a lookup: a prefix has its length in front of it, little-endian."""
        length = self.prefix.bits.to_bytes(LENGTH_BYTES, "little") if kind == PREFIX else b""
        return (length + self.data).hex()


def key_of(word: str) -> Key:
    """The key that people write so."""
    if MAC.fullmatch(word):
        return Key(bytes.fromhex(word.replace(":", "")))
    if BYTES.fullmatch(word):
        return Key(bytes.fromhex(word[2:]))
    if "%" in word:
        raise Fault(f"{word} names a link, which is no part of an address")
    try:
        if "/" not in word:
            return Key(ipaddress.ip_address(word).packed)
        if not re.fullmatch(r"[^/]+/[0-9]{1,3}", word):
            raise Fault(f"{word} is no prefix")
        network = ipaddress.ip_network(word)
    except ValueError as error:
        raise Fault(str(error)) from error
    return Key(network.network_address.packed, network.prefixlen)


def keys_in(text: str) -> list[Key]:
    """The keys of a file's lines."""
    lines = {}
    for number, line in enumerate(text.split("\n"), 1):
        word = line.split("#")[0].strip()
        if word:
            try:
                add(lines, key_of(word), number)
            except Fault as fault:
                raise Fault(f"line {number}: {fault}") from fault
    if not lines:
        raise Fault("it has no row")
    return list(lines)


def add(lines: dict[Key, int], key: Key, number: int) -> None:
    """One key more, with the number of its line."""
    size = len(next(iter(lines), key).data)
    if len(key.data) != size:
        raise Fault(f"{len(key.data)} bytes, but those before have {size}")
    for same in {key, key.prefix, Key(key.data)} if key.prefix.bits == 8 * size else {key}:
        if same in lines:
            raise Fault(f"it is that of line {lines[same]}")
    if len(lines) == MOST_ROWS:
        raise Fault(f"more than {MOST_ROWS} rows")
    lines[key] = number


def kind_of(keys: list[Key]) -> str:
    """The kind of a map that has just these keys."""
    return EXACT if all(key.bits is None for key in keys) else PREFIX


def keys_of_file(path: str) -> list[Key]:
    """The keys of a file. Ends if it has none."""
    try:
        return keys_in(pathlib.Path(path).read_text(encoding="utf-8"))
    except OSError as error:
        fail(f"{path}: {error.strerror}")
    except UnicodeDecodeError:
        fail(f"{path}: it is no UTF-8")
    except Fault as fault:
        fail(f"{path}: {fault}")
    return []
