"""The packets of a filter in C, with what it has to make of each."""
from typing import NamedTuple, Optional

from tests.straight import more_packets
from tests.straight import packets


class Row(NamedTuple):
    """A packet, and what a filter has to make of it: the packet as it is left isn't said of all."""

    packet: bytes
    action: str
    left: Optional[bytes] = None

    def is_run(self, action, left):
        return action == self.action and (self.left is None or action not in ("PASS", "TX") or left == self.left)


def lists_of(path):
    """The lists of a filter's maps, as (name, file): those of files beside it that are called NAME.MAP.list."""
    found = sorted(path.parent.glob(f"{path.stem}.*.list"))
    return [(file.name[len(path.stem) + 1 : -len(".list")], str(file)) for file in found]


def values_of(path):
    """What the counters of a filter's maps begin with, as (name, file): the files beside it that are called NAME.MAP.values."""
    found = sorted(path.parent.glob(f"{path.stem}.*.values"))
    return [(file.name[len(path.stem) + 1 : -len(".values")], str(file)) for file in found]


def words_of(path):
    """The words that give a filter its lists, and what its counters begin with."""
    rows = [("--list", *row) for row in lists_of(path)] + [("--values", *row) for row in values_of(path)]
    return [word for option, name, file in rows for word in (option, f"{name}={file}")]


def packets_of(path):
    """The packets of a filter: those of a file beside it, of lines `ACTION PACKET [PACKET AS IT IS LEFT]`."""
    beside = path.with_suffix(".packets")
    if not beside.exists():
        return [Row(*row) for row in {**packets.FILTERS, **more_packets.FILTERS}[path.stem]]
    lines = [line.split() for line in beside.read_text().splitlines()]
    return [Row(bytes.fromhex(line[1]), line[0], bytes.fromhex(line[-1])) for line in lines]
