"""Linux's own answer to packets: a program that libbpf loads, and runs that nothing is attached for (BPF_PROG_TEST_RUN)."""
from __future__ import annotations

import contextlib
import ctypes
import fcntl
import os
import socket
import struct
from typing import Iterable, Iterator, Mapping, NamedTuple, Optional

LIBRARY = "libbpf.so.1"
ACTIONS = "ABORTED", "DROP", "PASS", "TX", "REDIRECT"
XDP = 6  # BPF_PROG_TYPE_XDP
PER_CPU = 5, 6, 10  # BPF_MAP_TYPE_PERCPU_HASH, _PERCPU_ARRAY and _LRU_PERCPU_HASH
MOST_LEFT = 1 << 16  # bytes of a packet as a program leaves it
ZEROS = bytes(1 << 16)  # as much as a value has on all processors
NEW_NETWORK, SET_MTU, ITS_DEVICE = 0x40000000, 0x8922, b"lo"  # CLONE_NEWNET, SIOCSIFMTU, and the device of runs


class Unasked(Exception):
    """Why Linux can't be asked."""


class Options(ctypes.Structure):
    """libbpf's `struct bpf_test_run_opts`."""

    _fields_ = [
        ("sz", ctypes.c_size_t),
        ("data_in", ctypes.c_void_p),
        ("data_out", ctypes.c_void_p),
        ("data_size_in", ctypes.c_uint32),
        ("data_size_out", ctypes.c_uint32),
        ("ctx_in", ctypes.c_void_p),
        ("ctx_out", ctypes.c_void_p),
        ("ctx_size_in", ctypes.c_uint32),
        ("ctx_size_out", ctypes.c_uint32),
        ("retval", ctypes.c_uint32),
        ("repeat", ctypes.c_int),
        ("duration", ctypes.c_uint32),
        ("flags", ctypes.c_uint32),
        ("cpu", ctypes.c_uint32),
        ("batch_size", ctypes.c_uint32),
    ]


class MapRow(NamedTuple):
    """A key of a map, and the value under it: zeros if it is empty."""

    key: bytes
    value: bytes


class Answer(NamedTuple):
    """The action's name, and the packet as it is left, in hex; None for both if Linux doesn't run packets of this length."""

    action: Optional[str]
    left: Optional[str]


class Run(NamedTuple):
    """What Linux makes of packets, and by the maps' names the values that they leave."""

    answers: list[Answer]
    values: dict[str, list[bytes]]


def library() -> ctypes.CDLL:
    """libbpf, which says nothing by itself."""
    if os.geteuid() != 0:
        raise Unasked("that wants root")
    try:
        found = ctypes.CDLL(LIBRARY, use_errno=True)
    except OSError:
        raise Unasked(f"{LIBRARY} isn't installed (Debian: apt install libbpf1)") from None
    pointers = "bpf_object__open_file", "bpf_object__find_program_by_name", "bpf_object__find_map_by_name"
    for name in pointers:
        getattr(found, name).restype = ctypes.c_void_p
    found.libbpf_set_print(None)
    return found


def run(path: str, function: str, packets: Iterable[bytes], rows: Mapping[str, list[MapRow]], keys: Mapping[str, list[bytes]]) -> Run:
    """What Linux makes of packets, one after another on the same maps and one processor. `rows`: those of maps; `keys`: those whose
    values are wanted. Unasked if it doesn't load the program."""
    libbpf, processors = library(), os.sched_getaffinity(0)
    processor = min(processors)
    os.sched_setaffinity(0, {processor})
    try:
        with loaded(libbpf, path, function) as (opened, program):
            for name, there in rows.items():
                fill(libbpf, map_of(libbpf, opened, name), name, there)
            answers = [answer(libbpf, program, packet) for packet in packets]
            return Run(answers, {name: values(libbpf, map_of(libbpf, opened, name), wanted, processor) for name, wanted in keys.items()})
    finally:
        os.sched_setaffinity(0, processors)


@contextlib.contextmanager
def loaded(libbpf: ctypes.CDLL, path: str, function: str) -> Iterator[tuple[ctypes.c_void_p, int]]:
    """An object that Linux has loaded, and the descriptor of its program. Unasked if it doesn't load it."""
    opened = ctypes.c_void_p(libbpf.bpf_object__open_file(os.fsencode(path), None))
    if not opened:
        raise Unasked("libbpf can't read the object")
    try:
        program = ctypes.c_void_p(libbpf.bpf_object__find_program_by_name(opened, function.encode()))
        if not program:
            raise Unasked(f"libbpf finds no program {function}")
        # libbpf knows "xdp" and "xdp.frags"; a section of another name that begins so has no type for it
        libbpf.bpf_program__set_type(program, XDP)
        failed = libbpf.bpf_object__load(opened)
        if failed:
            raise Unasked(f"Linux doesn't load the program: {os.strerror(abs(failed))}")
        yield opened, libbpf.bpf_program__fd(program)
    finally:
        libbpf.bpf_object__close(opened)


def map_of(libbpf: ctypes.CDLL, opened: ctypes.c_void_p, name: str) -> ctypes.c_void_p:
    """A map of a loaded object; null if it has none of that name."""
    return ctypes.c_void_p(libbpf.bpf_object__find_map_by_name(opened, name.encode()))


def give_mtu(mtu: int) -> None:
    """Gives the device of runs an MTU, in a network of this process's own."""
    try:
        if ctypes.CDLL(None, use_errno=True).unshare(NEW_NETWORK):
            raise OSError(ctypes.get_errno(), os.strerror(ctypes.get_errno()))
        with socket.socket(socket.AF_INET, socket.SOCK_DGRAM) as one:
            fcntl.ioctl(one, SET_MTU, struct.pack("16sI12x", ITS_DEVICE, mtu))
    except OSError as fault:
        raise Unasked(f"its device can't have an MTU of {mtu}: {fault.strerror}") from None


def fill(libbpf: ctypes.CDLL, there: ctypes.c_void_p, name: str, rows: list[MapRow]) -> None:
    """Puts rows into a map. A per-CPU map gets the value for each processor."""
    number = libbpf.bpf_map__fd(there) if there else -1
    for row in rows:
        value = row.value * (len(ZEROS) // len(row.value)) if row.value else ZEROS
        if libbpf.bpf_map_update_elem(number, row.key, value, ctypes.c_uint64(0)):
            raise Unasked(f"Linux doesn't take the row {row.key.hex()} of the map {name}")


def values(libbpf: ctypes.CDLL, there: ctypes.c_void_p, keys: list[bytes], processor: int) -> list[bytes]:
    """The values under keys of a map: of a per-CPU map this processor's. Of a key that isn't there nothing."""
    if not there:
        return [b""] * len(keys)
    number, size, room = libbpf.bpf_map__fd(there), libbpf.bpf_map__value_size(there), ctypes.create_string_buffer(len(ZEROS))
    apart = -(-size // 8) * 8 if libbpf.bpf_map__type(there) in PER_CPU else 0
    found = (libbpf.bpf_map_lookup_elem(number, key, room) == 0 for key in keys)
    return [ctypes.string_at(ctypes.addressof(room) + apart * processor, size) if is_there else b"" for is_there in found]


def answer(libbpf: ctypes.CDLL, program: int, packet: bytes) -> Answer:
    """What Linux makes of a packet."""
    given, left = ctypes.create_string_buffer(packet, max(1, len(packet))), ctypes.create_string_buffer(MOST_LEFT)
    options = Options(sz=ctypes.sizeof(Options), data_in=ctypes.addressof(given), data_out=ctypes.addressof(left))
    options.data_size_in, options.data_size_out, options.repeat = len(packet), MOST_LEFT, 1
    if libbpf.bpf_prog_test_run_opts(program, ctypes.byref(options)):
        return Answer(None, None)
    name = ACTIONS[options.retval] if options.retval < len(ACTIONS) else "ABORTED"
    return Answer(name, left.raw[: options.data_size_out].hex())
