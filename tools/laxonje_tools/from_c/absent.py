"""What isn't here, with Linux's answer where there is none of it either: no device or socket in a map, forwarding that is off, no
socket of a connection, and nobody who reads events.

Only a command that says so has these answers: what a program is for may then never happen."""
from __future__ import annotations

from typing import TYPE_CHECKING, Callable, Iterable, NamedTuple, Optional

if TYPE_CHECKING:
    from collections.abc import Mapping

# what a command may say is left out; the first two have the kinds of maps below, by their numbers in Linux's uapi/linux/bpf.h
LEFT_OUT = DEVICES, EVENTS, LOCKS = "devices", "events", "locks"
DEVICE_MAPS = 14, 25  # by their number or a hash of it, of which each may be sent a copy
KINDS = {14: DEVICES, 15: DEVICES, 16: DEVICES, 17: DEVICES, 18: DEVICES, 25: DEVICES, 4: EVENTS, 27: EVENTS}
LOOKUP, REDIRECT, REDIRECT_MAP = 1, 23, 51
# the latter is XDP_REDIRECT, as which a packet is dropped if there is no such device
ABORTED, SENT_BACK, DROPPED = 0, 3, 4
ACTIONS = "XDP_ABORTED", "XDP_DROP", "XDP_PASS", "XDP_TX", "XDP_REDIRECT"
# of the flags of bpf_redirect_map: the action if there is no device, all devices, and all but the packet's own
ACTION, ALL_DEVICES, BUT_ITS_OWN = 3, 8, 16
# by a helper's number what it is of, its answer, and why
ANSWERS = {
    25: (EVENTS, -2, "bpf_perf_event_output gives -ENOENT, as in Linux if nobody reads"),
    69: (DEVICES, 5, "bpf_fib_lookup gives BPF_FIB_LKUP_RET_FWD_DISABLED, as in Linux if forwarding is off"),
    84: (DEVICES, 0, "bpf_sk_lookup_tcp gives no socket"),
    85: (DEVICES, 0, "bpf_sk_lookup_udp gives no socket"),
    86: (DEVICES, 0, "bpf_sk_release isn't reached, since there is no socket"),
    99: (DEVICES, 0, "bpf_skc_lookup_tcp gives no socket"),
    100: (DEVICES, -22, "bpf_tcp_check_syncookie isn't reached, since there is no socket"),
    110: (DEVICES, -22, "bpf_tcp_gen_syncookie isn't reached, since there is no socket"),
    130: (EVENTS, -11, "bpf_ringbuf_output gives -EAGAIN, as in Linux if the buffer is full"),
    131: (EVENTS, 0, "bpf_ringbuf_reserve gives no room, as in Linux if the buffer is full"),
    132: (EVENTS, 0, "bpf_ringbuf_submit isn't reached, since there is no room"),
    133: (EVENTS, 0, "bpf_ringbuf_discard isn't reached, since there is no room"),
}


class Absent(NamedTuple):
    """`left_out`: what a command says. `maps`: by name the kind of each map."""

    left_out: frozenset[str]
    maps: Mapping[str, int]

    def has(self, name: Optional[str]) -> bool:
        """Whether a map is one of what is left out."""
        return KINDS.get(self.maps.get(name)) in self.left_out

    def answer(self, number: int, constant_in: Callable, map_in: Callable) -> Optional[tuple[int, str]]:
        """A helper's answer, and why, if it is of what is left out. `constant_in` and `map_in`: of a register the constant, or the
        map, that it surely has."""
        if number == LOOKUP:
            name = map_in(1)
            return (0, f"the map {name} is empty, and a lookup gives 0") if self.has(name) else None
        if number == REDIRECT and DEVICES in self.left_out:
            flags = constant_in(2)
            if flags is None:
                return None
            action = ABORTED if flags else DROPPED
            return action, f"bpf_redirect gives {ACTIONS[action]}, and the packet is dropped, as in Linux if there is no such device"
        if number == REDIRECT_MAP:
            name, flags = map_in(1), constant_in(3)
            if flags is None or not self.has(name):
                return None
            action = action_by(flags, self.flags_of(name))
            return action, f"bpf_redirect_map gives {ACTIONS[action]}, as in Linux while the map {name} is empty"
        of, number, why = ANSWERS.get(number, (None, 0, ""))
        return (number, why) if of in self.left_out else None

    def flags_of(self, name: str) -> int:
        """The flags of bpf_redirect_map that a map knows. They stand in the place of its address."""
        return ACTION | (ALL_DEVICES | BUT_ITS_OWN if self.maps[name] in DEVICE_MAPS else 0)


def action_by(flags: int, known: int) -> int:
    """What bpf_redirect_map gives if there is nothing in the map."""
    if flags < 0 or flags & ~known:
        return ABORTED
    return DROPPED if flags & ALL_DEVICES else flags & ACTION


def kinds_of(declared: Iterable) -> dict[str, int]:
    """By name the kind of each map that is declared."""
    return {row.name: row.type for row in declared if row.type is not None}
