#!/usr/bin/env python3
"""A host of netback's queue in Python, over pages that are bytearrays: host.py liblaxonje.so.4 [PACKETS]

The library's own loop makes each access, and takes several packets in a turn. The guest is a few lines beside it: it sends packets, some by grants that
aren't there, takes what is sent to it, and in the end breaks the protocol."""
import ctypes
import struct
import sys
from ctypes import CFUNCTYPE, POINTER, byref, c_char_p, c_size_t, c_uint8, c_uint16, c_uint32, c_uint64, c_void_p

PAGE_WORDS, PAGE_BYTES = 1024, 4096
TX, RX, TABLE, DATA, FRAMES = 0, 1, 2, 3, 16
MOST_TURNS, TURNS_WORDS = 16, 16432
GUEST, HOST, PORT = 5, 0, 9
PASS, PERMIT = 2, 1
ACCEPTED, MADE, TAKEN = 0, 0, 0
IDLE, RAN, REFUSED, SENT = 0, 1, 2, 4
SLOTS, BYTES = 16, 60
# How many packets are sent at once, each in a page of its own, and the reference of the page for those that come back.
BATCH, BUFFER = 6, 8


def of(name, fields):
    """A struct of the header."""
    return type(name, (ctypes.Structure,), {"_fields_": fields})


Verdict = of("Verdict", [(it, c_uint32) for it in ("kind", "cause", "at")])
Extent = of("Extent", [("frames", c_uint32), ("domain", c_uint16)])
DESC = [("tx", c_uint32), ("rx", c_uint32), ("granter", c_uint16), ("user", c_uint16)]
Desc = of("Desc", DESC + [(it, c_uint32) for it in ("port", "ifindex", "queue", "tx_index", "rx_index")])
Op = of("Op", [(it, c_uint32) for it in ("kind", "outcome", "number", "cause", "ops", "slots", "value", "entry")])
Op.frame = property(lambda op: op.outcome)  # of an access: the header has both in one word
PageCall = CFUNCTYPE(c_void_p, c_void_p, POINTER(Op))
NotifyCall = CFUNCTYPE(None, c_void_p, c_uint32)
ToldCall = CFUNCTYPE(None, c_void_p, POINTER(Op), POINTER(c_uint32))
Io = of("Io", [("host", c_void_p), ("page", PageCall), ("notify", NotifyCall), ("told", ToldCall)])
DRIVE = [("queue", c_void_p), ("tx", c_uint32), ("rx", c_uint32), ("counters", POINTER(c_uint64)), ("counter_count", c_size_t)]
Drive = of("Drive", DRIVE + [("words", c_uint32 * PAGE_WORDS)])
TURNED = [(it, c_uint32) for it in ("outcome", "ops", "number", "slots", "cause", "length", "flags")]
Turned = of("Turned", TURNED + [("segment_type", c_uint16), ("segment_size", c_uint16)])
Turns = of("Turns", [("count", c_uint32), ("several", c_uint32), ("turned", Turned * MOST_TURNS), ("words", c_uint32 * TURNS_WORDS)])

# Each call that is used: its answer, and its parameters.
CALLS = {
    "laxonje_version": (c_uint32, []),
    "laxonje_program_new": (c_void_p, []),
    "laxonje_program_delete": (None, [POINTER(c_void_p)]),
    "laxonje_queue_new": (c_void_p, []),
    "laxonje_queue_delete": (None, [POINTER(c_void_p)]),
    "laxonje_load": (Verdict, [c_char_p, c_size_t, c_void_p, c_size_t, c_void_p]),
    "laxonje_queue_make_extents": (c_uint32, [c_void_p, POINTER(Extent), c_size_t, POINTER(c_uint32), c_size_t, POINTER(Desc), c_void_p]),
    "laxonje_drive_turns": (Op, [POINTER(Drive), POINTER(Io), c_uint32, POINTER(Turns)]),
    "laxonje_drive_packet": (c_size_t, [POINTER(Drive), POINTER(Turns), c_uint32, POINTER(c_uint8), c_size_t]),
    "laxonje_drive_deliver": (c_uint32, [POINTER(Drive), POINTER(Io), c_char_p, c_size_t, POINTER(Op)]),
    "laxonje_name": (c_char_p, [c_uint32, c_uint32]),
}


def library(path):
    """The shared object, with the types of its calls: ctypes would pass a pointer as an int of 32 bits."""
    found = ctypes.CDLL(path)
    for name, (answer, parameters) in CALLS.items():
        call = getattr(found, name)
        call.restype, call.argtypes = answer, parameters
    return found


class Guest:
    """A guest's pages, and what it does with them."""

    def __init__(self):
        self.pages = [bytearray(PAGE_BYTES) for _ in range(FRAMES)]
        for ring in (TX, RX):
            self.set(ring, 1, 1)
            self.set(ring, 3, 1)
        for reference in range(BUFFER + 1):
            self.set(TABLE, 2 * reference, PERMIT)
            self.set(TABLE, 2 * reference + 1, DATA + reference)
        self.sent = self.posted = 0

    def set(self, frame, word, value):
        struct.pack_into("<I", self.pages[frame], 4 * word, value)

    def get(self, frame, word):
        return struct.unpack_from("<I", self.pages[frame], 4 * word)[0]

    def send(self, reference):
        """A packet of its number, in the next page, and a buffer for the answer."""
        self.pages[DATA + self.sent % BATCH][:BYTES] = bytes(self.sent % 251 for _ in range(BYTES))
        slot, buffer = SLOTS + self.sent % 256 * 3, SLOTS + self.posted % 256 * 2
        self.set(TX, slot, reference)
        self.set(TX, slot + 1, 0)
        self.set(TX, slot + 2, self.sent & 0xFFFF | BYTES << 16)
        self.sent += 1
        self.set(TX, 0, self.sent)
        self.set(RX, buffer, self.posted & 0xFFFF)
        self.set(RX, buffer + 1, BUFFER)
        self.posted += reference < BATCH
        self.set(RX, 0, self.posted)


class Host:
    """A queue over a guest's pages. What the library keeps pointers to is kept here."""

    def __init__(self, laxonje, guest):
        self.laxonje, self.guest, self.notices = laxonje, guest, 0
        self.buffers = [(ctypes.c_char * PAGE_BYTES).from_buffer(page) for page in guest.pages]
        self.io = Io(None, PageCall(self.page), NotifyCall(self.notify), ToldCall())
        self.drive, self.turns = Drive(laxonje.laxonje_queue_new(), TX, RX, None, 0), Turns()
        self.packet = (c_uint8 * 65535)()

    def page(self, _, op):
        """What a callback raises is lost, and its answer is then anything: so it answers null, after which no access is made."""
        try:
            return ctypes.addressof(self.buffers[op.contents.frame])
        except (IndexError, TypeError):
            return None

    def notify(self, _, __):
        self.notices += 1

    def make(self, program):
        extents, table = (Extent * 1)(Extent(FRAMES, GUEST)), (c_uint32 * 1)(TABLE)
        desc = Desc(TX, RX, GUEST, HOST, PORT)
        return self.laxonje.laxonje_queue_make_extents(program, extents, 1, table, 1, byref(desc), self.drive.queue)

    def take(self):
        """A turn: what it came to, and what became of each of its packets."""
        over = self.laxonje.laxonje_drive_turns(byref(self.drive), byref(self.io), MOST_TURNS, byref(self.turns))
        return over, self.turns.turned[: self.turns.count]

    def copied(self, number):
        """A packet of the last turn."""
        length = self.laxonje.laxonje_drive_packet(byref(self.drive), byref(self.turns), number, self.packet, len(self.packet))
        return bytes(self.packet[:length])

    def deliver(self, packet):
        over = Op()
        taken = self.laxonje.laxonje_drive_deliver(byref(self.drive), byref(self.io), packet, len(packet), byref(over))
        return over.outcome if taken == TAKEN else None

    def name(self, op):
        return self.laxonje.laxonje_name(op.outcome, op.cause).decode()

    def close(self):
        queue = c_void_p(self.drive.queue)
        self.laxonje.laxonje_queue_delete(byref(queue))
        self.drive.queue = queue.value


def answer(host, guest, number):
    """Delivers a packet of the last turn back. Returns whether anything is wrong."""
    packet = host.copied(number)
    is_sent = host.deliver(packet) == SENT and guest.pages[DATA + BUFFER][:BYTES] == packet
    return packet != bytes(guest.pages[DATA + number][:BYTES]) or not is_sent


def serve(host, guest, packets):
    """Serves so many packets, some at once, and each third by a grant that isn't there. Returns the wrong answers."""
    wrong = 0
    for _ in range(0, packets, BATCH):
        for number in range(BATCH):
            guest.send(77 if number % 3 == 2 else number)
        _, turned = host.take()
        wrong += len(turned) != BATCH
        for number, it in enumerate(turned):
            is_refused = number % 3 == 2
            wrong += it.outcome != REFUSED if is_refused else (it.outcome, it.number) != (RAN, PASS) or answer(host, guest, number)
    return wrong + (host.take()[0].outcome != IDLE)


def lost_page(laxonje, program):
    """What a turn answers, and the next one, if the packet's page can't be had."""
    guest = Guest()
    host = Host(laxonje, guest)
    host.make(program)
    host.buffers[DATA] = None
    guest.send(0)
    names = [host.name(host.take()[0]) for _ in range(2)]
    host.close()
    return ", ".join(names)


def main():
    if len(sys.argv) not in (2, 3):
        sys.exit(__doc__)
    packets = int(sys.argv[2]) if len(sys.argv) == 3 else 600
    laxonje, guest = library(sys.argv[1]), Guest()
    program = c_void_p(laxonje.laxonje_program_new())
    if not program:
        sys.exit(f"the library is of version {laxonje.laxonje_version()}, or memory ran out")
    text = struct.pack("<QQ", 0x00000002000000B7, 0x95)
    host = Host(laxonje, guest)
    if laxonje.laxonje_load(text, len(text), None, 0, program).kind != ACCEPTED or host.make(program) != MADE:
        sys.exit("no program, or no queue")
    print(f"{packets} packets, {serve(host, guest, packets)} wrong")
    guest.set(TX, 0, guest.sent + 257)
    print(host.name(host.take()[0]))
    host.close()
    print(host.name(host.take()[0]))
    print(f"a page that can't be had: {lost_page(laxonje, program)}")
    laxonje.laxonje_program_delete(byref(program))


if __name__ == "__main__":
    main()
