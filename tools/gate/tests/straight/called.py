"""Calls that are written out, beside an interpreter that does them as Linux says."""
import os
import pathlib
import random
import re
import subprocess
import tempfile
import tomllib

from tests.straight import machine
from laxonje_tools.from_c import elf
from tests.straight.calling import MTU, NANOSECONDS, Calling
from tests.straight.objects import object_of

TOOLS = pathlib.Path(__file__).resolve().parents[3]
PLACES = (TOOLS / f"gate/tests/straight/{name}.c" for name in "calls absent mtu sequences repeated frames sums each macros copied".split())
SOURCE, ABSENT, ASKS_MTU, SEQUENCES, REPEATED, FRAMES_DOWN, SUMS, EACH_VALUE, MACROS, COPIED = PLACES
HOSTS_TIME = 9_000_000_000_000_123  # nanoseconds
FOLDS_SUMS = [6, 13]  # Linux from which on bpf_csum_diff gives 16 bits
HEADERS = "#include <linux/bpf.h>\n#include <bpf/bpf_helpers.h>\n"
# what can't be written out: in front of the function, in it, and what is said
REFUSED = {
    "a size that isn't constant": (
        "struct { __uint(type, BPF_MAP_TYPE_ARRAY); __uint(max_entries, 1); __type(key, __u32); __type(value, char[64]); } m SEC(\".maps\");\n",
        "__u32 i = 0; char *a = bpf_map_lookup_elem(&m, &i); return a && bpf_xdp_load_bytes(ctx, 0, a, 1 + (ctx->rx_queue_index & 7)) ? XDP_DROP : XDP_PASS;",
        "of a size that is no constant of 1 to 128, and not with a buffer on the stack",
    ),
    "a function that calls itself": (
        "__attribute__((noinline)) int g(int n) { return n ? g(n - 1) * 3 + 1 : 0; }\n",
        "return g(ctx->rx_queue_index) & 2;",
        "calls functions more than 8 deep",
    ),
    "more than the stack has": (
        "static __attribute__((noinline)) int g(int n) { volatile char a[300]; a[n & 255] = n; return a[3]; }\n",
        "volatile char a[300]; a[ctx->rx_queue_index & 255] = 1; return g(a[1]) + a[2];",
        "would need more than 512 bytes of the stack",
    ),
    "a redirect": ("", "return bpf_redirect(7, 0);", "--without-devices answers as Linux does where there is none"),
    "a redirect to another device": ("", "return bpf_redirect(ctx->rx_queue_index, 0);", "--without-devices answers as Linux does where there is none"),
    "a redirect with flags": ("", "return bpf_redirect(ctx->ingress_ifindex, 1);", "--without-devices answers as Linux does where there is none"),
    "a redirect whose answer is compared": (
        "",
        "return bpf_redirect(ctx->ingress_ifindex, 0) == XDP_REDIRECT ? XDP_PASS : XDP_DROP;",
        "--without-devices answers as Linux does where there is none",
    ),
    "a redirect whose answer is written as a constant": (
        "",
        "bpf_redirect(ctx->ingress_ifindex, 0); return XDP_REDIRECT;",
        "--without-devices answers as Linux does where there is none",
    ),
    "a map of sockets": (
        "struct { __uint(type, BPF_MAP_TYPE_XSKMAP); __uint(max_entries, 4); __type(key, __u32); __type(value, __u32); } m SEC(\".maps\");\n",
        "return bpf_redirect_map(&m, 0, 0);",
        "--without-devices answers as Linux does where there is none",
    ),
    "events": (
        "struct { __uint(type, BPF_MAP_TYPE_RINGBUF); __uint(max_entries, 4096); } m SEC(\".maps\");\n",
        "return bpf_ringbuf_output(&m, (char[4]){}, 4, 0) ? XDP_DROP : XDP_PASS;",
        "--without-events answers as Linux does where nobody reads",
    ),
}
# a function that writes a register which its caller hasn't set
UNSET = """static __attribute__((noinline)) int g(int n) { int x; asm volatile("r6 = %1; %0 = r6" : "=r"(x) : "r"(n) : "r6"); return x; }
SEC("xdp") int f(struct xdp_md *ctx) { return g(ctx->rx_queue_index) ? XDP_DROP : XDP_PASS; }
"""


def packets():
    """Packets of some lengths, of which the first byte counts, and the second is where two bytes are written."""
    rows = [bytes([first, second]) + bytes((7 * first + 13 * at + second) & 255 for at in range(length - 2)) for first in range(0, 256, 5) for second, length in ((0, 14), (12, 14), (13, 14), (40, 60), (255, 99), (3, 101))]
    return rows


def settings_from(clang, xdpbox, *words):
    env = {**os.environ, "CLANG": clang, "XDPBOX": str(xdpbox)}
    return subprocess.run([TOOLS / "settings-from-c", *words], env=env, capture_output=True, text=True, check=False)


def differing(xdpbox, settings, one, given, wanted, actions=3):
    """What is wrong with the program of settings on packets that an interpreter has run, which answered with so many actions."""
    relocations = [(row["slot"], row["map"]) for row in settings["reloc"]]
    runs, counters = machine.filtered(xdpbox, settings, settings["program"], relocations, given)
    wrong = [packet[:8].hex() for packet, mine, theirs in zip(given, wanted, runs) if mine != theirs]
    found = len({row[0] for row in wanted})
    right = not wrong and len(runs) == len(given) and counters == one.counters() and actions in (None, found)
    return "" if right else f"{wrong[:3]} {counters} {one.counters()} {found} actions"


def absent_tests(clang, xdpbox, folder):
    """What isn't there gives Linux's answers, by an interpreter that gives them."""
    run = settings_from(clang, xdpbox, "--without-devices", "--without-events", ABSENT)
    if run.returncode:
        yield "what isn't there is left out", run.stderr
        return
    noted = "the map sockets is empty", "as in Linux while the map", "if nobody reads", "if forwarding is off"
    yield "what is answered as if there were none is noted", "" if all(words in run.stderr for words in noted) else run.stderr
    data = object_of(clang, ABSENT, folder / "absent.o").read_bytes()
    settings = tomllib.loads(run.stdout)
    given = [bytes([first, second]) + bytes(12 + second) for first in range(16) for second in range(8)]
    empty = [{"name": name, "entries": 0} for name in ("sockets", "devices", "processors", "events", "ring")]
    one = Calling(elf.sections_of(data), [*settings["map"], *empty])
    wanted = [one.run(packet) for packet in given]
    yield f"what isn't there, on {len(given)} packets", differing(xdpbox, settings, one, given, wanted)


def mtu_tests(clang, xdpbox, folder):
    """bpf_check_mtu for the packet's own device, by an interpreter that knows its MTU, and by Linux."""
    run = settings_from(clang, xdpbox, "--mtu", str(MTU), ASKS_MTU)
    if run.returncode:
        yield "an MTU is compared", run.stderr
        return
    yield "an MTU that is given is noted", "" if f"own device, with an MTU of {MTU}" in run.stderr else run.stderr
    settings, data = tomllib.loads(run.stdout), object_of(clang, ASKS_MTU, folder / "mtu.o").read_bytes()
    firsts = [(length, device, more, flags) for length in (0, 125, 128, 129, 255) for device in range(3) for more in (0, 40, 64, 255) for flags in (0, 1)]
    given = [bytes(first) + bytes(size - 4) for first in firsts for size in (60, 1474, 1514)]
    one = Calling(elf.sections_of(data), settings["map"])
    wanted = [one.run(packet) for packet in given]
    yield f"an MTU on {len(given)} packets", differing(xdpbox, settings, one, given, wanted)
    lines = folder / "mtu.packets"
    lines.write_text("".join(f"{action} {packet.hex()}\n" for packet, (action, _) in zip(given, wanted)))
    env = {**os.environ, "CLANG": clang, "XDPBOX": str(xdpbox)}
    run = subprocess.run([TOOLS / "filter-test", "--linux", "--mtu", str(MTU), ASKS_MTU, lines], env=env, capture_output=True, text=True, check=False)
    unasked = "" if "Linux isn't asked" not in run.stderr else f" ({run.stderr.strip().splitlines()[-1]})"
    yield f"an MTU beside Linux{unasked}", "" if not run.returncode and run.stdout.endswith(f"{len(given)} passed, 0 failed\n") else run.stdout[-300:] + run.stderr[-300:]


def repeated_tests(clang, xdpbox, folder):
    """Functions that bpf_loop calls, by an interpreter that calls them."""
    run = settings_from(clang, xdpbox, REPEATED)
    if run.returncode:
        yield "bpf_loop is written out", run.stderr
        return
    settings, data = tomllib.loads(run.stdout), object_of(clang, REPEATED, folder / "repeated.o").read_bytes()
    given = [bytes([times + 64 * sum, stop]) + bytes((times * at + stop) & 15 for at in range(10 + length)) for times in range(16) for sum in range(4) for stop in (0, 3, 8, 99) for length in (2, 4, 9)]
    one = Calling(elf.sections_of(data), settings["map"])
    wanted = [one.run(packet) for packet in given]
    yield f"bpf_loop on {len(given)} packets", differing(xdpbox, settings, one, given, wanted)


def copied_tests(clang, xdpbox, folder):
    """Copies of as many bytes as a register says, by an interpreter that makes them."""
    run = settings_from(clang, xdpbox, COPIED)
    if run.returncode:
        yield "copies of bounded sizes are written out", run.stderr
        return
    settings, data = tomllib.loads(run.stdout), object_of(clang, COPIED, folder / "copied.o").read_bytes()
    given = [bytes([first, first >> 1, size]) + bytes((at * size + first) & 15 for at in range(length)) for first in range(8) for size in range(0, 40, 3) for length in (11, 12, 20, 27, 60)]
    one = Calling(elf.sections_of(data), settings["map"])
    wanted = [one.run(packet) for packet in given]
    yield f"copies of bounded sizes on {len(given)} packets", differing(xdpbox, settings, one, given, wanted, 4)


def each_tests(clang, xdpbox, folder):
    """A function that bpf_for_each_map_elem calls for each value of an array, and a lock that is left out, by an interpreter."""
    alone, run = settings_from(clang, xdpbox, "--without-locks", EACH_VALUE), settings_from(clang, xdpbox, EACH_VALUE)
    if run.returncode:
        yield "bpf_for_each_map_elem is written out", run.stderr
        return
    yield "a lock that is left out is noted", "" if "has one queue at a time judge" in run.stderr else run.stderr
    yield "a host learns of a lock by a map", "" if "# map bpf_spin_lock: the host has one queue" in run.stdout else run.stdout[:400]
    is_known = "while another queue judges too" in alone.stderr and "bpf_spin_lock" not in alone.stdout
    yield "a lock that an author leaves out is noted", "" if is_known else alone.stderr
    settings, data = tomllib.loads(run.stdout), object_of(clang, EACH_VALUE, folder / "each.o").read_bytes()
    given = [bytes([at, net]) + bytes([at * 7 & 255, at & 3] * 6) for at in range(256) for net in (0, 1, 5, 130)]
    one = Calling(elf.sections_of(data), [{**row, "counters": row.get("counters", 1)} for row in settings["map"]])
    wanted = [one.run(packet) for packet in given]
    yield f"bpf_for_each_map_elem on {len(given)} packets", differing(xdpbox, settings, one, given, wanted)


def action_of_macros(packet):
    """What macros.c answers, as Linux's strncmp and loops are."""
    word, at = packet[:8], packet[8]
    if word[:4] == b"GET ":
        return "TX"
    if word[:4] == b"PUT\0":
        return "DROP"
    if packet[13] == 7 and word[:4].partition(b"\0")[0] < b"GET ":
        return "ABORTED"
    total = sum(packet[8:14]) + 3 * 13
    if at + 4 > len(packet):
        return "PASS"
    return "DROP" if (int.from_bytes(packet[at + 2 : at + 4], "little") + total) & 1 else "PASS"


def macro_tests(clang, xdpbox):
    """What libbpf has as macros, and a helper that is C here, beside what they are in Linux."""
    run = settings_from(clang, xdpbox, MACROS)
    if run.returncode:
        yield "libbpf's loops and bpf_strncmp are C", run.stderr
        return
    words = b"GET /abc", b"GET", b"PUT\0abcd", b"PUT /abc", b"GEU", b"GES", b"\xff\xfe", b"", b"\0GET", b"G\x80"
    given = [word.ljust(8, b"\0")[:8] + bytes([at, 3, at ^ 5, 9, 1, last]) + bytes(range(20)) for word in words for at in (0, 5, 11, 29, 30, 31, 255) for last in (7, 8)]
    settings = tomllib.loads(run.stdout)
    relocations = [(row["slot"], row["map"]) for row in settings.get("reloc", [])]
    runs, _ = machine.filtered(xdpbox, settings, settings["program"], relocations, given)
    wrong = [packet.hex() for packet, (action, _) in zip(given, runs) if action != action_of_macros(packet)]
    yield f"libbpf's loops and bpf_strncmp on {len(given)} packets", f"{wrong[:3]}" if wrong or len(runs) != len(given) else ""


def sequence_tests(clang, xdpbox, folder):
    """The time, which goes on at each call or is the host's, random numbers, and sums of as many bytes as a register says, by an
    interpreter that does these calls."""
    time, data = folder / "time", object_of(clang, SEQUENCES, folder / "sequences.o").read_bytes()
    time.write_text(f"{HOSTS_TIME}\n")
    counted, of_host = ("--clock", str(NANOSECONDS)), ("--values", f"bpf_ktime_get_ns={time}")
    for name, words, noted in (("a counted time", counted, f"goes on by {NANOSECONDS} nanoseconds"), ("the host's time", of_host, "laxonje-netback writes")):
        run = settings_from(clang, xdpbox, *words, SEQUENCES)
        if run.returncode:
            yield f"numbers of sequences and {name} are written out", run.stderr
            continue
        right = noted in run.stderr and "the numbers of one sequence" in run.stderr
        yield f"numbers of sequences and {name} are noted", "" if right else run.stderr
        yield f"numbers of sequences and {name}", sequences_differing(xdpbox, tomllib.loads(run.stdout), data)
    run = settings_from(clang, xdpbox, SEQUENCES)
    right = "# map bpf_ktime_get_ns: the host writes the time there, in nanoseconds\n" in run.stdout
    yield "settings say where the time stands", "" if right else run.stdout[:300] + run.stderr


def sequences_differing(xdpbox, settings, data):
    """What is wrong with the program of settings on some packets, beside an interpreter of the object."""
    given = [bytes([size, side, 255 - size, 0]) + bytes((side + at * size) & 255 for at in range(16 + side)) for size in range(0, 256, 3) for side in range(4)]
    one = Calling(elf.sections_of(data), settings["map"])
    return differing(xdpbox, settings, one, given, [one.run(packet) for packet in given])


def sum_tests(clang, xdpbox, folder):
    """Sums of words of which many are 0 or all bits, by an interpreter, and by a Linux that folds them as this one does."""
    chance, words = random.Random(5), [bytes(4), b"\xff" * 4, b"\1\0\0\0", b"\xfe\xff\xff\xff", b"\0\0\xff\xff", b"\xff\xff\0\0"]
    given = [b"".join(chance.choice([*words, chance.randbytes(4)]) for _ in range(30)) for _ in range(200)]
    one = Calling(elf.sections_of(object_of(clang, SUMS, folder / "sums.o").read_bytes()), [])
    lines = folder / "sums.packets"
    lines.write_text("".join(f"{action} {packet.hex()} {left.hex()}\n" for packet, (action, left) in zip(given, map(one.run, given))))
    env = {**os.environ, "CLANG": clang, "XDPBOX": str(xdpbox)}
    release = [int(number) for number in re.findall("[0-9]+", os.uname().release)[:2]]
    beside = ["--linux"] if release >= FOLDS_SUMS else []
    run = subprocess.run([TOOLS / "filter-test", *beside, SUMS, lines], env=env, capture_output=True, text=True, check=False)
    right = not run.returncode and run.stdout.endswith(f"{len(given)} passed, 0 failed\n")
    yield f"sums of each kind{' beside Linux' if beside else ''}", "" if right else run.stdout[-300:] + run.stderr[-300:]
    yield "a size that may be odd is noted", "" if "that is no multiple of 4" in run.stderr else run.stderr


def frame_tests(clang, xdpbox, folder):
    """Places of the stack that no instruction names are kept apart from what the tool puts there; of an object nobody says where a
    frame ends."""
    run, target = settings_from(clang, xdpbox, FRAMES_DOWN), object_of(clang, FRAMES_DOWN, folder / "frames.o")
    if run.returncode:
        yield "frames that aren't named are used", run.stderr
        return
    settings = tomllib.loads(run.stdout)
    given = [bytes(first * at + second & 255 for at in range(32 + second % 3)) for first in range(1, 8) for second in range(9)]
    one = Calling(elf.sections_of(target.read_bytes()), settings["map"])
    wanted = [one.run(packet) for packet in given]
    yield f"frames that aren't named, on {len(given)} packets", differing(xdpbox, settings, one, given, wanted, None)
    run = settings_from(clang, xdpbox, target)
    right = run.returncode == 1 and not run.stdout and "its object file doesn't show how much of the stack" in run.stderr
    yield "an object of such frames is refused", "" if right else run.stderr + run.stdout[:80]


def tests(clang, xdpbox):
    with tempfile.TemporaryDirectory() as folder:
        data = object_of(clang, SOURCE, pathlib.Path(folder, "calls.o")).read_bytes()
        for source in (SOURCE, pathlib.Path(folder, "calls.o")):
            run = settings_from(clang, xdpbox, source)
            if run.returncode:
                yield f"calls of {source.name} are written out", run.stderr
                continue
            yield f"{source.name}: what has another answer is noted", "" if "gives 0 here" in run.stderr and "left out" in run.stderr else run.stderr
            settings, given = tomllib.loads(run.stdout), packets()
            one = Calling(elf.sections_of(data), settings["map"])
            wanted = [one.run(packet) for packet in given]
            yield f"{source.name}: calls on {len(given)} packets", differing(xdpbox, settings, one, given, wanted)
        yield from absent_tests(clang, xdpbox, pathlib.Path(folder))
        yield from mtu_tests(clang, xdpbox, pathlib.Path(folder))
        yield from macro_tests(clang, xdpbox)
        yield from sequence_tests(clang, xdpbox, pathlib.Path(folder))
        yield from repeated_tests(clang, xdpbox, pathlib.Path(folder))
        yield from copied_tests(clang, xdpbox, pathlib.Path(folder))
        yield from each_tests(clang, xdpbox, pathlib.Path(folder))
        yield from sum_tests(clang, xdpbox, pathlib.Path(folder))
        yield from frame_tests(clang, xdpbox, pathlib.Path(folder))
        path = pathlib.Path(folder, "unset.c")
        path.write_text(HEADERS + UNSET)
        run = settings_from(clang, xdpbox, path)
        yield "a register that a caller hasn't set isn't kept", "" if not run.returncode and "straightened" not in run.stdout else run.stderr
        path = pathlib.Path(folder, "refused.c")
        for name, (before, body, wanted) in REFUSED.items():
            path.write_text(f'{HEADERS}{before}SEC("xdp") int f(struct xdp_md *ctx) {{ {body} }}\n')
            run = settings_from(clang, xdpbox, path)
            right = run.returncode == 1 and not run.stdout and wanted in run.stderr and run.stderr.count("\n") == 1
            yield f"{name} is named", "" if right else run.stderr
