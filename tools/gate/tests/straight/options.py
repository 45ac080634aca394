"""What tools/settings-from-c is asked for besides a file, and tools/filter-test."""
import os
import pathlib
import re
import subprocess
import tempfile
import tomllib

from tests.straight import machine
from tests.straight import rows as rows_of_filters
from laxonje_tools.straight.verifier import called

TOOLS = pathlib.Path(__file__).resolve().parents[3]
EXAMPLES, FILTERS = TOOLS.parent / "examples", TOOLS / "gate/tests/straight/filters"
HEADERS = "#include <linux/bpf.h>\n#include <bpf/bpf_helpers.h>\n"
LIMITS = """const volatile __u8 first = 1; const volatile __s16 second = -5; const volatile __u64 third = 7; int fourth = 9;
SEC("xdp") int f(struct xdp_md *ctx) {
	__u8 *p = (void *)(long)ctx->data;
	if (p + 14 > (__u8 *)(long)ctx->data_end) return XDP_ABORTED;
	if (p[0] == first) return XDP_DROP;
	if ((__s16)(p[1] - 128) == second) return XDP_TX;
	return p[2] == third || p[3] == fourth ? XDP_PASS : XDP_ABORTED;
}
"""
# what is set, and what then becomes of the packet 04 80 09 0b
SET = {
    (): "ABORTED",
    ("first=4",): "DROP",
    ("first=0x04", "second=0"): "DROP",
    ("second=0",): "TX",
    ("third=9",): "PASS",
    ("fourth=11",): "PASS",
}
WRONG_VALUES = {
    "fifth=1": "there is no constant fifth to set",
    "first=256": "first has 1 bytes, which can't hold 256",
    "second=-32769": "second has 2 bytes, which can't hold -32769",
    "first": "isn't NAME=VALUE",
    "first=\u0664": "isn't NAME=VALUE",
    "=1": "isn't NAME=VALUE",
}
WRONG_PACKETS = {
    "": "there is no packet in it",
    "# PASS 00\n\n": "there is no packet in it",
    "KEEP 00": "isn't ACTION PACKET [PACKET], in hex",
    "PASS zz": "isn't ACTION PACKET [PACKET], in hex",
    "PASS": "isn't ACTION PACKET [PACKET], in hex",
    "PASS 00": "settings refused L4",
    "\xff": "isn't ACTION PACKET [PACKET], in hex",
    "at 1s\nPASS 00": "there is a time for it, and the filter has no map bpf_ktime_get_ns",
    "at 1": "at wants a number with ns, us, ms or s behind it",
    "at 1 s": "at wants a number with ns, us, ms or s behind it",
    "at": "at wants a number with ns, us, ms or s behind it",
    "at 0.5ns": "and no part of one",
    "at 9223372037s": "a time has 0 to 9223372036854775807 nanoseconds",
    "at 2ms\nat 1999us": "the time doesn't go back",
}


def ran(clang, xdpbox, tool, *words, **more):
    env = {**os.environ, "CLANG": clang, "XDPBOX": str(xdpbox)}
    run = subprocess.run([TOOLS / tool, *words], env=env, capture_output=True, text=True, check=False, **more)
    return run.stdout, run.stderr, run.returncode


def set_tests(clang, xdpbox, path):
    path.write_text(HEADERS + LIMITS)
    for values, wanted in SET.items():
        words = [word for value in values for word in ("--set", value)]
        made, said, _ = ran(clang, xdpbox, "settings-from-c", *words, path)
        yield f"--set {' '.join(values)}", "" if action_of(xdpbox, made) == wanted else said
    for value, wanted in WRONG_VALUES.items():
        made, said, status = ran(clang, xdpbox, "settings-from-c", "--set", value, path)
        yield f"--set {value} is named", "" if status and not made and wanted in said and said.count("\n") == 1 else said


def action_of(xdpbox, text):
    """What becomes of the packet by printed settings."""
    settings = tomllib.loads(text) if text else {"program": []}
    runs, _ = machine.filtered(xdpbox, settings, settings["program"], [], [bytes([4, 128, 9, 11]) + bytes(10)])
    return runs[0][0] if runs else None


# settings in which a number can't be set
WRONG_SETTINGS = {
    "no comment": lambda text: re.sub("(?m)^# constant .*\n", "", text),
    "another map": lambda text: text.replace("of map .rodata", "of map a"),
    "too far": lambda text: text.replace("bytes 0 to 0", "bytes 99 to 99"),
    "turned round": lambda text: text.replace("bytes 0 to 0", "bytes 3 to 0"),
    "no TOML": lambda text: text + "]",
    "a row in two notations": lambda text: text.replace('"01', '"\\u00301'),
}


def set_again_tests(clang, xdpbox, path):
    """Settings that were printed, with other numbers: nothing is compiled, and xdpbox isn't asked."""
    source = path.with_suffix(".c")
    source.write_text(HEADERS + LIMITS)
    first, _, _ = ran(clang, xdpbox, "settings-from-c", source)
    path.write_text(first)
    for values, wanted in SET.items():
        words = [word for value in values for word in ("--set", value)]
        made, said, _ = ran("/nowhere", "/nowhere", "settings-from-c", *words, path) if values else (first, "", 0)
        yield f"{' '.join(values)} set again", "" if action_of(xdpbox, made) == wanted else said
        yield "with the same program", "" if made and tomllib.loads(made)["program"] == tomllib.loads(first)["program"] else made
    for value in ("fifth=1", "first=256", "second=-32769"):
        made, said, status = ran(clang, xdpbox, "settings-from-c", "--set", value, path)
        yield f"{value} set again is named", "" if status and not made and said.count("\n") == 1 else made + said
    for words in ((), ("--set", "first=1", "--guard"), ("--set", "first=1", "m=9")):
        made, said, status = ran(clang, xdpbox, "settings-from-c", *words[:2], path, *words[2:])
        yield f"{words} of settings", "" if status and not made and "and nothing else" in said else made + said
    for name, changed in WRONG_SETTINGS.items():
        path.write_text(changed(first))
        made, said, status = ran(clang, xdpbox, "settings-from-c", "--set", "first=4", path)
        yield f"{name}: no number is set", "" if status == 1 and not made and said.count("\n") == 1 else made + said

SIZES = """struct { __uint(type, BPF_MAP_TYPE_%s); __type(key, __u32); __type(value, struct { __u64 n[2]; }); } m SEC(".maps");
SEC("xdp") int f(struct xdp_md *ctx) { __u32 k = 0; __u64 *v = bpf_map_lookup_elem(&m, &k); if (v) __sync_fetch_and_add(v + 1, 1); return XDP_PASS; }
"""


# a map in front of the other one, with its number of entries
FIRST = SIZES.split("\n")[0].replace("} m SEC", "__uint(max_entries, 3); } first SEC") % "ARRAY" + "\n"
WRONG_ENTRIES = {
    "n=9": "it declares no map n",
    "m=0": "m",
    "m=1025": "the map m has 1025 entries: 1 to 1024",
    "m=9:2": "m=9:2 isn't NAME=ENTRIES",
    "m": "isn't NAME=ENTRIES",
}


def size_tests(clang, xdpbox, path):
    """A map whose number of entries the loader gives: a word does here. Its values keep their size, and it its kind."""
    path.write_text(HEADERS + SIZES % "ARRAY")
    for word, wanted in (("m=9", {"name": "m", "entries": 9, "counters": 2}), ("m=9:3", {"name": "m", "entries": 9, "counters": 3})):
        made, said, _ = ran(clang, xdpbox, "settings-from-c", path, word)
        yield f"the word {word}", "" if made and tomllib.loads(made)["map"] == [wanted] else made + said
    path.write_text(HEADERS + FIRST + SIZES % "ARRAY")
    for words, wanted in (((), (3, 0)), (("--entries", "m=9"), (3, 9)), (("--entries", "m=9", "--entries", "first=2"), (2, 9))):
        made, said, _ = ran(clang, xdpbox, "settings-from-c", *words, path)
        sizes = {row["name"]: row["entries"] for row in tomllib.loads(made)["map"]} if made else {}
        right = list(sizes.items()) == [("first", wanted[0]), ("m", wanted[1])] if wanted[1] else not made and "max_entries" in said
        yield f"--entries {words}, in their order", "" if right else made + said
    for word, wanted in WRONG_ENTRIES.items():
        made, said, status = ran(clang, xdpbox, "settings-from-c", "--entries", word, path)
        yield f"--entries {word} is named", "" if status and not made and wanted in said and said.count("\n") == 1 else said
    path.write_text(HEADERS + SIZES % "HASH")
    made, said, status = ran(clang, xdpbox, "settings-from-c", path, "m=9")
    right = made and tomllib.loads(made)["map"] == [{"name": "m", "entries": 9, "counters": 2, "key": "exact", "size": 4}]
    yield "a word makes no array of a hash map", "" if right and not status else made + said


def same_tests(clang, xdpbox, path):
    """The question that xdpbox same was asked."""
    kept = path.with_suffix(".asked")
    for source in (EXAMPLES / "straightened/loop-with-break/loop_with_break.c", FILTERS / "16-blocklist.c"):
        made, said, status = ran(clang, xdpbox, "settings-from-c", "--same", kept, source)
        right = made and not status and kept.exists() and called(xdpbox, kept.read_text()).how == "same"
        yield f"--same of {source.stem} keeps a question", "" if right else said
        kept.unlink(missing_ok=True)
    for source in (path, FILTERS / "39-arp-balance.c"):
        made, said, status = ran(clang, xdpbox, "settings-from-c", "--same", kept, source)
        right = not made and not kept.exists() and status and "--same: " in said and "nothing was asked" in said
        yield f"--same of {source.stem}, which is accepted as the tool changed it", "" if right else said


GUARDED = HEADERS + """SEC("xdp") int f(struct xdp_md *ctx) {
	__u8 *p = (void *)(long)ctx->data, *end = (void *)(long)ctx->data_end; if (p + 20 > end) return XDP_DROP;
	__u32 sum = 0; for (int i = 0; i < 30; i++) { sum += p[i] * i; if (sum == 99) break; } return sum & 1; }
"""


def guard_tests(clang, xdpbox, path):
    """A loop in which an access isn't compared: with a test in front of it a program is found that is the same as with this."""
    path.write_text(GUARDED)
    made, said, status = ran(clang, xdpbox, "settings-from-c", "--guard", path)
    right = not status and ", proved\n# with tests in front of accesses that --guard put in: 1\n" in made and "ABORTED" in said
    yield "--guard in a loop", "" if right else said
    packets = path.with_suffix(".packets")
    packets.write_text("".join(f"{action} {'00' * length}\n" for action, length in (("DROP", 19), ("ABORTED", 29), ("ABORTED", 30))))
    made, said, status = ran(clang, xdpbox, "filter-test", "--guard", path, packets)
    yield "--guard in a loop, on packets", "" if not status and made.endswith("3 passed, 0 failed\n") else made + said


def packet_tests(clang, xdpbox, folder):
    """Packets and captures with their verdicts."""
    source, beside = FILTERS / "47-majority.c", FILTERS / "47-majority.packets"
    made, said, status = ran(clang, xdpbox, "filter-test", source, beside)
    yield "filter-test on packets", "" if not status and made.endswith("27 passed, 0 failed\n") and "counter lead 0 7\n" in made else made + said
    run = subprocess.run([TOOLS / "filter-test", EXAMPLES / "drop-ipv6/settings.toml", "/dev/stdin"], env={**os.environ, "XDPBOX": str(xdpbox)}, input=f"DROP {'00' * 14}\n", capture_output=True, text=True, check=False)
    yield "packets from a pipe", "" if run.returncode == 1 and run.stdout == "/dev/stdin:1: PASS, and not DROP\n0 passed, 1 failed\n" else run.stdout + run.stderr
    path, lines = folder / "packets", beside.read_text().splitlines()
    at = next(number for number, line in enumerate(lines) if line.startswith("PASS"))
    path.write_text("\n".join(["# one that is wrong", *lines[:at], "DROP " + lines[at].split()[1], *lines[at + 1 :], ""]))
    made, said, status = ran(clang, xdpbox, "filter-test", source, path)
    wrong = made.startswith(f"{path}:{at + 2}: PASS, and not DROP\n") and made.endswith("26 passed, 1 failed\n")
    yield "one that is wrong", "" if status == 1 and wrong else made + said
    words = lines[at].split()
    path.write_text(f"PASS {words[1]} {'ff' * 14}\n")
    made, _, status = ran(clang, xdpbox, "filter-test", source, path)
    yield "one that is left otherwise", "" if status == 1 and ": PASS, but it leaves " in made else made
    settings, capture, verdicts = EXAMPLES / "drop-ipv6/settings.toml", EXAMPLES / "five-packets.pcap", folder / "verdicts"
    verdicts.write_text("PASS\nPASS\nPASS\nPASS\nDROP\n")
    made, said, status = ran(clang, xdpbox, "filter-test", settings, capture, verdicts)
    yield "filter-test on a capture", "" if not status and made == "5 passed, 0 failed\n" else made + said
    verdicts.write_text("PASS\nPASS\n")
    made, said, status = ran(clang, xdpbox, "filter-test", settings, capture, verdicts)
    yield "too few verdicts", "" if status and not made and "has 2 verdicts, and" in said else said
    for text, wanted in WRONG_PACKETS.items():
        path.write_text(text, encoding="utf-8")
        made, said, status = ran(clang, xdpbox, "filter-test", settings, path)
        yield f"packets {text!r}", "" if status and not made and wanted in said and said.count("\n") == 1 else said
    for words, wanted in (((), "takes a filter"), ((settings, folder), "Is a directory"), ((settings, capture), "a file of verdicts"), ((settings, "/nowhere"), "No such file")):
        made, said, status = ran(clang, xdpbox, "filter-test", *words)
        yield f"{wanted} of filter-test", "" if status and not made and wanted in said and said.count("\n") == 1 else said


TCP, UDP, SYN, NAMES = 6, 17, 2, 53


def ipv4(protocol, source, port=80, flags=0):
    """A packet of IPv4 from an address."""
    ip = bytes([0x45, 0, 0, 40, 0, 0, 0, 0, 64, protocol, 0, 0, *source, 10, 0, 0, 1])
    return bytes(12) + b"\x08\0" + ip + bytes([4, 0]) + port.to_bytes(2, "big") + bytes(9) + bytes([flags]) + bytes(6)


def example_tests(clang, xdpbox, folder):
    """A rate without a clock, and state by address: what becomes of packets in their order."""
    syn, other = ipv4(TCP, (10, 0, 0, 2), 80, SYN), ipv4(TCP, (10, 0, 0, 2))
    one, two, plain = ipv4(UDP, (10, 0, 0, 2), NAMES), ipv4(UDP, (10, 0, 7, 9), NAMES), ipv4(UDP, (10, 0, 0, 2))
    # 64, and one for each eight packets, these among them
    share = [(syn, "PASS", 74), (syn, "DROP", 5), (other, "PASS", 3)]
    share += [row for drops in (5, 7, 7) for row in ((syn, "PASS", 1), (syn, "DROP", drops))]
    budget = [(one, "PASS", 32), (one, "DROP", 9), (two, "PASS", 32), (two, "DROP", 1), (plain, "PASS", 2), (one, "PASS", 1), (one, "DROP", 1)]
    for name, rows in (("syn-share", share), ("budget-by-source", budget)):
        path = folder / "of-an-example"
        path.write_text("".join(f"{action} {packet.hex()}\n" * count for packet, action, count in rows))
        source = EXAMPLES / "straightened" / name / f"{name.replace('-', '_')}.c"
        made, said, status = ran(clang, xdpbox, "filter-test", source, path)
        yield f"the example {name}", "" if not status and "passed, 0 failed\n" in made else made[-600:] + said


# by source two packets at once, and then one each half second
BUCKETS = """#include <linux/if_ether.h>
#include <linux/ip.h>
struct bucket { __u64 left, time; };
struct { __uint(type, BPF_MAP_TYPE_ARRAY); __uint(max_entries, 256); __type(key, __u32); __type(value, struct bucket); } buckets SEC(".maps");
SEC("xdp") int f(struct xdp_md *ctx) {
	void *data = (void *)(long)ctx->data, *end = (void *)(long)ctx->data_end;
	struct iphdr *ip = data + sizeof(struct ethhdr);
	if ((void *)(ip + 1) > end) return XDP_PASS;
	__u32 key = ip->saddr >> 24;
	struct bucket *one = bpf_map_lookup_elem(&buckets, &key);
	if (!one) return XDP_PASS;
	__u64 now = bpf_ktime_get_ns(), left = one->left + (now - one->time);
	if (left > 1000000000) left = 1000000000;
	one->time = now;
	if (left < 500000000) { one->left = left; return XDP_DROP; }
	one->left = left - 500000000;
	return XDP_PASS;
}
"""


def time_tests(clang, xdpbox, folder):
    """A limit by the time that packets have."""
    source, path, (one, two) = folder / "buckets.c", folder / "in-time", (ipv4(UDP, (10, 0, 0, last)).hex() for last in (2, 3))
    source.write_text(HEADERS + BUCKETS)
    steps = ("5s", "PPD", "P"), ("5499.999999ms", "D", "P"), ("5500ms", "PD", "PD"), ("9s", "PPD", "PPD"), ("9000000999ns", "D", "D"), ("9500001us", "PD", "PD")
    lines = []
    for time, *each in steps:
        lines += [f"at {time}", *(f"{'PASS' if char == 'P' else 'DROP'} {packet}" for packet, chars in zip((one, two), each) for char in chars)]
    path.write_text("\n".join(lines))
    made, said, status = ran(clang, xdpbox, "filter-test", "--linux", source, path)
    right = not status and made.endswith(f"{sum(not line.startswith('at') for line in lines)} passed, 0 failed\n")
    yield "a limit by the time that packets have", "" if right else made[-600:] + said
    yield "Linux's own time isn't asked for", "" if "Linux isn't asked: " in said and ("asks for the time" in said or "root" in said) else said


# filters of which Linux makes the same: arrays, lists of keys, and constants in memory
BESIDE_LINUX = (
    "47-majority", "61-narrow-values", "63-open-ports", "59-replay-window", "16-blocklist", "65-host-list",
    "66-routes", "67-mac-and-port", "68-keys-in-packets", "69-either-trie", "70-listed-ports", "71-name-hashes",
    "46-backend-hash", "48-teid-table", "73-lists-and-ports", "74-last-flow", "75-error-reasons", "76-redirect-back",
    "79-port-rules", "80-links",
)
# here the interface has number 0, and in a test run of Linux's it is the loopback one
OF_INTERFACE = 'SEC("xdp") int f(struct xdp_md *ctx) { return ctx->ingress_ifindex ? XDP_DROP : XDP_PASS; }\n'


def linux_tests(clang, xdpbox, folder):
    """The same packets in Linux, if it can be asked."""
    path, packets = folder / "of_interface.c", folder / "one-packet"
    path.write_text(HEADERS + OF_INTERFACE)
    packets.write_text(f"PASS {'00' * 14}\n")
    made, said, status = ran(clang, xdpbox, "filter-test", "--linux", path, packets)
    if "Linux isn't asked: " in said:
        print(f"left out: filters beside Linux: {said.strip()}")
        yield "a filter that Linux isn't asked about", "" if made == "1 passed, 0 failed\n" and said.count("\n") == 1 else made + said
        return
    right = status == 1 and made == f"{packets}:1: PASS here, and DROP in Linux\n0 passed, 1 failed\n"
    yield "a packet of which Linux makes something else", "" if right else made + said
    for name in BESIDE_LINUX:
        source = FILTERS / f"{name}.c"
        words = rows_of_filters.words_of(source)
        made, said, status = ran(clang, xdpbox, "filter-test", "--linux", *words, source, source.with_suffix(".packets"))
        right = not status and made.endswith(" passed, 0 failed\n") and "isn't asked" not in said
        yield f"{name} beside Linux", "" if right else made + said
    for words, wanted in (((EXAMPLES / "drop-ipv6/settings.toml",), "that wants a file of C"), (("--guard", path), "that wants a file of C")):
        made, said, status = ran(clang, xdpbox, "filter-test", "--linux", *words, packets)
        yield f"Linux and {words[0]}", "" if f"Linux isn't asked: {wanted}" in said and "passed, " in made else made + said


def tests(clang, xdpbox):
    with tempfile.TemporaryDirectory() as name:
        folder = pathlib.Path(name)
        yield from set_tests(clang, xdpbox, folder / "limits.c")
        yield from set_again_tests(clang, xdpbox, folder / "again.toml")
        yield from size_tests(clang, xdpbox, folder / "sizes.c")
        yield from same_tests(clang, xdpbox, folder / "limits.c")
        yield from guard_tests(clang, xdpbox, folder / "guarded.c")
        yield from packet_tests(clang, xdpbox, folder)
        yield from example_tests(clang, xdpbox, folder)
        yield from time_tests(clang, xdpbox, folder)
        yield from linux_tests(clang, xdpbox, folder)
