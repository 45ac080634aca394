"""What a filter reads that nothing stored: Linux takes it, with whatever is there."""
import pathlib
import shutil
import tempfile
import tomllib

from tests.straight import machine
from tests.straight.called import HEADERS, settings_from

FUNCTION = """SEC("xdp") int f(struct xdp_md *ctx) {
	__u8 *data = (void *)(long)ctx->data, *end = (void *)(long)ctx->data_end;
	if (data + 20 > end) return XDP_DROP;
"""
ZEROS = "what the stack has where nothing was stored is 0 here, as it may be in Linux"
# numbers that are stored as those of one type, and summed as those of another: C lets a compiler take them for others
OF_TYPES = """struct pseudo { __u32 from, to; __u8 zero, kind; __u16 bytes; };
""" + FUNCTION + """	struct pseudo p = { .from = *(__u32 *)data, .to = *(__u32 *)(data + 4), .kind = data[8], .bytes = *(__u16 *)(data + 10) };
	const __u16 *words = (const void *)&p;
	__u32 sum = 0;
#pragma clang loop unroll(disable)
	for (int at = 0; at < (int)sizeof(p) / 2; at++) sum += words[at];
	return sum & 1 ? XDP_DROP : sum & 2 ? XDP_TX : XDP_PASS;
}
"""
SOME_SET = FUNCTION + """	__u32 row[8];
	row[0] = data[0]; row[1] = data[1]; row[5] = 1;
	asm volatile("" : : "r"(row) : "memory");
	__u32 found = row[data[2] & 7];
	return found & 1 ? XDP_DROP : found ? XDP_TX : XDP_PASS;
}
"""
PADDED = """struct key { __u8 kind; __u32 from; };
struct { __uint(type, BPF_MAP_TYPE_HASH); __uint(max_entries, 200000); __type(key, struct key); __type(value, __u64); } known SEC(".maps");
""" + FUNCTION + """	struct key key;
	key.kind = data[0];
	key.from = *(__u32 *)(data + 4);
	return bpf_map_lookup_elem(&known, &key) ? XDP_TX : XDP_DROP;
}
"""


def packets():
    return [bytes([first, second, third, 9, 1, 0, 0, second]) + bytes([second, 0, first, 7]) + bytes(8) for first in range(5) for second in range(6) for third in range(8)]


def of_types(packet):
    total = sum(int.from_bytes(part, "little") for part in (packet[0:2], packet[2:4], packet[4:6], packet[6:8], bytes([0, packet[8]]), packet[10:12]))
    return "DROP" if total & 1 else "TX" if total & 2 else "PASS"


def of_some(packet):
    found = {0: packet[0], 1: packet[1], 5: 1}.get(packet[2] & 7, 0)
    return "DROP" if found & 1 else "TX" if found else "PASS"


def of_padded(packet):
    return "TX" if (packet[0], packet[4:8]) in ((1, b"\1\0\0\2"), (3, b"\1\0\0\5")) else "DROP"


ROWS = "0x0100000001000002\n0x0300000001000005\n"
FILTERS = {
    "numbers of another type": (OF_TYPES, of_types, []),
    "an array of which some is set": (SOME_SET, of_some, [ZEROS]),
    "a key with a gap": (PADDED, of_padded, [ZEROS, "the list known has at most 65536 rows here, and 200000 in Linux"]),
}


def compiler_tests(clang, xdpbox, folder):
    """Before zeros are taken the filter is compiled again, with numbers that may be read as those of any type."""
    said, path, source = folder / "said", folder / "clang", folder / "filter.c"
    path.write_text(f'#!/bin/sh\necho "$@" >> {said}\nexec {shutil.which(clang)} "$@"\n')
    path.chmod(0o755)
    source.write_text(HEADERS + SOME_SET)
    run = settings_from(path, xdpbox, source)
    calls = [line.split() for line in said.read_text().splitlines() if " -c " in line] if said.exists() else []
    wanted = [words for words in calls if "-fno-strict-aliasing" in words and words[words.index("-fno-strict-aliasing") - 1] != "-mllvm"]
    yield "clang is asked for numbers of any type", "" if not run.returncode and wanted and len(wanted) < len(calls) else f"{calls} {run.stderr}"


def tests(clang, xdpbox):
    with tempfile.TemporaryDirectory() as name:
        yield from compiler_tests(clang, xdpbox, pathlib.Path(name))
    with tempfile.TemporaryDirectory() as folder:
        path, rows = pathlib.Path(folder, "filter.c"), pathlib.Path(folder, "rows.list")
        rows.write_text(ROWS)
        for name, (text, wanted, notes) in FILTERS.items():
            path.write_text(HEADERS + text)
            run = settings_from(clang, xdpbox, *(["--list", f"known={rows}"] if "known" in text else []), path)
            if run.returncode:
                yield f"{name} is taken", run.stderr
                continue
            settings, given = tomllib.loads(run.stdout), packets()
            relocations = [(row["slot"], row["map"]) for row in settings.get("reloc", [])]
            runs, _ = machine.filtered(xdpbox, settings, settings["program"], relocations, given)
            wrong = [packet[:8].hex() for packet, (action, _) in zip(given, runs) if action != wanted(packet)]
            yield f"{name}, on {len(given)} packets", f"{wrong[:3]}" if wrong or len(runs) != len(given) else ""
            yield f"{name} is noted", "" if all(note in run.stderr for note in notes) else run.stderr
