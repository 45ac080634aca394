"""Maps with lists of keys, from files of addresses and prefixes, and settings that ask for wider limits."""
import os
import pathlib
import subprocess
import tempfile
import tomllib

from tests.straight import programs
from tests.straight import rows as rows_of_filters
from laxonje_tools.straight.instructions import ADD_CONSTANT, ATOMIC_DOUBLE, CALL, EXIT, IF_ABOVE_REGISTER, IF_EQUAL_CONSTANT, LOAD_WORD, MOVE_CONSTANT, MOVE_REGISTER, WIDE_LOAD
from laxonje_tools.straight.shown import question

TOOLS = pathlib.Path(__file__).resolve().parents[3]
FILTERS = TOOLS / "gate/tests/straight/filters"
HEADERS = "#include <linux/bpf.h>\n#include <bpf/bpf_helpers.h>\n"
MAP = 'struct {{ __uint(type, BPF_MAP_TYPE_{}); __uint(max_entries, {}); __type(key, {}); __type(value, __u64); }} {} SEC(".maps");\n'
LOOKUP = 'SEC("xdp") int f(struct xdp_md *ctx) {{ {} k = {}; __u64 *v = bpf_map_lookup_elem(&m, &k); if (v) *v += 1; return v ? XDP_DROP : XDP_PASS; }}\n'
MOST_ROWS = 65536
# a kind of map, the type of its keys, the file with its rows, and what has to be wrong with it
WRONG = {
    "a list of an array": ("ARRAY", "__u32", "192.0.2.1\n", "the map m is an array, whose keys are numbers"),
    "rows of another size": ("HASH", "__u32", "::1\n", "its rows have 16 bytes, and the keys of the map m have 4"),
    "a trie's rows of another size": ("LPM_TRIE", "__u64", "2001:db8::/32\n", "its rows have 16 bytes, and the keys of the map m have 4"),
    "prefixes of whole keys": ("HASH", "__u32", "192.0.2.0/24\n", "it has prefixes, and the map m has whole keys: make it a BPF_MAP_TYPE_LPM_TRIE"),
    "more rows than entries": ("HASH", "__u32", "192.0.2.1\n192.0.2.2\n192.0.2.3\n", "it has 3 rows, and the map m 2 entries: --entries m=3"),
    "no list": ("HASH", "__u32", "192.0.2.1\n192.0.2\n", "line 2: "),
}
WRONG_WORDS = {
    "n={}": "it uses no map n",
    "m=/nowhere": "/nowhere: No such file",
    "m": "m isn't NAME=FILE",
    "={}": "isn't NAME=FILE",
}
# what a file declares, and whether its settings ask for wider limits
WIDE = {
    "1,024 entries": (MAP.format("ARRAY", 1024, "__u32", "m"), False),
    "1,025 entries": (MAP.format("ARRAY", 1025, "__u32", "m"), True),
    "1,025 rows": (MAP.format("HASH", 1025, "__u32", "m"), True),
    "rows of a map that makes room, to which none is added": (MAP.format("LRU_HASH", 1024, "__u32", "m"), False),
    "four maps": ("".join(MAP.format("ARRAY", 1, "__u32", name) for name in "mnop"), False),
    "five maps": ("".join(MAP.format("ARRAY", 1, "__u32", name) for name in "mnopq"), True),
}

# a key of seven bytes in the packet, in a list of three
KEY_IN_PACKET = programs.settings(
    (LOAD_WORD, 6, 1, programs.DATA),
    (LOAD_WORD, 7, 1, programs.DATA_END),
    (MOVE_REGISTER, 2, 6),
    (ADD_CONSTANT, 2, 0, 0, 20),
    (IF_ABOVE_REGISTER, 2, 7, 7),
    (ADD_CONSTANT, 2, 0, 0, -9),
    (WIDE_LOAD, 1),
    (CALL, 0, 0, 0, 1),
    (IF_EQUAL_CONSTANT, 0, 0, 2),
    (MOVE_CONSTANT, 1, 0, 0, 1),
    (ATOMIC_DOUBLE, 0, 1),
    (MOVE_CONSTANT, 0, 0, 0, 2),
    (EXIT,),
    entries=3,
)
KEY_IN_PACKET["map"][0].update(key="exact", size=7, rows=["00000000000000", "07070707070707", "0b0c0d0e0f1011"])


def settings_from_c(clang, xdpbox, *words):
    env = {**os.environ, "CLANG": clang, "XDPBOX": str(xdpbox)}
    run = subprocess.run([TOOLS / "settings-from-c", *words], env=env, capture_output=True, text=True, check=False)
    return run.stdout, run.stderr, run.returncode


def is_named(made, said, status, wanted):
    """What is wrong with an answer to a wrong list; nothing if it is one line with these words."""
    return "" if status and not made and wanted in said and said.count("\n") == 1 else f"{status} {made[:100]} {said}"


def fault_tests(clang, xdpbox, path, rows):
    """Lists that a map can't have, and words that give none."""
    for name, (kind, key, text, wanted) in WRONG.items():
        path.write_text(HEADERS + MAP.format(kind, 2, key, "m") + LOOKUP.format(key, 0))
        rows.write_text(text)
        yield f"{name} is named", is_named(*settings_from_c(clang, xdpbox, "--list", f"m={rows}", path), wanted)
    path.write_text(HEADERS + MAP.format("HASH", 2, "__u32", "m") + LOOKUP.format("__u32", 0))
    rows.write_text("192.0.2.1\n")
    for word, wanted in WRONG_WORDS.items():
        word = word.format(rows)
        yield f"--list {word} is named", is_named(*settings_from_c(clang, xdpbox, "--list", word, path), wanted)


def row_tests(clang, xdpbox, path, rows):
    """The rows of a map, none, and as many as there may be."""
    path.write_text(HEADERS + MAP.format("HASH", 8, "__u64", "other") + MAP.format("HASH", 2, "__u32", "m") + LOOKUP.format("__u32", 0))
    rows.write_text("192.0.2.9\n# one more\n192.0.2.1\n")
    made, said, _ = settings_from_c(clang, xdpbox, "--list", f"m={rows}", path)
    wanted = {"name": "m", "entries": 2, "key": "exact", "size": 4, "rows": ["c0000209", "c0000201"]}
    yield "rows are in the file's order, and other lists aren't there", "" if made and tomllib.loads(made)["map"] == [wanted] else made + said
    made, said, _ = settings_from_c(clang, xdpbox, path)
    right = "\n# map m: an empty list; --list m=FILE fills it\n" in made and "rows" not in tomllib.loads(made)["map"][0]
    yield "an empty list is said to be one", "" if right else made + said
    rows.write_text("".join(f"10.{number >> 16}.{number >> 8 & 255}.{number & 255}\n" for number in range(MOST_ROWS)))
    made, said, _ = settings_from_c(clang, xdpbox, "--entries", f"m={MOST_ROWS}", "--list", f"m={rows}", path)
    found = tomllib.loads(made) if made else {"map": [{}]}
    yield f"{MOST_ROWS} rows", "" if found.get("wide") and len(found["map"][0]["rows"]) == MOST_ROWS else said


def text_tests(clang, xdpbox, path, rows):
    """Rows that are more than a text of settings takes."""
    key = "struct { __u64 half[2]; }"
    path.write_text(HEADERS + MAP.format("HASH", MOST_ROWS, key, "m") + LOOKUP.format(key, "{}"))
    rows.write_text("".join(f"2001:db8::{number:x}\n" for number in range(MOST_ROWS)))
    yield "rows that are too long in all", is_named(*settings_from_c(clang, xdpbox, "--list", f"m={rows}", path), "are too long for settings")


def wide_tests(clang, xdpbox, path):
    """Settings ask for wider limits if they need these, and only then."""
    for name, (maps, is_wide) in WIDE.items():
        path.write_text(HEADERS + maps + LOOKUP.format("__u32", 0))
        made, said, _ = settings_from_c(clang, xdpbox, path)
        found = tomllib.loads(made).get("wide") if made else said
        yield f"{name}: wide or not", "" if found is (True if is_wide else None) else f"{found}"


def key_tests(clang, xdpbox, path):
    """A key of which bytes between its fields aren't stored, and one of which they are."""
    map_of_keys = "struct key { __u32 a; __u16 b; };\n" + MAP.format("HASH", 2, "struct key", "m")
    body = 'SEC("xdp") int f(struct xdp_md *ctx) {{ struct key k; {} k.a = 1; k.b = ctx->rx_queue_index; return bpf_map_lookup_elem(&m, &k) ? XDP_DROP : XDP_PASS; }}\n'
    path.write_text(HEADERS + map_of_keys + body.format(""))
    made, said, status = settings_from_c(clang, xdpbox, path)
    yield "a key with bytes that aren't stored is noted", "" if made and not status and "nothing was stored is 0 here" in said else made + said
    path.write_text(HEADERS + map_of_keys + body.format("__builtin_memset(&k, 0, sizeof k);"))
    made, said, status = settings_from_c(clang, xdpbox, path)
    yield "one whose bytes are all stored", "" if made and not status else said


def packet_tests(clang, xdpbox, path):
    """A key that lies in the packet, without a comparison and with one for less than the key."""
    maps = MAP.format("HASH", 2, "__u64", "m")
    body = 'SEC("xdp") int f(struct xdp_md *ctx) {{ void *p = (void *)(long)ctx->data; {} return bpf_map_lookup_elem(&m, p + 6) ? XDP_DROP : XDP_PASS; }}\n'
    for name, before in (("no comparison", ""), ("a short one", "if (p + 10 > (void *)(long)ctx->data_end) return XDP_DROP;")):
        path.write_text(HEADERS + maps + body.format(before))
        for way in ((), ("--guard",)):
            made, said, status = settings_from_c(clang, xdpbox, *way, path)
            right = status == 1 and not made and "refused V17" in said and "Traceback" not in said and "write instead: compare the end" in said
            yield f"a key in the packet, {name} {' '.join(way)}", "" if right else made + said


def straighten_tests(clang, xdpbox):
    """Settings of any origin keep their lists and limits, and so does the question that xdpbox same is asked."""
    source = FILTERS / "65-host-list.c"
    words = rows_of_filters.words_of(source)
    before, _, _ = settings_from_c(clang, xdpbox, "--as-is", *words, source)
    run = subprocess.run([TOOLS / "straighten"], input=before, env={**os.environ, "XDPBOX": str(xdpbox)}, capture_output=True, text=True, check=False)
    one, two = tomllib.loads(before), tomllib.loads(run.stdout)
    kept = "# straightened" in run.stdout and all(one[key] == two.get(key) for key in ("wide", "map"))
    yield "straighten keeps lists and limits", "" if kept else run.stderr or run.stdout[:300]
    asked = tomllib.loads(question(one, two, {}))
    yield "xdpbox same is asked of these maps", "" if all(one[key] == asked.get(key) for key in ("wide", "map")) else f"{asked['map']}"
    other = {**two, "map": [{key: value for key, value in row.items() if key not in ("key", "size", "rows")} for row in two["map"]]}
    yield "and not of arrays in their place", "" if question(one, other, {}) is None else "it is"


def tests(clang, xdpbox):
    with tempfile.TemporaryDirectory() as folder:
        path, rows = pathlib.Path(folder, "filter.c"), pathlib.Path(folder, "rows")
        yield from fault_tests(clang, xdpbox, path, rows)
        yield from row_tests(clang, xdpbox, path, rows)
        yield from text_tests(clang, xdpbox, path, rows)
        yield from wide_tests(clang, xdpbox, path)
        yield from key_tests(clang, xdpbox, path)
        yield from packet_tests(clang, xdpbox, path)
        yield from straighten_tests(clang, xdpbox)
