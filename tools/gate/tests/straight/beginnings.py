"""Numbers of fewer than eight bytes in a map's value, and what a map's counters begin with."""
import pathlib
import tempfile
import tomllib

from tests.straight import rows as rows_of_filters
from tests.straight.options import FILTERS, HEADERS, ran

VALUE = "struct { __u32 first; __u16 second[2]; __u64 third; }"
MAP = "struct {{ __uint(type, BPF_MAP_TYPE_ARRAY); __uint(max_entries, 2); __type(key, __u32); __type(value, {}); }} m SEC(\".maps\");\n"
BODY = 'SEC("xdp") int f(struct xdp_md *ctx) {{ __u32 k = 0; void *v = bpf_map_lookup_elem(&m, &k); if (!v) return XDP_ABORTED; {} }}\n'
LOADS = "return *(__u16 *)(v + 4) ? XDP_DROP : XDP_PASS;"
# a filter, whether its map has parts, and how its program is shown to be the same, None if it is clang's
WITH_PARTS = {
    "whole numbers": (MAP.format("__u64") + BODY.format("return *(__u64 *)v ? XDP_DROP : XDP_PASS;"), False, None),
    "a narrow number that is loaded": (MAP.format(VALUE) + BODY.format(LOADS), True, None),
    "a narrow number that isn't reached": (MAP.format(VALUE) + BODY.format("return *(__u64 *)(v + 8) ? XDP_DROP : XDP_PASS;"), False, None),
    "one that is counted": (MAP.format(VALUE) + BODY.format("*(__u32 *)v += 1; return XDP_PASS;"), False, "proved alone"),
    "a count beside narrow numbers": (MAP.format(VALUE) + BODY.format("*(__u64 *)(v + 8) += 1; return XDP_PASS;"), False, "proved by counts"),
    "a narrow number behind a loop": (
        MAP.format(VALUE)
        + BODY.format(
            "__u8 *p = (void *)(long)ctx->data, sum = 0; if (p + 40 > (__u8 *)(long)ctx->data_end) return XDP_PASS;"
            " _Pragma(\"nounroll\") for (int i = 0; i < 30; i++) sum += p[i]; if (sum == 7) return XDP_TX; " + LOADS
        ),
        False,
        "proved",
    ),
}
# a file's text, and what becomes of it: the counters, or what is wrong
TEXTS = {
    "1 2 3 4\n5 6 7 8\n": [1 + (2 << 32) + (3 << 48), 4, 5 + (6 << 32) + (7 << 48), 8],
    "# first, second, second, third\n\n0xff 0 0 0x10 # of value 0\n": [255, 16],
    "-1 1 0 9223372036854775807\n": [(1 << 32) - 1 + (1 << 32), (1 << 63) - 1],
    "1 2 3\n": "line 1: it has 3 numbers, and a value of the map m 4",
    "1 2 3 4\n" * 3: "it has 3 values, and the map m 2",
    "\n1 2 65536 4\n": "line 2: second[1] has 2 bytes, which can't hold 65536",
    "1 2 3 -1\n": "line 1: counter 1 would begin with 18446744073709551615: settings have numbers of at most 2^63 - 1",
    "1 2 x 4\n": "line 1: x is no number",
    "1 2 \u0663 4\n": "line 1: \u0663 is no number",
}
WRONG_WORDS = {"n={}": "it uses no map n", "m=/nowhere": "/nowhere: No such file", "m": "m isn't NAME=FILE"}
WRONG_VALUES = {
    "bit fields": ("struct { __u32 a : 3; __u32 b : 29; __u32 c; }", "a of the map m is a bit field, or lies in a union"),
    "a union": ("union { __u32 a; __u64 b; }", "b of the map m is a bit field, or lies in a union"),
}


def part_tests(clang, xdpbox, path):
    """Maps have parts where that brings something, and only there."""
    for name, (text, has_parts, how) in WITH_PARTS.items():
        path.write_text(HEADERS + text)
        made, said, _ = ran(clang, xdpbox, "settings-from-c", path)
        found = [row.get("parts", False) for row in tomllib.loads(made)["map"]] if made else said
        straightened = [line.rpartition(", ")[2] for line in made.split("\n") if line.startswith("# straightened")]
        right = found == [has_parts] and straightened == [how] * (how is not None)
        yield f"{name}: parts or not", "" if right else f"{found} {straightened}"
        yield f"{name}: its place", "" if not has_parts or "\n# map m: first is bits 0 to 31 of counter 0\n" in made else made
    made, said, _ = ran(clang, xdpbox, "settings-from-c", "--as-is", path)
    yield "--as-is says nothing of parts", "" if made and "parts" not in tomllib.loads(made)["map"][0] else said


def value_tests(clang, xdpbox, path, numbers):
    """What the counters of a map begin with."""
    path.write_text(HEADERS + MAP.format(VALUE) + BODY.format(LOADS))
    for text, wanted in TEXTS.items():
        numbers.write_text(text, encoding="utf-8")
        made, said, status = ran(clang, xdpbox, "settings-from-c", "--values", f"m={numbers}", path)
        found = tomllib.loads(made)["map"][0].get("values") if made else None
        is_named = isinstance(wanted, str) and status and not made and wanted in said and said.count("\n") == 1
        yield f"--values of {text!r}", "" if is_named or found == wanted else f"{found} {said}"
    numbers.write_text("1 2 3 4\n")
    for word, wanted in WRONG_WORDS.items():
        made, said, status = ran(clang, xdpbox, "settings-from-c", "--values", word.format(numbers), path)
        yield f"--values {word} is named", "" if status and not made and wanted in said and said.count("\n") == 1 else said
    for name, (value, wanted) in WRONG_VALUES.items():
        path.write_text(HEADERS + MAP.format(value) + BODY.format("return XDP_PASS;"))
        made, said, status = ran(clang, xdpbox, "settings-from-c", "--values", f"m={numbers}", path)
        yield f"--values of {name}", "" if status and not made and wanted in said and said.count("\n") == 1 else made + said


def own_counter_tests(clang, xdpbox, path, numbers):
    """A number that needs a counter of its own has none to begin with; and a word gives a map of counters."""
    path.write_text(HEADERS + MAP.format("struct { __u32 low; __u32 high; }") + BODY.format("__u32 *n = v; n[0] = n[1]; return n[0] ? XDP_PASS : XDP_DROP;"))
    numbers.write_text("1 2\n")
    made, said, status = ran(clang, xdpbox, "settings-from-c", "--values", f"m={numbers}", path)
    yield "a number with a counter of its own", "" if status and not made and "what its counters begin with is given" in said else made + said
    path.write_text(HEADERS + "extern char m[];\n" + BODY.format("return *(__u64 *)(v + 8) ? XDP_DROP : XDP_PASS;"))
    made, said, _ = ran(clang, xdpbox, "settings-from-c", "--values", f"m={numbers}", path, "m=1:2")
    yield "counters of a map that a word gives", "" if made and tomllib.loads(made)["map"][0]["values"] == [1, 2] else said


def straighten_tests(clang, xdpbox, path):
    """Settings of any origin keep what their counters begin with, and their parts."""
    path.write_text(HEADERS + WITH_PARTS["a narrow number behind a loop"][0])
    made, said, _ = ran(clang, xdpbox, "settings-from-c", "--as-is", path)
    given = made.replace('name = "m"\n', 'name = "m"\nparts = true\nvalues = [5, 0]\n')
    made, said, _ = ran(clang, xdpbox, "straighten", input=given)
    found = tomllib.loads(made)["map"] if made else said
    yield "straighten keeps them", "" if made and "proved" in made and found == tomllib.loads(given)["map"] else f"{found} {said}"


def tests(clang, xdpbox):
    with tempfile.TemporaryDirectory() as folder:
        path, numbers = pathlib.Path(folder, "filter.c"), pathlib.Path(folder, "numbers")
        yield from part_tests(clang, xdpbox, path)
        yield from value_tests(clang, xdpbox, path, numbers)
        yield from own_counter_tests(clang, xdpbox, path, numbers)
        yield from straighten_tests(clang, xdpbox, path)
        source = FILTERS / "77-configured.c"
        made, said, status = ran(clang, xdpbox, "filter-test", "--linux", *rows_of_filters.words_of(source), source, source.with_suffix(".packets"))
        yield "a filter that is configured, beside Linux if it can be asked", "" if not status and made.endswith(" passed, 0 failed\n") else made + said
