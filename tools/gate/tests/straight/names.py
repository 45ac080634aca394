"""Names that TOML has to escape, settings that xdpbox refuses, and the order of maps."""
import os
import pathlib
import subprocess
import tempfile
import tomllib

from tests.straight import programs
from laxonje_tools.straight.settings import text_of

TOOLS = pathlib.Path(__file__).resolve().parents[3]
# names of maps, the last of which would be a map more if it stood in a text as it is
NAMES = ['a"b', "a\\b", "a\nb", "a\bb", "a\x7fb", "\u00e9\u2603\U0001f600", "a\\\"'#]", 'x"\nentries = 7\n[[map]]\nname="y']
HEADERS = "#include <linux/bpf.h>\n#include <bpf/bpf_helpers.h>\n"
MAP = """struct {{ __uint(type, BPF_MAP_TYPE_ARRAY); __uint(max_entries, {}); __type(key, __u32); __type(value, __u64); }} {} SEC(".maps");
"""
COUNT = """static __always_inline void count(void *map)
{ __u32 key = 0; __u64 *value = bpf_map_lookup_elem(map, &key); if (value) *value += 1; }
"""
BOTH_WAYS = """SEC("xdp") int f(struct xdp_md *ctx) {{
	if ((void *)(long)ctx->data + 60 > (void *)(long)ctx->data_end) {{ {} return XDP_DROP; }}
	{} return XDP_PASS; }}
"""
# settings in front of a program's, and how xdpbox refuses them
REFUSED = {
    "queues = 99": "L4",
    "queues = true": "L3",
    "foo = 1": "L3",
    "packet = 1": "L3",
    "script = [[0]]": "L3",
    "original = {program = []}": "L3",
    "x = ": "L2",
    "a." * 300000 + "b = 1": "L2",
    "#" * 1048576: "L1",
}


def escaped(name):
    """A name in TOML, each character by its number."""
    return '"' + "".join(f"\\U{ord(char):08x}" for char in name) + '"'


def straighten(xdpbox, text, **more):
    run = subprocess.run([TOOLS / "straighten"], input=text.encode(), env={**os.environ, "XDPBOX": xdpbox, **more}, capture_output=True, check=False)
    return run.stdout.decode(), run.stderr.decode(), run.returncode


def shape_of(settings):
    """The maps in their order, and which of them the program's addresses are of."""
    maps = [(row["name"], row["entries"], row.get("counters", 1)) for row in settings.get("map", [])]
    return maps, [row["map"] for row in settings.get("reloc", [])]


def fault_of(xdpbox, made, said, wanted):
    """What is wrong with settings that were printed: others maps, or none that xdpbox takes."""
    if not made:
        return said or "nothing is printed"
    checked = subprocess.run([xdpbox, "check"], input=made.encode(), capture_output=True, check=False)
    found = shape_of(tomllib.loads(made))
    return "" if checked.returncode == 0 and found == wanted else f"{found} {checked.stderr.decode()}"


def name_tests(xdpbox):
    """A refused program with two maps: straightened, it has the same two."""
    for name in NAMES:
        settings = {**programs.COUNT, "map": [{"name": "first", "entries": 2}, {"name": name, "entries": 1}]}
        settings["reloc"] = [{**row, "map": name} for row in programs.COUNT["reloc"]]
        text = text_of({**settings, "map": []}, settings["program"], [])
        text += "".join(f"[[map]]\nname = {escaped(row['name'])}\nentries = {row['entries']}\n" for row in settings["map"])
        text += "".join(f"[[reloc]]\nslot = {row['slot']}\nmap = {escaped(row['map'])}\n" for row in settings["reloc"])
        for locale in ("C.UTF-8", "C"):
            made, said, _ = straighten(xdpbox, text, LC_ALL=locale, PYTHONUTF8="0", PYTHONCOERCECLOCALE="0")
            yield f"a map {name!r}, in {locale}", fault_of(xdpbox, made, said, shape_of(settings))


def refusal_tests(xdpbox):
    """What xdpbox refuses with an L, in front of a program that has to be straightened."""
    program = text_of(programs.COUNT, programs.COUNT["program"], [(row["slot"], row["map"]) for row in programs.COUNT["reloc"]])
    for begin, fault in REFUSED.items():
        made, said, status = straighten(xdpbox, f"{begin}\n{program}")
        right = (made, said, status) == ("", f"settings refused {fault}\n", 2)
        yield f"{begin[:30]} is {fault}", "" if right else f"{status} {made[:60]} {said[:200]}"
    endless = ["sh", "-c", 'yes "a = 1" | "$0"', TOOLS / "straighten"]
    run = subprocess.run(endless, env={**os.environ, "XDPBOX": xdpbox}, capture_output=True, check=False, timeout=20)
    yield "endless settings are L1", "" if run.stderr == b"settings refused L1\n" else run.stderr.decode()
    packets = "".join(f'[[packet]]\nqueue = 0\nbytes = "{"0" * 100000}"\n' for _ in range(10)) + f'[[packet]]\nqueue = 0\nbytes = "{"0" * 47000}"\n'
    loop = (TOOLS.parent / "examples/straightened/loop/before.toml").read_text()
    made, said, status = straighten(xdpbox, loop + packets)
    right = not made and status == 1 and said.endswith("settings refused L1\n")
    yield "settings that would be too long aren't printed", "" if right else f"{status} {made[:60]} {said}"
    rest = 'queues = 2\nifindex = 7\nstart = 4294967290\nscript = [[0, 1], [1, 4294967295]]\n'
    made, said, _ = straighten(xdpbox, rest + program + '[[packet]]\nqueue = 1\nbytes = "0000000000000000000000000000"\ntimes = 3\n')
    kept = {**tomllib.loads(rest), "packet": [{"queue": 1, "bytes": "00" * 14, "times": 3}]}
    yield "each other key stays", "" if made and tomllib.loads(made).items() >= kept.items() else made + said


def settings_from_c(clang, xdpbox, path, *words):
    run = subprocess.run([TOOLS / "settings-from-c", *words, path], env={**os.environ, "CLANG": clang, "XDPBOX": xdpbox}, capture_output=True, check=False)
    return run.stdout.decode(), run.stderr.decode(), run.returncode


def c_tests(clang, xdpbox):
    """The same of C, whose maps are numbered as they are declared, whatever branch comes first."""
    with tempfile.TemporaryDirectory() as folder:
        path = pathlib.Path(folder, "filter.c")
        for name in NAMES:
            label = "".join(f"\\{byte:03o}" for byte in name.encode())
            path.write_text(HEADERS + MAP.format(2, f'm __asm__("{label}")') + COUNT + BOTH_WAYS.format("", "count(&m);"))
            made, said, _ = settings_from_c(clang, xdpbox, path)
            yield f"a map {name!r} of C", fault_of(xdpbox, made, said, ([(name, 2, 1)], [name]))
        maps = HEADERS + MAP.format(1, "packets") + MAP.format(2, "drops").rstrip() + "static volatile int third; long first;\n"
        wanted = [("packets", 1, 1), ("drops", 2, 1), ("third", 1, 1), ("first", 1, 1)]
        for ways in (("count(&drops); first++;", "count(&packets); third++;"), ("count(&packets); third++;", "count(&drops); first++;")):
            path.write_text(maps + COUNT + BOTH_WAYS.format(*ways))
            made, said, _ = settings_from_c(clang, xdpbox, path)
            found = shape_of(tomllib.loads(made))[0] if made else said
            yield f"maps are in the file's order, {ways[0]} first", "" if found == wanted else f"{found}"
        path.write_text(HEADERS + MAP.format(1, 'b __asm__("a")') + MAP.format(2, 'a __asm__("b")') + COUNT + BOTH_WAYS.format("count(&a);", "count(&b);"))
        made, said, _ = settings_from_c(clang, xdpbox, path)
        found = shape_of(tomllib.loads(made))[0] if made else said
        yield "maps whose symbols have other names", "" if found == [("a", 1, 1), ("b", 2, 1)] else f"{found}"


def tests(xdpbox):
    yield from name_tests(xdpbox)
    yield from refusal_tests(xdpbox)
