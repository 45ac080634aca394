"""Values of more bytes than settings can have, beside an interpreter in which they are as C has them."""
import pathlib
import random
import re
import tempfile
import tomllib

from laxonje_tools.from_c import btf, elf
from laxonje_tools.straight.instructions import MASK_64
from tests.straight import called, machine
from tests.straight.calling import Calling
from tests.straight.objects import object_of

TESTS = pathlib.Path(__file__).resolve().parent
SOURCE, IN_LOOP = TESTS / "large.c", TESTS / "narrow-in-loop.c"
ARRAYS, SEED = (2, 6), 3
# of the comments that say where a host finds numbers: of each few bytes a row, and of a number one
OF_BYTES = re.compile(r"# map (\S+): byte B of a value lies in row (?:(\d+)\*key \+ )?B/(\d+)(?:, bits 0 to (\d+))?: .*")
OF_NUMBERS = re.compile(r"# map (\S+): (.+) is row (?:(\d+)\*key \+ )?(\d+)(?:, bits 0 to (\d+))?")
MAP = 'struct { __uint(type, BPF_MAP_TYPE_ARRAY); __uint(max_entries, %s); __type(key, __u32); __type(value, %s); } m SEC(".maps");\n'
LOOK = "__u32 k = ctx->rx_queue_index; struct v *v = bpf_map_lookup_elem(&m, &k); if (!v) return 1; "
OTHER = 'struct { __uint(type, BPF_MAP_TYPE_ARRAY); __uint(max_entries, 2); __type(key, __u32); __type(value, %s); } n SEC(".maps");\n'
ONE_OF_TWO = """__u32 k = ctx->rx_queue_index; struct v *v;
if (ctx->ingress_ifindex & 1) { v = (void *)bpf_map_lookup_elem(&n, &k); asm volatile("# n"); }
else { v = bpf_map_lookup_elem(&m, &k); asm volatile("# m"); }
if (!v) return 1;
"""
SUMS = "".join(f"v->a[{at}] += k + {at};" for at in range(4))
# what can't be rows: in front of the function, in it, and what is said
REFUSED = {
    "indices of numbers of several sizes": (
        "struct v { __u32 a[20]; __u64 b[20]; };\n" + MAP % (2, "struct v"),
        LOOK + "__u32 i = ctx->ingress_ifindex & 15; v->b[i]++; v->a[i]++; return 2;",
        "reaches numbers of several sizes in m by an index: make each of them a __u64",
    ),
    "more rows than a map has": (
        "struct v { __u64 a[20]; };\n" + MAP % (4000, "struct v"),
        LOOK + "v->a[ctx->ingress_ifindex & 15]++; return 2;",
        "needs 80000 rows for the values of m, 20 for each: at most 65536; --entries m=3276 or fewer would do",
    ),
    "an address as a number": (
        "struct v { __u64 a[20]; };\n" + MAP % (2, "struct v"),
        LOOK + "return (unsigned long)v >> 3 & 1;",
        "uses the address of a map's value as a number",
    ),
    "an address in one of two maps as a number": (
        "struct v { __u64 a[20]; };\n" + MAP % (2, "struct v") + OTHER % "__u64[4]",
        f"{ONE_OF_TWO}{SUMS}return (unsigned long)v >> 3 & 1;",
        "refused.c:10 (slot 42) uses the address of a map's value as a number",
    ),
    "an atomic addition to half of a number": (
        "struct v { __u64 a[20]; };\n" + MAP % (2, "struct v"),
        LOOK + "__sync_fetch_and_add((__u32 *)&v->a[1], 3); return 2;",
        "an atomic addition of four bytes may change those above them in the same number",
    ),
    "a list": (
        "struct v { __u64 a[20]; };\n" + (MAP % (2, "struct v")).replace("ARRAY", "HASH"),
        LOOK + "return v->a[1] & 3;",
        "the values of the map m have 160 bytes",
    ),
}


def mask_of(last):
    """The bits of a counter up to the last one that a comment names; all if it names none."""
    return (1 << int(last) + 1) - 1 if last else MASK_64


def numbers_here(printed, counters):
    """Of what `xdpbox filter` leaves the numbers by (map, byte of all values), as a host finds them by the comments."""
    of_bytes, of_numbers = ([match for match in map(each.fullmatch, printed.splitlines()) if match] for each in (OF_BYTES, OF_NUMBERS))
    rows = {match[1]: (int(match[2] or 0), int(match[3]), mask_of(match[4])) for match in of_bytes}
    named = {match.group(1, 2): (int(match[3] or 0), int(match[4]), mask_of(match[5])) for match in of_numbers}

    def number(name, part, key):
        """A number of a value, which a declaration names."""
        if (name, part.name) in named:  # also of a map that has rows of some bytes
            each, at, mask = named[name, part.name]
            return counters.get((name, each * key + at), 0) & mask
        each, unit, mask = rows[name]
        whole = counters.get((name, each * key + part.place // unit), 0) & mask
        return whole if part.size == unit else whole >> 8 * (part.place % unit) & (1 << 8 * part.size) - 1

    return number


def wrong_numbers(printed, counters, one, sections):
    """The numbers that a host would find otherwise than they are in the interpreter's values."""
    number, types = numbers_here(printed, counters), btf.Types(sections[".BTF"].data)
    values = {row.name: (row.numbers, row.value_bytes, one.values[one.numbers[row.name]]) for row in types.maps()}
    symbols = {row.name: row for row in elf.symbols_of(sections)}
    for name in ("by_length", "by_byte", "twice", "last", "ring"):
        symbol = symbols.get(name)
        if symbol is None:
            continue
        section = next(key for key, part in sections.items() if part.number == symbol.section)
        data = one.constants[section][1][symbol.place : symbol.place + symbol.size]
        values[name] = types.numbers_of(name), symbol.size, data
    for name, (parts, size, data) in values.items():
        whole = -(-size // 8) * 8 if name in one.numbers else size
        for key in range(len(data) // whole):
            for part in parts:
                there = int.from_bytes(data[whole * key + part.place :][: part.size], "little")
                here = number(name, part, key)
                if here != there:
                    yield f"{name} {key} {part.name}: {here} and not {there}"


def maps_in(sections):
    rows = btf.maps_in(sections)
    return [{"name": row.name, "entries": row.entries, "counters": row.counters} for row in rows if row.type in ARRAYS]


def compared(clang, xdpbox, source, given, folder):
    """What is wrong with a program that is printed, on packets."""
    run = called.settings_from(clang, xdpbox, source)
    if run.returncode:
        return run.stderr
    settings, sections = tomllib.loads(run.stdout), elf.sections_of(object_of(clang, source, folder / "large.o").read_bytes())
    one = Calling(sections, maps_in(sections))
    wanted = [one.run(packet) for packet in given]
    relocations = [(row["slot"], row["map"]) for row in settings["reloc"]]
    runs, counters = machine.filtered(xdpbox, settings, settings["program"], relocations, given)
    wrong = [packet[:8].hex() for packet, mine, theirs in zip(given, wanted, runs) if mine != theirs]
    wrong += list(wrong_numbers(run.stdout, counters, one, sections))
    return "" if not wrong and len(runs) == len(given) and len({row[0] for row in wanted}) > 2 else f"{wrong[:5]}"


def tests(clang, xdpbox):
    chance = random.Random(SEED)
    given = [bytes(chance.choice((0, 1, 2, 3, 5, 19, 20, 21, 39, 40, 69, 128, 255)) for _ in range(size)) for size in range(14, 120) for _ in range(6)]
    heads = ([chance.randrange(32), chance.randrange(72), 1, 2, chance.randrange(4), chance.randrange(256), at & 127, chance.randrange(8)] for at in range(600))
    given += [bytes(head) + bytes(6) for head in heads]
    with tempfile.TemporaryDirectory() as name:
        folder = pathlib.Path(name)
        yield f"large values on {len(given)} packets", compared(clang, xdpbox, SOURCE, given, folder)
        yield f"many small numbers in a loop on {len(given)} packets", compared(clang, xdpbox, IN_LOOP, given, folder)
        path = folder / "noted.c"
        before = "struct v { __u64 a[20]; };\n" + MAP % (2, "struct v") + OTHER % "struct v"
        path.write_text(f'{called.HEADERS}{before}SEC("xdp") int f(struct xdp_md *ctx) {{ {ONE_OF_TWO}{SUMS}\nreturn 2; }}\n')
        places = {line.partition(" (")[0] for line in called.settings_from(clang, xdpbox, path).stderr.splitlines()}
        wanted = {f"note: {path}:{path.read_text().split(SUMS)[0].count(chr(10)) + 1}"}
        yield "the line of counts in one of two maps", "" if places == wanted else f"{places}"
        path = folder / "refused.c"
        for name, (before, body, wanted) in REFUSED.items():
            path.write_text(f'{called.HEADERS}{before}SEC("xdp") int f(struct xdp_md *ctx) {{ {body} }}\n')
            run = called.settings_from(clang, xdpbox, path)
            right = run.returncode == 1 and not run.stdout and wanted in run.stderr and run.stderr.count("\n") == 1
            yield f"{name} is named", "" if right else run.stderr + run.stdout[:200]
