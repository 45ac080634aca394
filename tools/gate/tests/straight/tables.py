"""Hash maps to which a program adds rows, beside an interpreter that has each key's rows in the few places of its hash."""
import pathlib
import random
import runpy
import subprocess
import tempfile
import tomllib

from tests.straight import machine
from tests.straight.called import HEADERS, settings_from
from tests.straight.calling import Calling
from tests.straight.objects import object_of
from laxonje_tools.from_c import btf, elf, tables
from laxonje_tools.straight.instructions import MASK_64

FOLDER = pathlib.Path(__file__).parent
SOURCE, OTHERS = FOLDER / "tables.c", [FOLDER / f"{name}.c" for name in ("joined", "large_tables", "bytes_in_tables", "two_windows", "two_large", "indexed_rows", "directions")]
IN_ROWS = {"indexed_rows"}  # whose values are several rows
FULL, IS_THERE, IS_NONE = -7, -17, -2
ANY, NOT_THERE, THERE = 0, 1, 2
PLACES = 4
MAP = '#define MAP(name, kind, key_type, value_type) struct { __uint(type, BPF_MAP_TYPE_##kind); __uint(max_entries, 8); __type(key, key_type); __type(value, value_type); } name SEC(".maps");\n'
# rows that are used after an update, which in Linux are another element's then: by the map and the flags, and what is done with them
USED_LATER = """MAP(a, %s, __u32, __u64)
SEC("xdp") int f(struct xdp_md *ctx) {
	__u8 *p = (void *)(long)ctx->data;
	if (p + 14 > (__u8 *)(long)ctx->data_end) return XDP_DROP;
	__u32 k = p[0], other = p[2]; __u64 now = p[1], *last = bpf_map_lookup_elem(&a, &k);
	%s
}
"""
UPDATE = "bpf_map_update_elem(&a, &k, &now, %s);"
STALE = {
    "a row that was changed": ("HASH", f"if (!last) return XDP_PASS; {UPDATE % 'BPF_ANY'} return *last == now ? XDP_DROP : XDP_PASS;"),
    "a row that was changed, as a key": ("LRU_HASH", f"if (!last) return XDP_PASS; {UPDATE % 'BPF_EXIST'} return bpf_map_lookup_elem(&a, last) ? XDP_DROP : XDP_PASS;"),
    "a row that was changed under another key": ("HASH", "if (!last) return XDP_PASS; bpf_map_update_elem(&a, &other, &now, BPF_ANY); *last += 1; return XDP_TX;"),
    "a row that was changed, kept on the stack": (
        "HASH",
        f"__u64 *volatile kept = last; {UPDATE % 'BPF_ANY'} last = kept; return last && *last == now ? XDP_DROP : XDP_PASS;",
    ),
}
NOT_STALE = {
    "a row that wasn't there": ("HASH", f"if (!last) {{ {UPDATE % 'BPF_ANY'} return XDP_PASS; }} *last += 1; return XDP_DROP;"),
    "a row that is looked up again": ("HASH", f"{UPDATE % 'BPF_ANY'} last = bpf_map_lookup_elem(&a, &k); return last && *last > 3 ? XDP_DROP : XDP_PASS;"),
    "a row that is there already": ("HASH", f"if (!last) return XDP_PASS; {UPDATE % 'BPF_NOEXIST'} return *last == now ? XDP_DROP : XDP_PASS;"),
    "a row of a processor": ("PERCPU_HASH", f"if (!last) return XDP_PASS; {UPDATE % 'BPF_ANY'} return *last == now ? XDP_DROP : XDP_PASS;"),
    "a number that is kept of a row": ("HASH", f"if (!last) return XDP_PASS; __u64 was = *last; {UPDATE % 'BPF_ANY'} return was == now ? XDP_DROP : XDP_PASS;"),
}
# keys behind the value's counters, and keys apart, of which `filter-test` asks Linux: what is added
KEYS = """struct v { __u64 n[8]; }; MAP(behind, HASH, __u32, __u64) MAP(apart, LRU_HASH, __u64, struct v)
SEC("xdp") int f(struct xdp_md *ctx) {
	__u8 *p = (void *)(long)ctx->data;
	if (p + 14 > (__u8 *)(long)ctx->data_end) return XDP_DROP;
	__u64 key = p[0] + 1000, number = p[1]; __u32 small = p[0] + 5; struct v v = { { p[2], p[3] } };
	bpf_map_update_elem(&behind, &small, &number, BPF_ANY);
	bpf_map_update_elem(&apart, &key, &v, BPF_ANY);
	return XDP_PASS;
}
"""
# what stays refused: the maps, the function, and what is said
REFUSED = {
    "a value of more bytes than the stack": (
        "struct v { __u64 n[65]; }; MAP(a, HASH, __u64, struct v) MAP(b, ARRAY, __u32, struct v)",
        "__u64 k = 1; __u32 i = 0; struct v *v = bpf_map_lookup_elem(&b, &i);"
        " return !v || bpf_map_update_elem(&a, &k, v, BPF_ANY) ? XDP_DROP : XDP_PASS;",
        "adds rows to a, of which the key has 8 bytes and the value 520: at most 63 and 512",
    ),
    "flags that aren't constant": (
        "MAP(a, HASH, __u32, __u64)",
        "__u32 k = 1; __u64 v = 2; return bpf_map_update_elem(&a, &k, &v, ctx->rx_queue_index & 1) ? XDP_DROP : XDP_PASS;",
        "with flags that aren't BPF_ANY, BPF_NOEXIST or BPF_EXIST",
    ),
    "a prefix that is added": (
        "struct k { __u32 bits, data; }; MAP(a, LPM_TRIE, struct k, __u64)",
        "struct k k = {}; __u64 v = 2; return bpf_map_update_elem(&a, &k, &v, BPF_ANY) ? XDP_DROP : XDP_PASS;",
        "calls bpf_map_update_elem, which isn't here",
    ),
}

# the kind of a map and its entries, to which rows are added, a word, and whether more than a few of its rows may find no place
ADDED = """struct { __uint(type, BPF_MAP_TYPE_%s); __uint(max_entries, %d); __type(key, __u32); __type(value, __u64); } seen SEC(".maps");
SEC("xdp") int f(struct xdp_md *ctx) {
	__u32 k = ctx->rx_queue_index;
	__u64 v = 2;
	return bpf_map_update_elem(&seen, &k, &v, BPF_ANY) ? XDP_DROP : XDP_PASS;
}
"""
SIZES = (
    ("HASH", 16384, (), False),
    ("HASH", 16385, (), True),
    ("HASH", 16385, ("--tables",), True),
    ("PERCPU_HASH", 1000000, (), True),
    ("LRU_HASH", 16385, (), False),
)


def bucket_of(key, rows):
    """The first of a key's places."""
    number = 0
    for at in range(0, len(key), 8):
        word = int.from_bytes(key[at : at + 8], "little") + (1 << 8 * (len(key) - at) if len(key) - at < 8 else 0)
        number = (number + word) * 0x9E3779B97F4A7C15 & MASK_64
        number ^= number >> 32
    return number & rows - PLACES, number >> 24 & PLACES - 1


class Hashing(Calling):
    """An object's functions with its hash maps. `tables`: how many rows each has, by its name, and its declaration."""

    def __init__(self, sections, declared, rows):
        self.declared, self.rows, self.keys = declared, rows, [dict() for _ in declared]
        maps = [{"name": row.name, "entries": rows[row.name], "counters": row.counters} for row in declared]
        super().__init__(sections, maps)

    def step(self, instruction):
        if instruction.opcode == machine.CALL and instruction.immediate in tables.OF_ROWS:
            self.registers[0] = self.of_row(instruction.immediate, *self.registers[1:5]) & MASK_64
            return 1
        return super().step(instruction)

    def of_row(self, helper, number, key, value, flags):
        number -= machine.MAPS
        declared, keys = self.declared[number], self.keys[number]
        part, at = self.place(key, declared.key_bytes)
        key = bytes(part[at : at + declared.key_bytes])
        if helper == tables.LOOKUP:
            return machine.VALUES + number * machine.VALUES_APART + 8 * declared.counters * keys[key] if key in keys else 0
        if helper == tables.DELETE:
            return IS_NONE if keys.pop(key, None) is None else 0
        if key in keys and flags == NOT_THERE or key not in keys and flags == THERE:
            return IS_THERE if key in keys else IS_NONE
        row = keys[key] if key in keys else self.free(number, key)
        if row is None:
            return FULL
        keys[key] = row
        part, at = self.place(value, declared.value_bytes)
        start = 8 * declared.counters * row
        for each in declared.numbers:
            self.values[number][start + each.place : start + each.place + each.size] = part[at + each.place : at + each.place + each.size]
        return 0

    def free(self, number, key):
        """A place for a key; None if there is none."""
        (first, other), taken = bucket_of(key, self.rows[self.declared[number].name]), self.keys[number]
        if self.declared[number].type not in tables.DROPPING and len(taken) >= self.declared[number].entries:
            return None
        places = [row for row in range(first, first + PLACES) if row not in taken.values()]
        if places or self.declared[number].type not in tables.DROPPING:
            return places[0] if places else None
        dropped = next(there for there, row in taken.items() if row == first + other)
        return taken.pop(dropped)

    def left(self):
        """By map the numbers of each row, by its key."""
        return {row.name: {key: self.numbers_of(number, at) for key, at in self.keys[number].items()} for number, row in enumerate(self.declared)}

    def numbers_of(self, number, at):
        row, start = self.declared[number], 8 * self.declared[number].counters * at
        return [int.from_bytes(self.values[number][start + each.place :][: each.size], "little") for each in row.numbers]


def packets():
    """Packets with few keys and many, of which some have the same places."""
    chance = random.Random(7)
    keys = [chance.randbytes(16) for _ in range(500)]
    rows = []
    for count in (3, 20, 500, 500, 40):
        for _ in range(450):
            rows.append(bytes([chance.choice([0, 0, 1, 1, 2, 3, 4, 5, 6, 6, 7, 8, 8, 9, 10, 11])]) + chance.choice(keys[:count]) + chance.randbytes(4))
    return rows


def numbers_left(settings, counters, table):
    """The same of settings' counters: by key the first number of a row, whose numbers may be rows of its map."""
    each = {row["name"]: row["entries"] * row.get("counters", 1) // table.rows for row in settings["map"]}
    names = table.declared.name, table.keys_name
    values, keys = ({divmod(at, each[name]): number for (of, at), number in counters.items() if of == name} for name in names)
    size = table.declared.numbers[0].size
    return {key: values.get((row, 0), 0) % (1 << 8 * size) for row, key in table.keys(keys).items()}


def run_tests(clang, xdpbox, folder, source):
    name, run = source.stem, settings_from(clang, xdpbox, source)
    if run.returncode:
        yield f"{name}: rows are added to tables", run.stderr
        return
    settings, sections = tomllib.loads(run.stdout), elf.sections_of(object_of(clang, source, folder / f"{name}.o").read_bytes())
    declared = list(btf.maps_in(sections))
    made = [tables.table_of(row, name in IN_ROWS) for row in declared]
    notes, comments = run.stderr.count("in a table of"), run.stdout.count("\n# map ")
    yield f"{name}: a table is noted once for each map", "" if notes == len(made) <= comments + 1 else run.stderr
    one, given = Hashing(sections, declared, {row.declared.name: row.rows for row in made}), packets()
    wanted = [one.run(packet) for packet in given]
    relocations = [(row["slot"], row["map"]) for row in settings["reloc"]]
    runs, counters = machine.filtered(xdpbox, settings, settings["program"], relocations, given)
    wrong = [(packet[:6].hex(), mine[0], theirs[0]) for packet, mine, theirs in zip(given, wanted, runs) if mine != theirs]
    yield f"{name}: rows that are added, on {len(given)} packets", f"{wrong[:3]}" if wrong or len(runs) != len(given) else ""
    missing = set(machine.ACTIONS.values()) - {row[0] for row in wanted}
    yield f"{name}: each answer is given", " ".join(sorted(missing))
    for table in made:
        there = {key: numbers[0] for key, numbers in one.left()[table.declared.name].items()}
        yield f"the rows of {table.declared.name}", "" if there and numbers_left(settings, counters, table) == there else f"{there}"


def stale_tests(clang, xdpbox, folder):
    """Rows that are used after an update: refused where Linux has another element then."""
    path = folder / "stale.c"
    for names, is_refused in ((STALE, True), (NOT_STALE, False)):
        for name, row in names.items():
            path.write_text(HEADERS + MAP + USED_LATER % row)
            run = settings_from(clang, xdpbox, path)
            right = not run.stdout and "in Linux that stays as it was" in run.stderr if is_refused else run.returncode == 0
            yield f"{name} is {'refused' if is_refused else 'used'} after an update", "" if right else run.stderr


def size_tests(clang, xdpbox, path):
    """Maps of which the table has fewer than four rows for each entry: a note says so, unless their rows are dropped."""
    for kind, entries, word, is_fewer in SIZES:
        path.write_text(HEADERS + ADDED % (kind, entries))
        run = settings_from(clang, xdpbox, *word, path)
        name = " ".join([f"rows that are added to one of {entries} entries of {kind}", *word])
        is_said = f"of more than 16384 rows, where Linux has {entries}, more than a few find no place" in run.stderr
        yield f"{name}: {'fewer' if is_fewer else 'as many'}", "" if is_said == is_fewer else run.stderr
        lines = [line for line in run.stdout.splitlines() if line.startswith("# map")]
        is_known = any("bpf_spin_lock: the host has one queue" in line for line in lines) and "has one queue at a time judge" in run.stderr
        yield f"{name}: a host learns of them", "" if is_known and "a table of 65536 rows" in lines[0] else run.stderr + run.stdout[:400]


def added_tests(clang, xdpbox, path):
    """The keys of which `filter-test` asks Linux are those that the program added, whether they lie behind a value or apart."""
    path.write_text(HEADERS + MAP + KEYS)
    run, filled_in = settings_from(clang, xdpbox, path), runpy.run_path(str(FOLDER.parents[2] / "filter-test"))["filled_in"]
    data, first = object_of(clang, path, path.with_suffix(".o")).read_bytes(), (1, 7, 200)
    packets = "".join(f'\n[[packet]]\nqueue = 0\nbytes = "{byte:02x}{"03" * 13}"\n' for byte in first)
    said = subprocess.run([xdpbox, "filter"], input=run.stdout + packets, capture_output=True, text=True, check=False).stdout
    found = filled_in(run.stdout, data, [line for line in said.splitlines() if line.startswith("counter ")])
    for name, size, more in ("behind", 4, 5), ("apart", 8, 1000):
        wanted = {(byte + more).to_bytes(size, "little") for byte in first}
        yield f"keys {name} are those of which Linux is asked", "" if set(found.get(name, {}).values()) == wanted else f"{found} {run.stderr}"


def tests(clang, xdpbox):
    with tempfile.TemporaryDirectory() as name:
        folder = pathlib.Path(name)
        for source in (SOURCE, *OTHERS):
            yield from run_tests(clang, xdpbox, folder, source)
        yield from stale_tests(clang, xdpbox, folder)
        path = folder / "refused.c"
        for name, (maps, body, wanted) in REFUSED.items():
            path.write_text(f'{HEADERS}{MAP}{maps}\nSEC("xdp") int f(struct xdp_md *ctx) {{ {body} }}\n')
            run = settings_from(clang, xdpbox, path)
            yield f"{name}: refused", "" if run.returncode == 1 and not run.stdout and wanted in run.stderr else run.stderr + run.stdout[:80]
        yield from size_tests(clang, xdpbox, path)
        yield from added_tests(clang, xdpbox, path)
        rows = folder / "rows.list"
        rows.write_text("192.0.2.1\n")
        run = settings_from(clang, xdpbox, "--list", f"hosts={rows}", SOURCE)
        yield "a list for a table is refused", "" if run.returncode == 1 and "adds rows to hosts itself" in run.stderr else run.stderr
