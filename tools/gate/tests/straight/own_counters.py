"""Numbers of fewer than eight bytes that share a counter: two runs of a filter at once change none but what they store to.

A number that is stored below another one has a counter of its own. What two runs leave is known, wherever one of them
stands when the other runs."""
import itertools
import os
import pathlib
import re
import subprocess
import tempfile
import tomllib
from typing import NamedTuple

from tests.straight import machine
from tests.straight.programs import ADD_CONSTANT, ATOMIC_DOUBLE, BOTH_HALVES, EXIT, IF_ABOVE_CONSTANT, IF_ABOVE_REGISTER
from tests.straight.programs import IF_EQUAL_CONSTANT, LOAD_DOUBLE, LOAD_WORD, LSH_CONSTANT, MOVE_CONSTANT, MOVE_REGISTER, PASS
from tests.straight.programs import R0, R2, R3, R6, R10, RSH_CONSTANT, START, STORE_DOUBLE, STORE_WORD, WIDE_LOAD, R1, lookup, settings
from laxonje_tools.from_c import program
from laxonje_tools.straight.instructions import BY_REGISTER, JLE, JMP, LDX, MEMSX
from laxonje_tools.straight.parts import Part, places_of
from laxonje_tools.straight.seen import shows_addresses
from laxonje_tools.straight.settings import instructions_of, text_of
from laxonje_tools.straight.split import with_split

TOOLS = pathlib.Path(__file__).resolve().parents[3]
HEADERS = "#include <linux/bpf.h>\n#include <bpf/bpf_helpers.h>\n"
FUNCTION = """SEC("xdp") int f(struct xdp_md *ctx) {
	__u8 *p = (void *)(long)ctx->data;
	if (p + 14 > (__u8 *)(long)ctx->data_end) return XDP_ABORTED;
"""
LIMITER = FUNCTION + """	if (p[0] == 1) { left += 1; return XDP_TX; }
	if (%s) return XDP_DROP;
	left -= 1; passed += 1;
	return XDP_PASS; }
"""
MAP = 'struct { __uint(type, BPF_MAP_TYPE_ARRAY); __uint(max_entries, 3); __type(key, __u32); __type(value, %s); } state SEC(".maps");\n'
LOOKED_UP = FUNCTION + """	__u32 key = 2; %s *row = bpf_map_lookup_elem(&state, &key);
	if (!row) return XDP_ABORTED;
"""


REFILL = bytes([1]) + bytes(13)
SOME_PACKETS = [bytes([first, second]) + bytes(12) for first in (1, 1, 0, 0, 0, 1, 0, 7) for second in (0, 1, 1, 0)]


def of_names(text, left, passed):
    return text.replace("left", left).replace("passed", passed)


class Limiter(NamedTuple):
    """A filter that counts what is left and what has passed in parts of one counter: the names of the two, the entry of the map
    that has them, and where a host finds them."""

    text: str
    left: str
    passed: str
    entry: int
    places: list

    @property
    def source(self):
        return HEADERS + self.text


def of_global(declaration, left, passed, *places):
    """A limiter whose numbers a global has. What stands in the place of these names in C, and in comments."""
    return Limiter(declaration + of_names(LIMITER % "left == 0", f"state{left[0]}", f"state{passed[0]}"), left[1], passed[1], 0, places)


def of_value(declaration, type_, left, passed, *places):
    """The same of a map's value."""
    text = of_names((LIMITER % "left == 0").replace(FUNCTION, LOOKED_UP % type_), f"row->{left}", f"row->{passed}")
    return Limiter(declaration + MAP % type_ + text, left, passed, 2, places)


LIMITERS = {
    "two halves of a global": of_global(
        "static volatile struct { __u32 left, passed; } state;\n",
        (".left", "left"),
        (".passed", "passed"),
        "left is bits 0 to 31 of counter 1",
        "passed is bits 32 to 63 of counter 0",
    ),
    "a value's bytes": of_value(
        "struct row { __u8 left, passed; __u64 bytes; };\n",
        "struct row",
        "left",
        "passed",
        "left is bits 0 to 7 of counter 2",
        "passed is bits 8 to 15 of counter 0",
    ),
    "the upper of which is first": of_global(
        "static volatile struct { __u16 passed, left; __u32 none; } state;\n",
        (".left", "left"),
        (".passed", "passed"),
        "passed is bits 0 to 15 of counter 1",
        "left is bits 0 to 15 of counter 2",
        "none is bits 32 to 63 of counter 0",
    ),
    "a member of a member": of_value(
        "struct both { __u16 left, passed; }; struct row { __u32 none; struct both both[2]; };\n",
        "struct row",
        "both[1].left",
        "both[1].passed",
        "both[1].left is bits 0 to 15 of counter 2",
        "both[1].passed is bits 16 to 31 of counter 1",
    ),
}
# two numbers that are loaded at once
AT_ONCE = "static volatile struct { __u32 left, passed; } state;\n" + FUNCTION + """	state.left += p[0];
	if (p[1]) state.passed -= 1;
	return *(volatile __u64 *)&state == 2 + ((__u64)(__u32)-2 << 32) ? XDP_PASS : XDP_DROP; }
"""
# C in which a store may change another number whatever is done, and what is said
REFUSED = {
    "a number and a half of it": (
        "static volatile union { __u32 both; __u16 each[2]; } state;\n" + FUNCTION
        + "state.each[0] -= 1; return state.both ? XDP_PASS : XDP_DROP; }",
        "a store may change another one of both, each[0], each[1]",
    ),
    "a half of a number of eight bytes, and the other half": (
        "static volatile __u64 state;\n" + FUNCTION
        + "volatile __u32 *each = (volatile __u32 *)&state; each[0] -= 1; return each[1] ? XDP_PASS : XDP_DROP; }",
        "a store may change another one of its number, which lie in one counter",
    ),
    "bit fields": (
        "static volatile struct { __u32 left : 8, passed : 24; } state;\n" + FUNCTION + "state.left--; return state.passed & 1; }",
        "a store may change another one of left, passed",
    ),
    "bit fields of eight bytes": (
        "static volatile struct { __u64 left : 8, passed : 56; } state;\n" + FUNCTION + "state.left--; return state.passed & 1; }",
        "a store may change another one of left, passed",
    ),
    "elements that are chosen by a number": (
        "static volatile __u16 state[4];\n" + of_names(LIMITER % "left == 0", "state[p[1] & 1]", "state[2 + (p[1] & 1)]"),
        "can't be written out as accesses of whole counters",
    ),
}


def settings_from_c(clang, xdpbox, path, *words):
    run = subprocess.run([TOOLS / "settings-from-c", *words, path], env={**os.environ, "CLANG": clang, "XDPBOX": xdpbox}, capture_output=True, text=True, check=False)
    return run.stdout, run.stderr


# How a comment names a number that has no name in C.
UNNAMED = "the number at byte "


def original_of(clang, path):
    """What clang makes of it, with its constants and globals as they are."""
    os.environ["CLANG"] = clang
    return program.read(program.Asked(str(path))).settings


def moved_in(original, made):
    """The parts that have a counter of their own, as the comments of printed settings say it: by map, by (place, size). Of the numbers
    in such a counter the one that holds the others is the part, which has no name if they are stored together alone."""
    found = {}
    for row in original.get("map", []):
        places = {number["name"]: number["place"] for number in original.get("numbers", {}).get(row["name"], [])}
        widest = {}
        for name, *bits in re.findall(rf"^# map {re.escape(row['name'])}: (.*) is bits (\d+) to (\d+) of counter (\d+)$", made, re.M):
            first, last, counter = map(int, bits)
            if counter >= row.get("counters", 1):
                widest[counter] = max(widest.get(counter, (0, 0, "")), (last + 1 - first, first, name))
        for counter, (bits, first, name) in widest.items():
            assert first == 0, made
            place = places[name] if name in places else int(name.removeprefix(UNNAMED))
            found.setdefault(row["name"], {})[place, bits // 8] = counter
    return found


def number_in(made, counters, name, entry):
    """What stands in a number, found as a host finds it: by the comments."""
    first, last, counter = map(int, re.search(rf"^# map state: {re.escape(name)} is bits (\d+) to (\d+) of counter (\d+)$", made, re.M).groups())
    each = tomllib.loads(made)["map"][0].get("counters", 1)
    return counters.get(("state", each * entry + counter), 0) >> first & ((1 << last - first + 1) - 1)


def together(result, before, packet):
    """What two runs answer and leave, of which one stands still after each number of its steps while the other runs."""
    for still in itertools.count():
        one, two = machine.Machine(result), machine.Machine(result)
        two.values = one.values
        for each in before:
            one.run(each)
        steps = one.steps(packet)
        answers = [done for done in itertools.islice(steps, still) if done]
        if answers:
            return
        other = two.run(packet)
        yield [done for done in steps if done] + [other], one.counters()


def limiter_tests(clang, xdpbox, path):
    for name, row in LIMITERS.items():
        path.write_text(row.source)
        made, said = settings_from_c(clang, xdpbox, path)
        missing = [place for place in row.places if f"\n# map state: {place}\n" not in made or f"note: map state: {place}\n" not in said]
        yield f"{name}: where they are", f"{missing} {made[:400]} {said}" if missing else ""
        if made:
            wrong, count = wrong_together(row, made)
            yield f"{name}: two runs at {count} places of one", " ".join(wrong[:3]) or ("" if count > 20 else "too few")
            original, result = original_of(clang, path), tomllib.loads(made)
            relocations = [(each["slot"], each["map"]) for each in result["reloc"]]
            moved = moved_in(original, made)
            wrong, count = machine.differences(xdpbox, original, result["program"], relocations, SOME_PACKETS, moved)
            yield f"{name} as clang made it, on {count} packets", " ".join(wrong[:3]) or ("" if count else "no packet was run")


def at_once_tests(clang, xdpbox, path):
    path.write_text(HEADERS + AT_ONCE)
    made, said = settings_from_c(clang, xdpbox, path)
    if not made:
        yield "two numbers that are loaded at once", said
        return
    original, result = original_of(clang, path), tomllib.loads(made)
    relocations = [(each["slot"], each["map"]) for each in result["reloc"]]
    wrong, count = machine.differences(xdpbox, original, result["program"], relocations, SOME_PACKETS, moved_in(original, made))
    yield f"two numbers that are loaded at once, on {count} packets", " ".join(wrong[:3]) or ("" if count else "no packet was run")


def wrong_together(row, made):
    """What two runs leave that isn't what each of them did, and how many times the two were run."""
    result, wrong, count = tomllib.loads(made), [], 0
    bits = int(re.search(rf"^# map state: {re.escape(row.left)} is bits 0 to (\d+)", made, re.M)[1]) + 1
    for begin in (1, 2):
        for answers, counters in together(result, [REFILL] * begin, bytes(14)):
            found = [number_in(made, counters, name, row.entry) for name in (row.passed, row.left)]
            passed = sum(action == "PASS" for action, _ in answers)
            count += 1
            if found != [passed, (begin - passed) % (1 << bits)]:
                wrong.append(f"{found} after {passed} of {begin} passed")
    return wrong, count


REFILLS, PACKETS, RUNS = 3000, 20000, 6


def pair_of_queues_tests(clang, xdpbox, path):
    """Two queues: what has passed is what the counter says, whatever is left."""
    path.write_text(LIMITERS["two halves of a global"].source)
    made, said = settings_from_c(clang, xdpbox, path)
    if not made:
        yield "two queues", said
        return
    rows = "".join(f'[[packet]]\nqueue = 0\nbytes = "{first}{"00" * 13}"\n' for first in ("01", "00")) * REFILLS
    rows += f'[[packet]]\nqueue = 1\nbytes = "{"00" * 14}"\ntimes = {PACKETS}\n'
    wrong, below = [], 0
    for _ in range(RUNS):
        run = subprocess.run([xdpbox, "pair", "--turns", "1000000"], input="queues = 2\n" + made + rows, capture_output=True, text=True, check=True)
        counters = {("state", int(line[3])): int(line[4]) for line in map(str.split, run.stdout.splitlines()) if line[0] == "counter"}
        found, left = number_in(made, counters, "passed", 0), number_in(made, counters, "left", 0)
        below += left >> 31
        if found != REFILLS - (left ^ 1 << 31) + (1 << 31):
            wrong.append(f"{found} passed, {left} left: {run.stdout[-300:]}")
    yield f"two queues, {below} of {RUNS} times below 0: what has passed", " ".join(wrong[:2])


def refused_tests(clang, xdpbox, path):
    for name, (text, wanted) in REFUSED.items():
        path.write_text(HEADERS + text)
        made, said = settings_from_c(clang, xdpbox, path)
        yield f"{name}: refused", "" if not made and wanted in said and "make each of them a __u64" in said else made[:200] + said


def tests(clang, xdpbox):
    with tempfile.TemporaryDirectory() as folder:
        path = pathlib.Path(folder, "filter.c")
        yield from limiter_tests(clang, xdpbox, path)
        yield from at_once_tests(clang, xdpbox, path)
        yield from pair_of_queues_tests(clang, xdpbox, path)
        yield from refused_tests(clang, xdpbox, path)


# --- addresses as numbers

# r6 is the packet's start, of 14 bytes, and the map's address lies on the stack; then r0 is the address of a value
IF_NOT_ABOVE_REGISTER = JMP | JLE | BY_REGISTER
BEFORE = [
    *START,
    (MOVE_REGISTER, R6, R2),
    (ADD_CONSTANT, R2, 0, 0, 14),
    (IF_NOT_ABOVE_REGISTER, R2, R3, 2),
    *PASS,
    (WIDE_LOAD, R1),
    (STORE_DOUBLE, R10, R1, -32),
]
SPILLED = (STORE_DOUBLE, R10, R0, -16)
# programs of which the number of an address decides something: in a map whose values grow they'd be others, though no instruction changes
SEEN = {
    "the address is the answer": [(EXIT,)],
    "the address is stored in the packet": [(STORE_DOUBLE, R6, R0)],
    "half of it is stored in the packet": [(STORE_WORD, R6, R0)],
    "half of the stored address is loaded": [SPILLED, (LOAD_WORD, R0, R10, -12), (EXIT,)],
    "the stored address is loaded at another place": [SPILLED, (STORE_DOUBLE, R10, R0, -24), (LOAD_DOUBLE, R0, R10, -20), (EXIT,)],
    "the address is compared with a number": [(IF_ABOVE_CONSTANT, R0, 0, 2, 0x50000009), (MOVE_CONSTANT, R0, 0, 0, 1), (EXIT,)],
    "the address is compared with the packet's": [(IF_ABOVE_REGISTER, R0, R6, 2), (MOVE_CONSTANT, R0, 0, 0, 1), (EXIT,)],
    "a part of the address is the answer": [(RSH_CONSTANT, R0, 0, 0, 3), (EXIT,)],
    "a multiple of the address is the answer": [(LSH_CONSTANT, R0, 0, 0, 1), (EXIT,)],
    "the address is added to a counter": [(ATOMIC_DOUBLE, R0, R0, 8)],
    "the address or a number is the answer": [(LOAD_WORD, R3, R6), (IF_EQUAL_CONSTANT, R3, 0, 1, 7), (MOVE_CONSTANT, R0, 0, 0, 3), (EXIT,)],
    "the address was stored on one of two ways": [
        (STORE_WORD, R10, R6, -16),
        (STORE_WORD, R10, R6, -12),
        (LOAD_WORD, R3, R6),
        (IF_EQUAL_CONSTANT, R3, 0, 1, 7),
        SPILLED,
        (LOAD_DOUBLE, R0, R10, -16),
        (EXIT,),
    ],
}
# programs in which an address is tested, moved, and kept on the stack
UNSEEN = {
    "a counter is read": [(LOAD_DOUBLE, R3, R0, 8)],
    "the stored address is read by": [SPILLED, (LOAD_DOUBLE, R3, R10, -16), (ADD_CONSTANT, R3, 0, 0, 8), (LOAD_DOUBLE, R3, R3)],
    "what wasn't found is the answer": [(MOVE_CONSTANT, R0, 0, 0, 1), (EXIT,)],
}


def seen_tests():
    for names, wanted in ((SEEN, True), (UNSEEN, False)):
        for name, rest in names.items():
            given = settings(*BEFORE, *lookup(*rest), *PASS, entries=1, counters=2)
            found = shows_addresses(instructions_of(given))
            yield f"{name}: {'seen' if wanted else 'not seen'}", "" if found == wanted else f"{found}"


# loads of several numbers at once: the opcode, and where these lie; and what they load
SEVERAL = {
    "eight bytes": (LOAD_DOUBLE, [Part(0, 4), Part(4, 2), Part(6, 1), Part(7, 1)]),
    "four bytes": (LOAD_WORD, [Part(0, 2), Part(2, 2)]),
    "four bytes with a sign": (MEMSX << 5 | LDX, [Part(0, 2), Part(2, 1), Part(3, 1)]),
}
LOADED = 0x8877_66F5_8433_9281


def split_tests():
    """Such loads part by part bring what they bring as they were."""
    for name, (opcode, parts) in SEVERAL.items():
        given = settings(*lookup((opcode, R6, R0), (STORE_DOUBLE, R0, R6, 8)), *PASS, entries=1, counters=2)
        given["map"][0]["values"] = [LOADED]
        code = instructions_of(given)
        made = with_split(given, code, {slot: parts for slot, insn in code.items() if insn.is_load and insn.source == R0})
        left = []
        for each in (given, made.settings):
            one = machine.Machine(each)
            left.append((one.run(bytes(14)), one.counters()))
        yield f"{name} that are loaded part by part", "" if left[0] == left[1] else f"{left}"


def place_tests(xdpbox):
    """What `straighten` says of numbers that have a counter of their own."""
    given = text_of(BOTH_HALVES, BOTH_HALVES["program"], [(row["slot"], row["map"]) for row in BOTH_HALVES["reloc"]])
    run = subprocess.run([TOOLS / "straighten"], input=given, env={**os.environ, "XDPBOX": xdpbox}, capture_output=True, text=True, check=False)
    said = "\n# map hits: the number at byte 0 is bits 0 to 31 of counter 2\n" in run.stdout
    yield "straighten says where the bytes are", "" if said else run.stdout[:300] + run.stderr
    packed = [{"name": name, "place": place, "size": 4, "bits": 0} for name, place in (("low", 2), ("both", 6), ("high", 10))]
    places = [line.partition(" is ")[2] for line in places_of({**BOTH_HALVES, "numbers": {"hits": packed}}, {})]
    wanted = ["bits 16 to 47 of counter 0", "bits 48 to 63 of counter 0, and above these bits 0 to 15 of counter 1", "bits 16 to 47 of counter 1"]
    yield "a number in two counters is located", "" if places == wanted else f"{places}"
    yield from seen_tests()
    yield from split_tests()
