"""Object files: changed ones, those of other machines, and the function that is taken."""
import concurrent.futures
import os
import pathlib
import random
import subprocess
import sys
import tempfile
import tomllib

from laxonje_tools.from_c import elf

TOOLS = pathlib.Path(__file__).resolve().parents[3]
HEADERS = "#include <linux/bpf.h>\n#include <bpf/bpf_helpers.h>\n"
IN_FRONT = '__asm__(".section \\"xdp\\",\\"ax\\",@progbits\\n r0 = 1\\n exit\\n.text\\n");\n'
TWO_IN_ONE = 'SEC("xdp") int f(struct xdp_md *ctx) { return XDP_DROP; }\nSEC("xdp") int g(struct xdp_md *ctx) { return XDP_PASS; }\n'
PASSES = ["b700000002000000", "9500000000000000"]
FIRST_CALL = 'SEC("xdp") int f(struct xdp_md *ctx) { return bpf_get_prandom_u32() & 1 ? XDP_PASS : XDP_DROP; }\n'
# of two files that a linker made one object of: each has a variable, or a map, of the same name
TWO_OF_A_NAME = {
    "globals": """static __u64 one, two;
SEC("xdp") int f(struct xdp_md *ctx) { one += 1; two += 3; return one > 3 ? XDP_TX : two > 10 ? XDP_DROP : XDP_PASS; }
""",
    "maps": """#define MAP(name, count) struct { __uint(type, BPF_MAP_TYPE_ARRAY); __uint(max_entries, count); __type(key, __u32); \\
	__type(value, __u64); } name SEC(".maps")
MAP(one, 2); MAP(two, 4);
SEC("xdp") int f(struct xdp_md *ctx) { __u32 k = 3; return bpf_map_lookup_elem(&one, &k) ? XDP_DROP : bpf_map_lookup_elem(&two, &k) ? XDP_PASS : XDP_TX; }
""",
    "constants": """volatile const __u32 one = 1, two = 2;
SEC("xdp") int f(struct xdp_md *ctx) { return one * two; }
""",
}
SAYS_TWO = {"globals": "takes the address of a second global one", "maps": "it declares two maps one", "constants": "there are 2 constants one"}
# what only the kernel that loads a program can answer, and what a file's declarations say
OF_KERNEL = {
    "a field": "struct net___own { int no_such_field; }; #define ASKS bpf_core_field_exists(struct net___own, no_such_field)",
    "a type": "struct no_such_type { int x; }; #define ASKS bpf_core_type_exists(struct no_such_type)",
    "a size": "struct net { int x; }; #define ASKS (bpf_core_type_size(struct net) == 4)",
    "a number": "enum bpf_map_type___own { NUMBER = 77 }; #define ASKS (bpf_core_enum_value(enum bpf_map_type___own, NUMBER) == 77)",
}
ASKS = """static {inlined} int asks(void) {{ return ASKS; }}
SEC("xdp") int f(struct xdp_md *ctx) {{ return asks() ? XDP_DROP : XDP_PASS; }}
"""
DECLARED = """struct head { __u8 to[6], from[6]; __u16 kind; } __attribute__((preserve_access_index));
SEC("xdp") int f(struct xdp_md *ctx) {
	struct head *head = (void *)(long)ctx->data;
	return (void *)(head + 1) > (void *)(long)ctx->data_end || head->kind == 8 ? XDP_DROP : XDP_PASS; }
"""
# assembled by hand: a function that calls another one, each with the lines of its body, and what is said of them
BY_HAND = """	.section xdp,"ax",@progbits
	.globl f
	.type f,@function
f:
	{}
	exit
	.size f, .-f
	.text
	.type g,@function
g:
	{}
	r0 = 0
	exit
	.size g, .-g
"""
PLAIN = ("r1 = 1; *(u64 *)(r10 - 16) = r1; call g; r0 = *(u64 *)(r10 - 16)", "r2 = 3; *(u64 *)(r10 - 16) = r2")
FRAMES = {
    "a frame's address that is kept": (PLAIN[0], "*(u64 *)(r10 - 8) = r10; r1 = *(u64 *)(r10 - 8); r2 = 3; *(u64 *)(r1 - 16) = r2"),
    "a frame's address that is compared": (PLAIN[0], "r1 = r10; if r1 == r10 goto +1; r1 = 0"),
    "an address below a frame whose end is kept": (
        "*(u64 *)(r10 - 8) = r10; r1 = *(u64 *)(r10 - 8); r1 += -32; r2 = 1; *(u64 *)(r1 + 0) = r2; call g; r0 = 1",
        "r2 = 3; *(u64 *)(r10 - 24) = r2",
    ),
}
# two sections of one name, of which the first one's relocation would be taken for the second one's
TWO_SECTIONS = """	.section xdp,"ax",@progbits,unique,1
	.globl f
	.type f,@function
f:	r1 = one ll
	r0 = 1
	exit
	.size f, .-f
	.section xdp,"ax",@progbits,unique,2
	.globl g
	.type g,@function
g:	r1 = 0 ll
	r0 = 2
	exit
	.size g, .-g
	.section .maps,"aw",@progbits
	.globl one
	.type one,@object
one:	.quad 0
	.size one, 8
"""
# words that make something else than an object for BPF
# a value of eight bytes whose type has 2^40 parts
EMPTY_PARTS = """struct no { }; struct many { struct no no[1024][1024][1024][1024]; __u64 n; };
struct { __uint(type, BPF_MAP_TYPE_ARRAY); __uint(max_entries, 1); __type(key, __u32); __type(value, struct many); } m SEC(".maps");
SEC("xdp") int f(struct xdp_md *ctx) { __u32 k = 0; return bpf_map_lookup_elem(&m, &k) ? XDP_PASS : XDP_DROP; }
"""
FLAGS = "-flto", "-S", "-E", "-S -emit-llvm", "-emit-llvm", "-target bpfeb", "-target x86_64-linux-gnu"
CHANGED, SEED, MOST_BYTES = 240, 7, 1 << 30
# reads changed objects one after another, each of which ends by a line or is read; `-` in front of what isn't as it should be
READER = """
import contextlib, io, resource, sys
resource.setrlimit(resource.RLIMIT_AS, (int(sys.argv[1]), int(sys.argv[1])))
from laxonje_tools.from_c import program
for path in sys.argv[2:]:
    said = io.StringIO()
    try:
        with contextlib.redirect_stderr(said):
            program.read(program.Asked(path))
    except SystemExit:
        pass
    except BaseException as fault:
        print("-", path, type(fault).__name__, fault)
    if "Traceback" in said.getvalue() or len(said.getvalue().splitlines()) > 20:
        print("-", path, said.getvalue()[:200])
    print("read")
"""


def object_of(clang, source, target):
    words = [clang, "-O2", "-g", "-target", "bpf", "-mcpu=v2", f"-I/usr/include/{os.uname().machine}-linux-gnu", "-c", source, "-o", target]
    subprocess.run(words, check=True, stderr=subprocess.DEVNULL)
    return pathlib.Path(target)


def settings_from_c(clang, xdpbox, *words, **more):
    env = {**os.environ, "CLANG": clang, "XDPBOX": str(xdpbox), **more}
    run = subprocess.run([TOOLS / "settings-from-c", *words], env=env, capture_output=True, check=False)
    return run.stdout.decode(), run.stderr.decode(errors="replace"), run.returncode


def changed(data, chance):
    """An object with bytes changed, cut, or with a field of its headers set to a number from the edges."""
    raw, way = bytearray(data), chance.randrange(4)
    if way == 0:
        return bytes(raw[: chance.randrange(len(raw))])
    for _ in range(chance.choice((1, 2, 8))):
        at = chance.randrange(64) if way == 1 else chance.randrange(len(raw))
        if way == 3:
            at = len(raw) - 1 - chance.randrange(64 * 30)  # the table of sections is the last part
        raw[at] = chance.choice((0, 1, 0x7F, 0x80, 0xFF, chance.randrange(256)))
    return bytes(raw)


def changed_tests(clang, folder):
    """Changed objects of a filter with a loop, maps, constants and globals."""
    source = TOOLS / "gate/tests/straight/filters/48-teid-table.c"
    data, chance = object_of(clang, source, folder / "whole.o").read_bytes(), random.Random(SEED)
    paths = [folder / f"{number}.o" for number in range(CHANGED)]
    for path in paths:
        path.write_bytes(changed(data, chance))
    parts = [paths[at :: 4] for at in range(4)]

    def read(part):
        words = [sys.executable, "-B", "-c", READER, str(MOST_BYTES), *part]
        return subprocess.run(words, cwd=TOOLS, capture_output=True, text=True, check=False, timeout=300)

    with concurrent.futures.ThreadPoolExecutor() as pool:
        runs = list(pool.map(read, parts))
    said = "".join(run.stdout + run.stderr for run in runs)
    wrong = [line for line in said.splitlines() if line != "read"]
    right = not wrong and said.count("read") == CHANGED
    yield f"{CHANGED} changed object files", "" if right else " ".join(wrong[:3]) or "not all were read"


def doubled_tests(clang, xdpbox, folder):
    """Variables and maps of one name are refused, and not taken for one another."""
    for what, text in TWO_OF_A_NAME.items():
        (folder / "two.c").write_text(HEADERS + text)
        path, words = object_of(clang, folder / "two.c", folder / "two.o"), ["--set", "one=1"] if what == "constants" else []
        made, said, _ = settings_from_c(clang, xdpbox, *words, path)
        yield f"two {what}", "" if made else said
        path.write_bytes(path.read_bytes().replace(b"\0two\0", b"\0one\0"))
        made, said, status = settings_from_c(clang, xdpbox, *words, path)
        yield f"two {what} of one name", "" if status == 1 and not made and SAYS_TWO[what] in said else made + said


def kernel_tests(clang, xdpbox, folder):
    """What is asked of the kernel is refused; where a field lies the file says."""
    for what, declared in OF_KERNEL.items():
        for inlined in ("__always_inline", "__noinline"):
            text = declared.replace("; #", ";\n#") + "\n" + ASKS.format(inlined=inlined)
            (folder / "kernel.c").write_text(HEADERS + "#include <bpf/bpf_core_read.h>\n" + text)
            made, said, status = settings_from_c(clang, xdpbox, folder / "kernel.c")
            right = status == 1 and not made and "asks bpf_core_" in said and said.count("\n") == 1
            yield f"{what} that the kernel is asked for, {inlined}", "" if right else made + said
    (folder / "kernel.c").write_text(HEADERS + DECLARED)
    made, said, _ = settings_from_c(clang, xdpbox, folder / "kernel.c")
    yield "a field that lies where the file says", "" if made else said


def frame_tests(clang, xdpbox, folder):
    """Functions by hand that do with the address of their frame what clang doesn't are refused where they are called."""
    for name, bodies in {"frames by hand": PLAIN, **FRAMES}.items():
        (folder / "hand.s").write_text(BY_HAND.format(*(body.replace("; ", "\n\t") for body in bodies)))
        made, said, status = settings_from_c(clang, xdpbox, object_of(clang, folder / "hand.s", folder / "hand.o"))
        right = status == 1 and not made and ("computes with the frame's address" in said or "needs room on the stack" in said)
        yield name, "" if (made if bodies is PLAIN else right) else made + said
    (folder / "hand.s").write_text(BY_HAND.format("r1 = number ll; r0 = 2".replace("; ", "\n\t"), "r1 = 0") + "\t.bss\nnumber:\t.quad 0\n")
    path = object_of(clang, folder / "hand.s", folder / "hand.o")
    whole, (rows,) = path.read_bytes(), [part.data for name, part in elf.sections_of(path.read_bytes()).items() if name == ".relxdp"]
    for place in (0, 4, 16):
        path.write_bytes(whole.replace(rows, place.to_bytes(8, "little") + rows[8:]))
        made, said, status = settings_from_c(clang, xdpbox, path)
        right = made if place == 0 else status == 1 and not made and "doesn't fit its slot" in said
        yield f"an address of a global at byte {place}", "" if right else made + said
    body = "r1 = .Lnumber ll; r2 = 1; *(u64 *)(r1 + 0) = r2; r0 = 2".replace("; ", "\n\t")
    (folder / "hand.s").write_text(BY_HAND.format(body, "r1 = 0") + "\t.bss\n.Lnumber:\t.quad 0\n")
    made, said, status = settings_from_c(clang, xdpbox, object_of(clang, folder / "hand.s", folder / "hand.o"))
    yield "a store to a global without a symbol", "" if status == 1 and not made and "stores to .bss: " in said else made + said
    (folder / "hand.s").write_text(TWO_SECTIONS)
    made, said, status = settings_from_c(clang, xdpbox, "--program", "g", object_of(clang, folder / "hand.s", folder / "hand.o"), "one=1")
    yield "two sections of one name", "" if status == 1 and not made and "two sections xdp" in said else made + said


def tests(clang, xdpbox):
    with tempfile.TemporaryDirectory() as name:
        folder, passes = pathlib.Path(name), pathlib.Path(name, "passes.c")
        passes.write_text(HEADERS + 'SEC("xdp") int f(struct xdp_md *ctx) { return XDP_PASS; }\n')
        for flags in FLAGS:
            made, said, status = settings_from_c(clang, xdpbox, passes, CFLAGS=flags)
            lines = [line for line in said.splitlines() if "warning" not in line and not line.startswith("clang")]
            right = status == 1 and not made and "Traceback" not in said and len(lines) <= 1
            yield f"CFLAGS {flags}", "" if right else f"{status} {said}"
        (folder / "first.c").write_text(HEADERS + FIRST_CALL)
        made, said, _ = settings_from_c(clang, xdpbox, folder / "first.c")
        yield "a call that is the first instruction", "" if made else said
        for what, text in (("code in front of the function", IN_FRONT + passes.read_text()),):
            (folder / "front.c").write_text(text)
            made, said, _ = settings_from_c(clang, xdpbox, folder / "front.c")
            yield what, "" if made and tomllib.loads(made)["program"] == PASSES else made + said
        (folder / "parts.c").write_text(HEADERS + EMPTY_PARTS)
        made, said, status = settings_from_c(clang, xdpbox, folder / "parts.c")
        yield "a type of too many parts", "" if status == 1 and not made and said.endswith("a type has too many parts\n") and said.count("\n") == 1 else said
        (folder / "two.c").write_text(HEADERS + TWO_IN_ONE)
        for source in (folder / "two.c", object_of(clang, folder / "two.c", folder / "two.o")):
            made, said, _ = settings_from_c(clang, xdpbox, "--program", "g", source)
            yield f"the second of two functions, of {source.name}", "" if made and tomllib.loads(made)["program"] == PASSES else made + said
            made, said, status = settings_from_c(clang, xdpbox, source)
            right = status == 1 and not made and said.endswith("name one, as --program f: f in xdp, g in xdp\n")
            yield f"two functions, of {source.name}", "" if right else said
            made, said, status = settings_from_c(clang, xdpbox, "--program", "h", source)
            right = status == 1 and not made and said.endswith("no function is called h: f in xdp, g in xdp\n")
            yield f"a function that isn't there, of {source.name}", "" if right else said
        yield from doubled_tests(clang, xdpbox, folder)
        yield from kernel_tests(clang, xdpbox, folder)
        yield from frame_tests(clang, xdpbox, folder)
        yield from changed_tests(clang, folder)
