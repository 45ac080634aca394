"""Counters that a program lowers: what the note says of them, and what two queues do to them."""
import os
import pathlib
import subprocess
import tempfile

TOOLS = pathlib.Path(__file__).resolve().parents[3]
HEADERS = "#include <linux/bpf.h>\n#include <bpf/bpf_helpers.h>\n"
TOKENS = """struct { __uint(type, BPF_MAP_TYPE_ARRAY); __uint(max_entries, 1); __type(key, __u32); __type(value, __u64); } tokens SEC(".maps");
static volatile struct { __u32 left, passed; } state;
SEC("xdp") int f(struct xdp_md *ctx) {
	__u8 *p = (void *)(long)ctx->data;
	if (p + 14 > (__u8 *)(long)ctx->data_end) return XDP_DROP;
	__u32 key = 0; __u64 *left = bpf_map_lookup_elem(&tokens, &key);
	if (!left) return XDP_DROP;
"""
LIMITER = "if (p[0] == 1) {{ *left += 1; return XDP_PASS; }}\nif ({}) return XDP_DROP;\n*left -= 1;\nreturn XDP_PASS; }}\n"
BELOW, PART_BELOW = ("compare it with sign, as `(%s)*value <= 0`" % name for name in ("long long", "int"))
OWN = "map state: left is bits 0 to 31 of counter 1"
# what is done, and which notes there have to be: of a counter, or of a part of one, that may go below 0, and of a part
# that has a counter of its own
NOTED = {
    "*left -= 1 if it isn't 0": (LIMITER.format("*left == 0"), True, False, False),
    "*left -= n": ("if (*left < p[0]) return XDP_DROP; *left -= p[0]; return XDP_PASS; }", True, False, False),
    "*left = 5": ("*left = 5; return XDP_PASS; }", True, False, False),
    "*left += 1 if it is below a number": ("if (*left > 99) return XDP_DROP; *left += 1; return XDP_PASS; }", False, False, False),
    "*left |= 4": ("*left |= 4; return XDP_PASS; }", False, False, False),
    "state.left--": ("state.left--; state.passed++; return XDP_PASS; }", False, True, True),
    "state.passed++": ("state.passed++; return XDP_PASS; }", False, False, False),
}
REFILLS, PACKETS, RUNS = 3000, 20000, 4


def settings_from_c(clang, xdpbox, path):
    run = subprocess.run([TOOLS / "settings-from-c", path], env={**os.environ, "CLANG": clang, "XDPBOX": xdpbox}, capture_output=True, text=True, check=False)
    return run.stdout, run.stderr


def left_after(xdpbox, settings):
    """What two queues leave of the tokens, with sign: one refills and takes in turn, the other takes."""
    rows = ("".join(f'[[packet]]\nqueue = 0\nbytes = "{first}{"00" * 13}"\n' for first in ("01", "00"))) * REFILLS
    rows += f'[[packet]]\nqueue = 1\nbytes = "{"00" * 14}"\ntimes = {PACKETS}\n'
    text = "queues = 2\n" + settings + rows
    run = subprocess.run([xdpbox, "pair", "--turns", "1000000"], input=text, capture_output=True, text=True, check=True)
    counters = [int(line.split()[-1]) for line in run.stdout.splitlines() if line.startswith("counter tokens")]
    return (counters[0] + (1 << 63)) % (1 << 64) - (1 << 63) if counters else 0


def tests(clang, xdpbox):
    with tempfile.TemporaryDirectory() as folder:
        path = pathlib.Path(folder, "limiter.c")
        for name, (body, *wanted) in NOTED.items():
            path.write_text(HEADERS + TOKENS + body)
            made, said = settings_from_c(clang, xdpbox, path)
            found = [BELOW in said, PART_BELOW in said, OWN in said]
            yield f"{name}: noted as it should be", "" if made and found == wanted else said or "no note"
        path.write_text(HEADERS + TOKENS + LIMITER.format("(long long)*left <= 0"))
        made, said = settings_from_c(clang, xdpbox, path)
        left = [left_after(xdpbox, made) for _ in range(RUNS)] if made else []
        # two that find the last token both take it: one below 0 at most, and nothing passes until it is given back
        yield "a limiter that compares with sign stays closed", "" if made and min(left) >= -1 else f"{left} {said}"
