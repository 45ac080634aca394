/* bpf_loop: as often as a constant says, and as a number does, left early, one inside another, and never. */
#include <linux/bpf.h>
#include <bpf/bpf_helpers.h>
struct { __uint(type, BPF_MAP_TYPE_ARRAY); __uint(max_entries, 8); __type(key, __u32); __type(value, __u64); } seen SEC(".maps");
struct walk { struct xdp_md *ctx; __u32 at, sum, stop; };
static void add(__u32 key, __u64 number) { __u64 *n = bpf_map_lookup_elem(&seen, &key); if (n) __sync_fetch_and_add(n, number); }
static long byte(__u32 i, void *given) {
	struct walk *walk = given;
	__u8 *data = (void *)(long)walk->ctx->data, *end = (void *)(long)walk->ctx->data_end, *at = data + walk->at;
	if (walk->at > 200 || at + 1 > end) return 1;
	walk->sum += *at * (i + 1);
	walk->at++;
	return *at == walk->stop;
}
static long inner(__u32 i, void *given) { *(__u32 *)given += i + 1; return i == 2; }
static long outer(__u32 i, void *given) { __u32 *sum = given; add(i & 3, bpf_loop(4, inner, sum, 0)); return *sum > 15; }
SEC("xdp") int f(struct xdp_md *ctx) {
	__u8 *data = (void *)(long)ctx->data, *end = (void *)(long)ctx->data_end;
	if (data + 14 > end) return XDP_ABORTED;
	struct walk walk = { .ctx = ctx, .at = 2, .stop = data[1] };
	__u32 sum = data[0] >> 6;
	if (data[0] & 8) {
		add(4, bpf_loop(data[0] & 7, byte, &walk, 0));
		return walk.sum & 1 ? XDP_TX : XDP_PASS;
	}
	add(5, bpf_loop(9, byte, &walk, 0));
	add(6, walk.sum);
	add(7, bpf_loop(3, outer, &sum, 0) + bpf_loop(0, outer, &sum, 0));
	return sum > 12 ? XDP_DROP : walk.sum & 1 ? XDP_TX : XDP_PASS;
}
char LICENSE[] SEC("license") = "GPL";
