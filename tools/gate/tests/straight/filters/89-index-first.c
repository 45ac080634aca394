/* An index into a value behind its first numbers, to which clang adds the value's address. */
#include <linux/bpf.h>
#include <bpf/bpf_helpers.h>
struct counts { __u64 kinds[8]; };
struct { __uint(type, BPF_MAP_TYPE_PERCPU_ARRAY); __uint(max_entries, 1); __type(key, __u32); __type(value, struct counts); } counters SEC(".maps");
SEC("xdp") int index_first(struct xdp_md *ctx) {
	__u8 *data = (void *)(long)ctx->data, *end = (void *)(long)ctx->data_end; __u32 z = 0;
	struct counts *c = bpf_map_lookup_elem(&counters, &z);
	if (!c || data + 20 > end) return XDP_DROP;
	__u8 act = data[1];
	c->kinds[3 + (act & 3)]++;
	return act ? XDP_DROP : XDP_PASS;
}
char LICENSE[] SEC("license") = "GPL";
