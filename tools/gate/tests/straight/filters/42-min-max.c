/* Keeps the smallest and the largest length seen, and passes all. */
#include <linux/bpf.h>
#include <bpf/bpf_helpers.h>

struct sizes { __u64 smallest, largest, packets; };
struct { __uint(type, BPF_MAP_TYPE_PERCPU_ARRAY); __uint(max_entries, 1); __type(key, __u32); __type(value, struct sizes); } sizes SEC(".maps");
SEC("xdp") int minmax(struct xdp_md *ctx)
{
	__u64 length = ctx->data_end - ctx->data;
	__u32 zero = 0;
	struct sizes *s = bpf_map_lookup_elem(&sizes, &zero);
	if (!s)
		return XDP_ABORTED;
	if (!s->packets || length < s->smallest)
		s->smallest = length;
	if (length > s->largest)
		s->largest = length;
	s->packets++;
	return XDP_PASS;
}
