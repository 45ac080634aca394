/* Counts under one of eight numbers of the addresses, and marks the packet by a table of the same number. */
#include <linux/bpf.h>
#include <bpf/bpf_helpers.h>

struct {
	__uint(type, BPF_MAP_TYPE_ARRAY);
	__uint(max_entries, 8);
	__type(key, __u32);
	__type(value, __u64);
} hits SEC(".maps");

static const __u8 marks[8] = {7, 1, 200, 9, 30, 31, 0, 99};

SEC("xdp")
int f(struct xdp_md *ctx)
{
	__u8 *p = (void *)(long)ctx->data;

	if (p + 34 > (__u8 *)(long)ctx->data_end)
		return XDP_DROP;
	__u32 which = (p[26] * 31 + p[27] * 7 + p[28]) & 7;
	__u64 *value = bpf_map_lookup_elem(&hits, &which);

	if (value)
		__sync_fetch_and_add(value, 1);
	p[5] = marks[which];
	return XDP_TX;
}
