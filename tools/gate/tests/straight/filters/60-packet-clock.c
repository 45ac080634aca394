/* A leaky bucket whose clock is the number of packets: every 16th packet of any kind lets one more of a source's through. */
#include <linux/bpf.h>
#include <linux/if_ether.h>
#include <bpf/bpf_helpers.h>

static volatile __u64 clock;
struct bucket {
	__u64 level, last;
};
struct {
	__uint(type, BPF_MAP_TYPE_ARRAY);
	__uint(max_entries, 256);
	__type(key, __u32);
	__type(value, struct bucket);
} buckets SEC(".maps");
SEC("xdp") int leaky(struct xdp_md *ctx)
{
	void *data = (void *)(long)ctx->data, *data_end = (void *)(long)ctx->data_end;
	struct ethhdr *eth = data;
	__u64 now = ++clock;
	if ((void *)(eth + 1) > data_end)
		return XDP_DROP;
	__u32 key = eth->h_source[5];
	struct bucket *b = bpf_map_lookup_elem(&buckets, &key);
	if (!b)
		return XDP_DROP;
	__u64 leaked = (now - b->last) / 16;
	__u64 level = b->level > leaked ? b->level - leaked : 0;
	if (level >= 3)
		return XDP_DROP;
	b->level = level + 1;
	b->last = now;
	return XDP_PASS;
}
