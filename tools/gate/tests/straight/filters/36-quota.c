/* Each of 16 sources may send five packets; a packet of type 0x88b5 gives it five more. */
#include <linux/bpf.h>
#include <linux/if_ether.h>
#include <bpf/bpf_endian.h>
#include <bpf/bpf_helpers.h>

struct {
	__uint(type, BPF_MAP_TYPE_ARRAY);
	__uint(max_entries, 16);
	__type(key, __u32);
	__type(value, __u64);
} used SEC(".maps");
SEC("xdp") int quota(struct xdp_md *ctx)
{
	void *data = (void *)(long)ctx->data, *data_end = (void *)(long)ctx->data_end;
	struct ethhdr *eth = data;
	if ((void *)(eth + 1) > data_end)
		return XDP_DROP;
	__u32 key = eth->h_source[5] & 15;
	__u64 *count = bpf_map_lookup_elem(&used, &key);
	if (!count)
		return XDP_ABORTED;
	if (eth->h_proto == bpf_htons(0x88b5)) {
		*count = 0;
		return XDP_DROP;
	}
	if (*count >= 5)
		return XDP_DROP;
	*count += 1;
	return XDP_PASS;
}
