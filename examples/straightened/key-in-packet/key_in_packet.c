/* Passes the senders of a list alone: the key of the lookup lies in the packet. */
#include "../../headers.h"
#include "../../xdp.h"

struct {
	__uint(type, BPF_MAP_TYPE_HASH);
	__uint(max_entries, 16);
	__type(key, struct { __u8 address[ETH_ALEN]; });
	__type(value, __u64);
} senders SEC(".maps");

SEC("xdp")
int key_in_packet(struct xdp_md *ctx)
{
	void *data = (void *)(long)ctx->data;
	void *data_end = (void *)(long)ctx->data_end;
	struct ethhdr *eth = data;

	if ((void *)(eth + 1) > data_end)
		return XDP_DROP;
	return bpf_map_lookup_elem(&senders, eth->h_source) ? XDP_PASS : XDP_DROP;
}
