/* Drops IPv4 that doesn't go to a prefix of a list, and counts by the longest one that holds. */
#include "../headers.h"
#include "../xdp.h"

struct prefix {
	__u32 bits;
	__u32 address;
};

struct {
	__uint(type, BPF_MAP_TYPE_LPM_TRIE);
	__uint(max_entries, 1000);
	__uint(map_flags, 1); /* BPF_F_NO_PREALLOC, which Linux asks for */
	__type(key, struct prefix);
	__type(value, __u64);
} allowed SEC(".maps");

SEC("xdp")
int prefix_list(struct xdp_md *ctx)
{
	void *data = (void *)(long)ctx->data;
	void *data_end = (void *)(long)ctx->data_end;
	struct ethhdr *eth = data;
	struct iphdr *ip = (void *)(eth + 1);
	struct prefix to = {32};
	__u64 *packets;

	if ((void *)(eth + 1) > data_end)
		return XDP_DROP;
	if (eth->h_proto != bpf_htons(ETH_P_IP))
		return XDP_PASS;
	if ((void *)(ip + 1) > data_end)
		return XDP_DROP;
	to.address = ip->daddr;
	packets = bpf_map_lookup_elem(&allowed, &to);
	if (!packets)
		return XDP_DROP;
	__sync_fetch_and_add(packets, 1);
	return XDP_PASS;
}
