/* Passes IPv4 from the addresses of a list to the networks of another, of the protocols of a table alone, and counts by both. */
#include "../headers.h"
#include "../xdp.h"

struct network {
	__u32 bits;
	__u32 address;
};

struct {
	__uint(type, BPF_MAP_TYPE_HASH);
	__uint(max_entries, 1000);
	__type(key, __u32);
	__type(value, __u64);
} hosts SEC(".maps");

struct {
	__uint(type, BPF_MAP_TYPE_LPM_TRIE);
	__uint(max_entries, 1000);
	__uint(map_flags, 1); /* BPF_F_NO_PREALLOC, which Linux asks for */
	__type(key, struct network);
	__type(value, __u64);
} networks SEC(".maps");

static const __u8 passes[256] = {[IPPROTO_ICMP] = 1, [IPPROTO_TCP] = 1, [IPPROTO_UDP] = 1};

SEC("xdp")
int lists_and_protocols(struct xdp_md *ctx)
{
	void *data = (void *)(long)ctx->data;
	void *data_end = (void *)(long)ctx->data_end;
	struct ethhdr *eth = data;
	struct iphdr *ip = (void *)(eth + 1);
	struct network to = {32};
	__u64 *sent, *received;
	__u32 source;

	if ((void *)(eth + 1) > data_end)
		return XDP_DROP;
	if (eth->h_proto != bpf_htons(ETH_P_IP))
		return XDP_PASS;
	if ((void *)(ip + 1) > data_end || !passes[ip->protocol])
		return XDP_DROP;
	source = ip->saddr;
	to.address = ip->daddr;
	sent = bpf_map_lookup_elem(&hosts, &source);
	if (!sent)
		return XDP_DROP;
	received = bpf_map_lookup_elem(&networks, &to);
	if (!received)
		return XDP_DROP;
	__sync_fetch_and_add(sent, 1);
	__sync_fetch_and_add(received, 1);
	return XDP_PASS;
}
