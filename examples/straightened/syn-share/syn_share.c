/* A rate without a clock: of the guest's packets at most one in eight may begin a TCP connection, after the first 64 that may. */
#include "../../headers.h"
#include "../../xdp.h"

enum { ONE_IN = 8, BURST = 64 };

struct seen {
	__u64 packets, begun;
};

struct {
	__uint(type, BPF_MAP_TYPE_ARRAY);
	__uint(max_entries, 1);
	__type(key, __u32);
	__type(value, struct seen);
} counts SEC(".maps");

static __always_inline int begins_connection(struct iphdr *ip, void *data_end)
{
	struct tcphdr *tcp = (void *)ip + sizeof(*ip);

	if (ip->protocol != IPPROTO_TCP || ip->ihl != 5 || (void *)(tcp + 1) > data_end)
		return 0;
	return tcp->syn && !tcp->ack;
}

SEC("xdp")
int syn_share(struct xdp_md *ctx)
{
	void *data = (void *)(long)ctx->data, *data_end = (void *)(long)ctx->data_end;
	struct ethhdr *eth = data;
	struct iphdr *ip = (void *)(eth + 1);
	__u32 key = 0;
	struct seen *seen = bpf_map_lookup_elem(&counts, &key);

	if (!seen)
		return XDP_DROP;
	seen->packets += 1;
	if ((void *)(ip + 1) > data_end || eth->h_proto != bpf_htons(ETH_P_IP) || !begins_connection(ip, data_end))
		return XDP_PASS;
	/* both numbers only grow, so what two queues do at once never opens it for good */
	if (seen->begun * ONE_IN >= seen->packets + BURST * ONE_IN)
		return XDP_DROP;
	seen->begun += 1;
	return XDP_PASS;
}
