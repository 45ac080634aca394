/* Drops IPv4 packets with TTL 0 or 1 and IPv6 packets with hop limit 0 or 1, which no router forwards; passes all else. */
#include "../headers.h"
#include "../xdp.h"

SEC("xdp")
int low_ttl(struct xdp_md *ctx)
{
	void *data = (void *)(long)ctx->data;
	void *data_end = (void *)(long)ctx->data_end;
	struct ethhdr *eth = data;
	__u8 left;

	if ((void *)(eth + 1) > data_end)
		return XDP_DROP;
	if (eth->h_proto == bpf_htons(ETH_P_IP)) {
		struct iphdr *ip = (void *)(eth + 1);

		if ((void *)(ip + 1) > data_end)
			return XDP_DROP;
		left = ip->ttl;
	} else if (eth->h_proto == bpf_htons(ETH_P_IPV6)) {
		struct ipv6hdr *ip = (void *)(eth + 1);

		if ((void *)(ip + 1) > data_end)
			return XDP_DROP;
		left = ip->hop_limit;
	} else {
		return XDP_PASS;
	}
	return left <= 1 ? XDP_DROP : XDP_PASS;
}
