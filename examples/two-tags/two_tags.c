/* Passes IPv4 after at most two VLAN tags, and drops all else. */
#include "../headers.h"
#include "../xdp.h"

#define MOST_TAGS 2

static int is_tag(unsigned short proto)
{
	return proto == bpf_htons(ETH_P_8021Q) || proto == bpf_htons(ETH_P_8021AD);
}

SEC("xdp")
int two_tags(struct xdp_md *ctx)
{
	void *data = (void *)(long)ctx->data;
	void *data_end = (void *)(long)ctx->data_end;
	struct ethhdr *eth = data;
	struct vlan_hdr *tag = (void *)(eth + 1);
	unsigned short proto;

	if ((void *)(eth + 1) > data_end)
		return XDP_DROP;
	proto = eth->h_proto;
	/* No jump may close a cycle. */
#pragma unroll
	for (int i = 0; i < MOST_TAGS; i++) {
		if (!is_tag(proto))
			break;
		if ((void *)(tag + 1) > data_end)
			return XDP_DROP;
		proto = tag->h_vlan_encapsulated_proto;
		tag++;
	}
	return proto == bpf_htons(ETH_P_IP) ? XDP_PASS : XDP_DROP;
}
