/* Passes frames of VLAN 100 alone, whatever their priority, with one tag; drops untagged frames too. */
#include "../headers.h"
#include "../xdp.h"

#define VLAN 100
#define VLAN_MASK 0x0fff

SEC("xdp")
int one_vlan(struct xdp_md *ctx)
{
	void *data = (void *)(long)ctx->data;
	void *data_end = (void *)(long)ctx->data_end;
	struct ethhdr *eth = data;
	struct vlan_hdr *tag = (void *)(eth + 1);
	__u16 inner;

	if ((void *)(tag + 1) > data_end || eth->h_proto != bpf_htons(ETH_P_8021Q))
		return XDP_DROP;
	inner = tag->h_vlan_encapsulated_proto;
	if (inner == bpf_htons(ETH_P_8021Q) || inner == bpf_htons(ETH_P_8021AD))
		return XDP_DROP;
	return (bpf_ntohs(tag->h_vlan_TCI) & VLAN_MASK) == VLAN ? XDP_PASS : XDP_DROP;
}
