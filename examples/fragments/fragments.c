/* Drops IPv4 fragments, first ones too, and passes all else: what looks at ports can't see those of later fragments. */
#include "../headers.h"
#include "../xdp.h"

#define MORE_FRAGMENTS 0x2000
#define OFFSET 0x1fff

SEC("xdp")
int fragments(struct xdp_md *ctx)
{
	void *data = (void *)(long)ctx->data;
	void *data_end = (void *)(long)ctx->data_end;
	struct ethhdr *eth = data;
	struct iphdr *ip = (void *)(eth + 1);

	if ((void *)(eth + 1) > data_end)
		return XDP_DROP;
	if (eth->h_proto != bpf_htons(ETH_P_IP))
		return XDP_PASS;
	if ((void *)(ip + 1) > data_end)
		return XDP_DROP;
	return ip->frag_off & bpf_htons(MORE_FRAGMENTS | OFFSET) ? XDP_DROP : XDP_PASS;
}
