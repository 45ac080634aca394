/* Drops IPv4 with a source route, an option of type 131 or 137, by a pointer that walks along the options. */
#include "../../headers.h"
#include "../../xdp.h"

SEC("xdp")
int f(struct xdp_md *ctx)
{
	void *data = (void *)(long)ctx->data;
	void *data_end = (void *)(long)ctx->data_end;
	struct ethhdr *eth = data;
	struct iphdr *ip = (void *)(eth + 1);
	__u8 *at = (void *)(ip + 1), *end;

	if ((void *)(ip + 1) > data_end || eth->h_proto != bpf_htons(ETH_P_IP))
		return XDP_PASS;
	end = (__u8 *)ip + ip->ihl * 4;
#pragma unroll
	for (int i = 0; i < 6; i++) {
		if ((void *)(at + 2) > data_end)
			return XDP_DROP;
		if (at >= end)
			return XDP_PASS;
		if (at[0] == 131 || at[0] == 137)
			return XDP_DROP;
		if (at[0] == 1)
			at++;
		else if (at[1])
			at += at[1];
		else
			return XDP_DROP;
	}
	return XDP_PASS;
}
