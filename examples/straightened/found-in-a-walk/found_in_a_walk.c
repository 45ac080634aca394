/* Drops TCP over IPv4 whose maximum segment size is below 536: the step of the walk that finds this option reads it. */
#include "../../headers.h"
#include "../../xdp.h"

#define SEGMENT_SIZE 2

SEC("xdp")
int f(struct xdp_md *ctx)
{
	void *data = (void *)(long)ctx->data;
	void *data_end = (void *)(long)ctx->data_end;
	struct ethhdr *eth = data;
	struct iphdr *ip = (void *)(eth + 1);
	struct tcphdr *tcp = (void *)(ip + 1);
	unsigned long at = sizeof(*eth) + sizeof(*ip) + sizeof(*tcp), end;

	if ((void *)(tcp + 1) > data_end || eth->h_proto != bpf_htons(ETH_P_IP))
		return XDP_PASS;
	if (ip->ihl != 5 || ip->protocol != IPPROTO_TCP)
		return XDP_PASS;
	end = sizeof(*eth) + sizeof(*ip) + tcp->doff * 4;
#pragma unroll
	for (int i = 0; i < 8; i++) {
		if (at < end) {
			__u8 *option = data + at, kind, size;

			if ((void *)(option + 2) > data_end)
				return XDP_DROP;
			kind = option[0];
			size = option[1];
			if (kind == SEGMENT_SIZE) {
				if ((void *)(option + 4) > data_end)
					return XDP_DROP;
				return bpf_ntohs(*(__u16 *)(option + 2)) < 536 ? XDP_DROP : XDP_PASS;
			}
			at += kind < 2 ? 1 : size;
			asm volatile("" : "+r"(at));
		}
	}
	return XDP_PASS;
}
