/* Drops UDP over IPv4 whose first 16 bytes hold 0x90 twice in a row: a loop that is left where the packet ends, which clang
   doesn't unroll. */
#include "../../headers.h"
#include "../../xdp.h"

SEC("xdp")
int f(struct xdp_md *ctx)
{
	void *data = (void *)(long)ctx->data;
	void *data_end = (void *)(long)ctx->data_end;
	struct ethhdr *eth = data;
	struct iphdr *ip = (void *)(eth + 1);
	struct udphdr *udp = (void *)(ip + 1);
	__u8 *byte = (void *)(udp + 1);

	if ((void *)(udp + 1) > data_end || eth->h_proto != bpf_htons(ETH_P_IP))
		return XDP_PASS;
	if (ip->protocol != IPPROTO_UDP || ip->ihl != 5)
		return XDP_PASS;
	for (int i = 0; i < 16; i++) {
		if ((void *)(byte + i + 2) > data_end)
			break;
		if (byte[i] == 0x90 && byte[i + 1] == 0x90)
			return XDP_DROP;
	}
	return XDP_PASS;
}
