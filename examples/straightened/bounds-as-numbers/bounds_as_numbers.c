/* Reads the ethertype of a packet whose length was compared as a number. */
#include "../../headers.h"
#include "../../xdp.h"

__attribute__((section("xdp"), used))
int f(struct xdp_md *ctx)
{
	struct ethhdr *eth = (void *)(long)ctx->data;

	if (ctx->data + 14 > ctx->data_end)
		return XDP_DROP;
	return eth->h_proto == __builtin_bswap16(ETH_P_IP) ? XDP_PASS : XDP_DROP;
}
