/* Swaps the two Ethernet addresses and sends the packet back; drops what is too short for them. */
#include "../xdp.h"

struct address {
	unsigned short part[3];
};

struct ethhdr {
	struct address h_dest, h_source;
	unsigned short h_proto;
};

SEC("xdp")
int swap_addresses(struct xdp_md *ctx)
{
	void *data = (void *)(long)ctx->data;
	void *data_end = (void *)(long)ctx->data_end;
	struct ethhdr *eth = data;
	struct address dest;

	if ((void *)(eth + 1) > data_end)
		return XDP_DROP;
	dest = eth->h_dest;
	eth->h_dest = eth->h_source;
	eth->h_source = dest;
	return XDP_TX;
}
