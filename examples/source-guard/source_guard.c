/* Passes only what comes from the guest's own addresses: one Ethernet address, and 10.0.0.1 for IPv4; ARP is for
   another filter. Drops all else, IPv6 too. */
#include "../headers.h"
#include "../xdp.h"

#define OWN_IP 0x0a000001	/* 10.0.0.1 */

SEC("xdp")
int source_guard(struct xdp_md *ctx)
{
	void *data = (void *)(long)ctx->data;
	void *data_end = (void *)(long)ctx->data_end;
	struct ethhdr *eth = data;
	struct iphdr *ip = (void *)(eth + 1);
	__u8 *from = eth->h_source;

	if ((void *)(eth + 1) > data_end)
		return XDP_DROP;
	if (from[0] != 0x02 || from[1] || from[2] || from[3] || from[4] || from[5] != 0x01)
		return XDP_DROP;
	if (eth->h_proto == bpf_htons(ETH_P_ARP))
		return XDP_PASS;
	if (eth->h_proto != bpf_htons(ETH_P_IP) || (void *)(ip + 1) > data_end)
		return XDP_DROP;
	return ip->saddr == bpf_htonl(OWN_IP) ? XDP_PASS : XDP_DROP;
}
