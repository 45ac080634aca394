/* Drops UDP packets to port 53 over IPv4, however long the IPv4 header is, and passes all else. */
#include "../headers.h"
#include "../xdp.h"

#define FRAGMENT_OFFSET 0x1fff
#define PORT_DNS 53

SEC("xdp")
int ip_header_length(struct xdp_md *ctx)
{
	void *data = (void *)(long)ctx->data;
	void *data_end = (void *)(long)ctx->data_end;
	struct ethhdr *eth = data;
	struct iphdr *ip = (void *)(eth + 1);
	struct udphdr *udp;
	unsigned long length;

	if ((void *)(ip + 1) > data_end)
		return XDP_PASS;
	if (eth->h_proto != bpf_htons(ETH_P_IP) || ip->protocol != IPPROTO_UDP)
		return XDP_PASS;
	if (ip->frag_off & bpf_htons(FRAGMENT_OFFSET))
		return XDP_PASS;
	length = ip->ihl * 4;
	if (length < sizeof(*ip))
		return XDP_DROP;
	udp = (void *)ip + length;
	if ((void *)(udp + 1) > data_end)
		return XDP_PASS;
	return udp->dest == bpf_htons(PORT_DNS) ? XDP_DROP : XDP_PASS;
}
