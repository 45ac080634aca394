/* Passes TCP to ports 22, 80 and 443 and UDP to port 53, over IPv4, and drops all other IPv4; passes what isn't IPv4. */
#include "../headers.h"
#include "../xdp.h"

/* TCP and UDP both begin with the two ports */
struct ports {
	__u16 source, dest;
};

static __always_inline int is_listed(__u8 protocol, __u16 port)
{
	if (protocol == IPPROTO_UDP)
		return port == 53;
	if (protocol != IPPROTO_TCP)
		return 0;
	switch (port) {
	case 22:
	case 80:
	case 443:
		return 1;
	}
	return 0;
}

SEC("xdp")
int port_list(struct xdp_md *ctx)
{
	void *data = (void *)(long)ctx->data;
	void *data_end = (void *)(long)ctx->data_end;
	struct ethhdr *eth = data;
	struct iphdr *ip = (void *)(eth + 1);
	struct ports *ports;

	if ((void *)(eth + 1) > data_end)
		return XDP_DROP;
	if (eth->h_proto != bpf_htons(ETH_P_IP))
		return XDP_PASS;
	if ((void *)(ip + 1) > data_end || ip->ihl < 5)
		return XDP_DROP;
	ports = (void *)ip + ip->ihl * 4;
	if ((void *)(ports + 1) > data_end)
		return XDP_DROP;
	return is_listed(ip->protocol, bpf_ntohs(ports->dest)) ? XDP_PASS : XDP_DROP;
}
