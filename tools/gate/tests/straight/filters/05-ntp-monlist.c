/* Drops NTP's private mode (7), monlist among it, in both directions. */
#include <linux/bpf.h>
#include <linux/if_ether.h>
#include <linux/in.h>
#include <linux/ip.h>
#include <linux/ipv6.h>
#include <linux/udp.h>
#include <bpf/bpf_endian.h>
#include <bpf/bpf_helpers.h>

SEC("xdp")
int ntp_monlist(struct xdp_md *ctx)
{
	void *data = (void *)(long)ctx->data, *data_end = (void *)(long)ctx->data_end;
	struct ethhdr *eth = data;
	struct udphdr *udp;
	__u8 *ntp;

	if ((void *)(eth + 1) > data_end)
		return XDP_PASS;
	switch (bpf_ntohs(eth->h_proto)) {
	case ETH_P_IP: {
		struct iphdr *ip = (void *)(eth + 1);

		if ((void *)(ip + 1) > data_end || ip->protocol != IPPROTO_UDP)
			return XDP_PASS;
		udp = (void *)ip + (ip->ihl << 2);
		break;
	}
	case ETH_P_IPV6: {
		struct ipv6hdr *ip6 = (void *)(eth + 1);

		if ((void *)(ip6 + 1) > data_end || ip6->nexthdr != IPPROTO_UDP)
			return XDP_PASS;
		udp = (void *)(ip6 + 1);
		break;
	}
	default:
		return XDP_PASS;
	}
	ntp = (void *)(udp + 1);
	if ((void *)(ntp + 1) > data_end)
		return XDP_PASS;
	if (udp->dest != bpf_htons(123) && udp->source != bpf_htons(123))
		return XDP_PASS;
	return (*ntp & 7) == 7 ? XDP_DROP : XDP_PASS;
}

char _license[] SEC("license") = "GPL";
