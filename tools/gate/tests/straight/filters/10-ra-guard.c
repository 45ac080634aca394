/* Drops router advertisements and redirects of ICMPv6, after any extension headers. */
#include <linux/bpf.h>
#include <linux/icmpv6.h>
#include <linux/if_ether.h>
#include <linux/in.h>
#include <linux/ipv6.h>
#include <bpf/bpf_endian.h>
#include <bpf/bpf_helpers.h>

struct hdr_cursor {
	void *pos;
};

static __always_inline int skip_ip6hdrext(struct hdr_cursor *nh, void *data_end, __u8 next_hdr_type)
{
	for (int i = 0; i < 6; ++i) {
		struct ipv6_opt_hdr *hdr = nh->pos;

		if ((void *)(hdr + 1) > data_end)
			return -1;
		switch (next_hdr_type) {
		case IPPROTO_HOPOPTS:
		case IPPROTO_DSTOPTS:
		case IPPROTO_ROUTING:
			nh->pos = (char *)hdr + (hdr->hdrlen + 1) * 8;
			next_hdr_type = hdr->nexthdr;
			break;
		case IPPROTO_AH:
			nh->pos = (char *)hdr + (hdr->hdrlen + 2) * 4;
			next_hdr_type = hdr->nexthdr;
			break;
		case IPPROTO_FRAGMENT:
			nh->pos = (char *)hdr + 8;
			next_hdr_type = hdr->nexthdr;
			break;
		default:
			return next_hdr_type;
		}
	}
	return -1;
}

SEC("xdp")
int ra_guard(struct xdp_md *ctx)
{
	void *data_end = (void *)(long)ctx->data_end;
	void *data = (void *)(long)ctx->data;
	struct hdr_cursor nh = { .pos = data };
	struct ethhdr *eth = nh.pos;
	struct ipv6hdr *ip6;
	struct icmp6hdr *icmp6;
	int proto;

	if ((void *)(eth + 1) > data_end)
		return XDP_PASS;
	nh.pos = eth + 1;
	if (eth->h_proto != bpf_htons(ETH_P_IPV6))
		return XDP_PASS;
	ip6 = nh.pos;
	if ((void *)(ip6 + 1) > data_end)
		return XDP_DROP;
	nh.pos = ip6 + 1;
	proto = skip_ip6hdrext(&nh, data_end, ip6->nexthdr);
	if (proto < 0)
		return XDP_DROP;
	if (proto != IPPROTO_ICMPV6)
		return XDP_PASS;
	icmp6 = nh.pos;
	if ((void *)(icmp6 + 1) > data_end)
		return XDP_DROP;
	if (icmp6->icmp6_type == 134 || icmp6->icmp6_type == 137)
		return XDP_DROP;
	return XDP_PASS;
}

char _license[] SEC("license") = "GPL";
