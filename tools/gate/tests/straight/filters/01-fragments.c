/* Drops IP fragments: IPv4 by its flags, IPv6 by a fragment header after at most six extension headers. */
#include <linux/bpf.h>
#include <linux/if_ether.h>
#include <linux/in.h>
#include <linux/ip.h>
#include <linux/ipv6.h>
#include <bpf/bpf_endian.h>
#include <bpf/bpf_helpers.h>

#define MAX_EXT 6

SEC("xdp")
int drop_fragments(struct xdp_md *ctx)
{
	void *data = (void *)(long)ctx->data;
	void *data_end = (void *)(long)ctx->data_end;
	struct ethhdr *eth = data;
	void *pos = eth + 1;

	if (pos > data_end)
		return XDP_DROP;
	if (eth->h_proto == bpf_htons(ETH_P_IP)) {
		struct iphdr *ip = pos;

		if ((void *)(ip + 1) > data_end)
			return XDP_DROP;
		return ip->frag_off & bpf_htons(0x3fff) ? XDP_DROP : XDP_PASS;
	}
	if (eth->h_proto == bpf_htons(ETH_P_IPV6)) {
		struct ipv6hdr *ip6 = pos;
		__u8 next;

		if ((void *)(ip6 + 1) > data_end)
			return XDP_DROP;
		next = ip6->nexthdr;
		pos = ip6 + 1;
		for (int i = 0; i < MAX_EXT; i++) {
			struct ipv6_opt_hdr *opt = pos;

			if (next == IPPROTO_FRAGMENT)
				return XDP_DROP;
			if (next != IPPROTO_HOPOPTS && next != IPPROTO_ROUTING && next != IPPROTO_DSTOPTS)
				break;
			if ((void *)(opt + 1) > data_end)
				return XDP_DROP;
			next = opt->nexthdr;
			pos += (opt->hdrlen + 1) * 8;
		}
	}
	return XDP_PASS;
}

char _license[] SEC("license") = "GPL";
