/* IPv6's headers: at most six, a fragment's and that for the destination once, and none of routing; clang joins conditions of two tests to one number. */
#include <stdbool.h>
#include <linux/bpf.h>
#include <linux/if_ether.h>
#include <linux/in.h>
#include <linux/ipv6.h>
#include <bpf/bpf_endian.h>
#include <bpf/bpf_helpers.h>

#define MOBILITY 135

SEC("xdp") int f(struct xdp_md *ctx)
{
	void *data = (void *)(long)ctx->data, *data_end = (void *)(long)ctx->data_end;
	struct ethhdr *eth = data;
	struct ipv6hdr *ip6 = data + sizeof(*eth);
	struct ipv6_opt_hdr *opt = (void *)(ip6 + 1);
	bool fragmented = false, destination = false, stop = false;
	__u8 next;

	if ((void *)opt > data_end || eth->h_proto != bpf_htons(ETH_P_IPV6))
		return XDP_PASS;
	next = ip6->nexthdr;
#pragma unroll
	for (int i = 0; i < 6; i++) {
		if (stop)
			break;
		switch (next) {
		case IPPROTO_HOPOPTS:
			if (i)
				return XDP_DROP;
			break;
		case IPPROTO_FRAGMENT:
			if (fragmented)
				return XDP_DROP;
			fragmented = true;
			if ((void *)opt + 8 > data_end)
				return XDP_DROP;
			next = opt->nexthdr;
			opt = (void *)opt + 8;
			continue;
		case IPPROTO_DSTOPTS:
		case MOBILITY:
			if (destination)
				return XDP_DROP;
			destination = next == IPPROTO_DSTOPTS;
			break;
		default:
			stop = true;
			continue;
		}
		if ((void *)(opt + 1) > data_end)
			return XDP_DROP;
		next = opt->nexthdr;
		opt = (void *)opt + (opt->hdrlen + 1) * 8;
	}
	return stop && next != IPPROTO_ROUTING ? XDP_PASS : XDP_DROP;
}

char _license[] SEC("license") = "GPL";
