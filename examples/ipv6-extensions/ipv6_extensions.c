/* Drops UDP to port 53 over IPv6, after at most four extension headers, and drops what has more of them. A fragment
   header is no extension header here: fragments pass. */
#include "../headers.h"
#include "../xdp.h"

#define MOST_EXTENSIONS 4
#define UNIT 8

static __always_inline int is_extension(__u8 next)
{
	return next == IPPROTO_HOPOPTS || next == IPPROTO_ROUTING || next == IPPROTO_DSTOPTS;
}

SEC("xdp")
int ipv6_extensions(struct xdp_md *ctx)
{
	void *data = (void *)(long)ctx->data;
	void *data_end = (void *)(long)ctx->data_end;
	struct ethhdr *eth = data;
	struct ipv6hdr *ip = (void *)(eth + 1);
	unsigned long at = sizeof(*eth) + sizeof(*ip);
	struct udphdr *udp;
	__u8 next;

	if ((void *)(ip + 1) > data_end || eth->h_proto != bpf_htons(ETH_P_IPV6))
		return XDP_PASS;
	next = ip->nexthdr;
	/* The offset stays a number, and each step adds it to the packet's start anew. */
#pragma unroll
	for (int i = 0; i < MOST_EXTENSIONS; i++) {
		if (is_extension(next)) {
			struct ipv6_opt_hdr *header = data + at;

			if ((void *)(header + 1) > data_end)
				return XDP_DROP;
			next = header->nexthdr;
			at += (header->hdrlen + 1) * UNIT;
			asm volatile("" : "+r"(at));
		}
	}
	if (is_extension(next))
		return XDP_DROP;
	if (next != IPPROTO_UDP)
		return XDP_PASS;
	udp = data + at;
	if ((void *)(udp + 1) > data_end)
		return XDP_DROP;
	return udp->dest == bpf_htons(53) ? XDP_DROP : XDP_PASS;
}
