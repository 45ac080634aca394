/* Looks for a router alert in IPv6's hop-by-hop options: with it only MLD passes; jumbo payloads are dropped. */
#include <linux/bpf.h>
#include <linux/icmpv6.h>
#include <linux/if_ether.h>
#include <linux/in.h>
#include <linux/ipv6.h>
#include <bpf/bpf_endian.h>
#include <bpf/bpf_helpers.h>

#define OPT_PAD1 0
#define OPT_ROUTER_ALERT 5
#define OPT_JUMBO 194

SEC("xdp")
int router_alert(struct xdp_md *ctx)
{
	void *data_end = (void *)(long)ctx->data_end;
	void *data = (void *)(long)ctx->data;
	struct ethhdr *eth = data;
	struct ipv6hdr *ip6 = (void *)(eth + 1);
	struct ipv6_opt_hdr *hop = (void *)(ip6 + 1);
	unsigned int length, at = 2;
	int alert = 0;
	__u8 *option, *next;

	if ((void *)(hop + 1) > data_end)
		return XDP_PASS;
	if (eth->h_proto != bpf_htons(ETH_P_IPV6) || ip6->nexthdr != IPPROTO_HOPOPTS)
		return XDP_PASS;
	length = (hop->hdrlen + 1) * 8;
	for (int i = 0; i < 8; i++) {
		if (at >= length)
			break;
		option = (__u8 *)hop + at;
		if ((void *)(option + 1) > data_end)
			return XDP_DROP;
		if (*option == OPT_PAD1) {
			at++;
			continue;
		}
		if ((void *)(option + 2) > data_end)
			return XDP_DROP;
		if (*option == OPT_JUMBO)
			return XDP_DROP;
		if (*option == OPT_ROUTER_ALERT)
			alert = 1;
		at += 2 + option[1];
	}
	if (!alert)
		return XDP_PASS;
	if (hop->nexthdr != IPPROTO_ICMPV6)
		return XDP_DROP;
	next = (__u8 *)hop + length;
	if ((void *)(next + 1) > data_end)
		return XDP_DROP;
	return *next >= 130 && *next <= 132 ? XDP_PASS : XDP_DROP;
}

char _license[] SEC("license") = "GPL";
