/* Geneve (RFC 8926): a loop as long as options are left, whose number of bytes each step makes smaller. */
#include <linux/bpf.h>
#include <linux/if_ether.h>
#include <linux/in.h>
#include <linux/ip.h>
#include <linux/udp.h>
#include <bpf/bpf_endian.h>
#include <bpf/bpf_helpers.h>

#define PORT 6081
#define CRITICAL 0x80

struct geneve {
	__u8 words : 6, version : 2, flags;
	__be16 inside;
	__u8 network[3], reserved;
};

struct option {
	__be16 class;
	__u8 type, words : 5, reserved : 3;
};

SEC("xdp") int f(struct xdp_md *ctx)
{
	void *data = (void *)(long)ctx->data, *end = (void *)(long)ctx->data_end;
	struct ethhdr *eth = data;
	struct iphdr *ip = (void *)(eth + 1);
	struct udphdr *udp = (void *)(ip + 1);
	struct geneve *tunnel = (void *)(udp + 1);
	void *at = tunnel + 1;

	if (at > end || eth->h_proto != bpf_htons(ETH_P_IP) || ip->ihl != 5)
		return XDP_PASS;
	if (ip->protocol != IPPROTO_UDP || udp->dest != bpf_htons(PORT))
		return XDP_PASS;
	if (tunnel->version)
		return XDP_DROP;
	int left = tunnel->words * 4;
	while (left >= (int)sizeof(struct option)) {
		struct option *option = at;

		if ((void *)(option + 1) > end)
			return XDP_ABORTED;
		if (option->type & CRITICAL)
			return XDP_DROP;
		int size = sizeof(*option) + option->words * 4;
		at += size;
		left -= size;
	}
	struct ethhdr *inside = at;
	if (left || (void *)(inside + 1) > end)
		return XDP_ABORTED;
	return inside->h_proto == bpf_htons(ETH_P_IPV6) ? XDP_TX : XDP_PASS;
}
char copying[] SEC("license") = "GPL";
