/* UDP ports by a bitmap of 65,536 bits. */
#include <linux/bpf.h>
#include <linux/if_ether.h>
#include <linux/ip.h>
#include <linux/in.h>
#include <linux/udp.h>
#include <bpf/bpf_endian.h>
#include <bpf/bpf_helpers.h>

static const __u64 open[1024] = {[0] = 1ull << 53, [1] = 1ull << 3 | 1ull << 4, [2] = 1ull << 9, [27] = 1ull << 5, [83] = 3, [1023] = 1ull << 63};
SEC("xdp") int ports(struct xdp_md *ctx)
{
	void *data = (void *)(long)ctx->data, *data_end = (void *)(long)ctx->data_end;
	struct ethhdr *eth = data;
	struct iphdr *ip = (void *)(eth + 1);
	struct udphdr *udp = (void *)(ip + 1);
	if ((void *)(udp + 1) > data_end || eth->h_proto != bpf_htons(ETH_P_IP) || ip->ihl != 5 || ip->protocol != IPPROTO_UDP)
		return XDP_PASS;
	__u16 port = bpf_ntohs(udp->dest);
	return open[port >> 6] >> (port & 63) & 1 ? XDP_PASS : XDP_DROP;
}
