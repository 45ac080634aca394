/* DNS questions: passes the types of a setting. */
#include <linux/bpf.h>
#include <linux/if_ether.h>
#include <linux/ip.h>
#include <linux/in.h>
#include <linux/udp.h>
#include <bpf/bpf_endian.h>
#include <bpf/bpf_helpers.h>

const volatile __u16 types[6] = {1, 28, 5, 15, 6, 2};
SEC("xdp") int dns(struct xdp_md *ctx)
{
	void *data = (void *)(long)ctx->data, *data_end = (void *)(long)ctx->data_end;
	struct ethhdr *eth = data;
	struct iphdr *ip = data + 14;
	struct udphdr *udp = data + 34;
	__u8 *p = data + 42;
	if ((void *)(p + 12) > data_end || eth->h_proto != bpf_htons(ETH_P_IP) || ip->ihl != 5 || ip->protocol != IPPROTO_UDP)
		return XDP_PASS;
	if (udp->dest != bpf_htons(53))
		return XDP_PASS;
	if (p[2] & 0x80 || p[4] || p[5] != 1)
		return XDP_DROP;
	p += 12;
	for (int i = 0; i < 12; i++) {
		if ((void *)(p + 1) > data_end)
			return XDP_DROP;
		if (!*p)
			break;
		if (*p > 63)
			return XDP_DROP;
		p += *p + 1;
	}
	if ((void *)(p + 5) > data_end || *p)
		return XDP_DROP;
	__u16 type = p[1] << 8 | p[2];
	for (int i = 0; i < 6; i++)
		if (types[i] == type)
			return XDP_PASS;
	return XDP_DROP;
}
