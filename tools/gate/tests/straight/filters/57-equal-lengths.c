/* Datagrams of equal length from many ports: a length that came more than 12 times of the last 16 is dropped. */
#include <linux/bpf.h>
#include <linux/if_ether.h>
#include <linux/in.h>
#include <linux/ip.h>
#include <linux/udp.h>
#include <bpf/bpf_endian.h>
#include <bpf/bpf_helpers.h>

static __u64 ring[8];
static __u64 turn;
SEC("xdp") int udp_flood(struct xdp_md *ctx)
{
	void *data = (void *)(long)ctx->data, *data_end = (void *)(long)ctx->data_end;
	struct ethhdr *eth = data;
	struct iphdr *ip = (void *)(eth + 1);
	struct udphdr *udp = (void *)(ip + 1);
	if ((void *)(udp + 1) > data_end || eth->h_proto != bpf_htons(ETH_P_IP) || ip->ihl != 5 || ip->protocol != IPPROTO_UDP)
		return XDP_PASS;
	__u64 len = bpf_ntohs(udp->len);
	int equal = 0;
	for (int i = 0; i < 8; i++)
		if (ring[i] == len)
			equal++;
	ring[turn & 7] = len;
	turn++;
	return equal > 6 ? XDP_DROP : XDP_PASS;
}
