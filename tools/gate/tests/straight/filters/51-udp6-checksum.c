/* UDP over IPv6 has to have a checksum, and a right one if the datagram has at most 48 bytes. */
#include <linux/bpf.h>
#include <linux/if_ether.h>
#include <linux/in.h>
#include <linux/ipv6.h>
#include <linux/udp.h>
#include <bpf/bpf_endian.h>
#include <bpf/bpf_helpers.h>

SEC("xdp") int udp6(struct xdp_md *ctx)
{
	void *data = (void *)(long)ctx->data, *data_end = (void *)(long)ctx->data_end;
	struct ethhdr *eth = data;
	struct ipv6hdr *ip6 = (void *)(eth + 1);
	struct udphdr *udp = (void *)(ip6 + 1);
	if ((void *)(udp + 1) > data_end || eth->h_proto != bpf_htons(ETH_P_IPV6) || ip6->nexthdr != IPPROTO_UDP)
		return XDP_PASS;
	if (!udp->check)
		return XDP_DROP;
	__u16 len = bpf_ntohs(udp->len);
	if (len < 8 || len > 48 || len & 1)
		return XDP_PASS;
	if ((void *)udp + len > data_end)
		return XDP_DROP;
	__u32 sum = bpf_htons(IPPROTO_UDP) + udp->len;
	__u16 *addr = (__u16 *)&ip6->saddr;
#pragma unroll
	for (int i = 0; i < 16; i++)
		sum += addr[i];
	__u16 *word = (__u16 *)udp;
	for (int i = 0; i < 24; i++) {
		if (i * 2 >= len)
			break;
		if ((void *)(word + i + 1) > data_end)
			return XDP_DROP;
		sum += word[i];
	}
	sum = (sum & 0xffff) + (sum >> 16);
	sum = (sum & 0xffff) + (sum >> 16);
	return sum == 0xffff ? XDP_PASS : XDP_DROP;
}
