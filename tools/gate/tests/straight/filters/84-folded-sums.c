/* The checksums of IPv4 and of ICMP behind it, whose carries are added in loops until there are none. */
#include <linux/bpf.h>
#include <linux/icmp.h>
#include <linux/if_ether.h>
#include <linux/in.h>
#include <linux/ip.h>
#include <bpf/bpf_endian.h>
#include <bpf/bpf_helpers.h>

#define MOST_WORDS 32

static __always_inline __u16 folded(__u32 sum)
{
	do
		sum = (sum >> 16) + (sum & 0xffff);
	while (sum > 0xffff);
	return ~sum;
}

static __always_inline __u16 header_sum(struct iphdr *ip)
{
	unsigned long sum = 0;
	__u16 *at = (void *)ip;

	for (int i = 0; i < sizeof(*ip) / 2; i++)
		sum += *at++;
	while (sum >> 16)
		sum = (sum & 0xffff) + (sum >> 16);
	return ~sum;
}

SEC("xdp") int f(struct xdp_md *ctx)
{
	void *data = (void *)(long)ctx->data, *end = (void *)(long)ctx->data_end;
	struct ethhdr *eth = data;
	struct iphdr *ip = (void *)(eth + 1);
	__u16 *at = (void *)(ip + 1);
	__u32 sum = 0;

	if ((void *)at > end || eth->h_proto != bpf_htons(ETH_P_IP) || ip->ihl != 5)
		return XDP_PASS;
	if (header_sum(ip))
		return XDP_DROP;
	if (ip->protocol != IPPROTO_ICMP)
		return XDP_PASS;
	for (int i = 0; i < MOST_WORDS; i++) {
		if ((void *)(at + 1) > end)
			break;
		sum += *at++;
	}
	return folded(sum) ? XDP_ABORTED : XDP_TX;
}
char copying[] SEC("license") = "GPL";
