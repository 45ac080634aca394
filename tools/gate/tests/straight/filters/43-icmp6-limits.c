/* ICMPv6: how many packets of a type may pass, by a table; counts in globals' array. */
#include <linux/bpf.h>
#include <linux/if_ether.h>
#include <linux/ipv6.h>
#include <bpf/bpf_endian.h>
#include <bpf/bpf_helpers.h>

static const __u16 limit[16] = {0, 3, 3, 3, 3, 0, 0, 0, 4, 4, 5, 5, 2, 0, 0, 0};
__u64 passed[8];
SEC("xdp") int limits(struct xdp_md *ctx)
{
	void *data = (void *)(long)ctx->data, *data_end = (void *)(long)ctx->data_end;
	struct ethhdr *eth = data;
	struct ipv6hdr *ip = (void *)(eth + 1);
	__u8 *icmp = (void *)(ip + 1);
	if ((void *)(icmp + 4) > data_end || eth->h_proto != bpf_htons(ETH_P_IPV6) || ip->nexthdr != 58)
		return XDP_PASS;
	__u32 row = icmp[0] & 7;
	if (passed[row] >= limit[icmp[0] & 15])
		return XDP_DROP;
	passed[row]++;
	return XDP_PASS;
}
