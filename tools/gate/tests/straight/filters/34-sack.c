/* Counts SACK blocks by a table of option kinds; drops more than three. */
#include <linux/bpf.h>
#include <linux/if_ether.h>
#include <linux/ip.h>
#include <linux/in.h>
#include <linux/tcp.h>
#include <bpf/bpf_endian.h>
#include <bpf/bpf_helpers.h>

static const __u8 fixed[9] = {0, 1, 4, 3, 2, 0, 6, 6, 10};
__u64 blocks;
SEC("xdp") int sack(struct xdp_md *ctx)
{
	void *data = (void *)(long)ctx->data, *end = (void *)(long)ctx->data_end;
	struct ethhdr *eth = data;
	struct iphdr *ip = (void *)(eth + 1);
	struct tcphdr *tcp = (void *)(ip + 1);
	if ((void *)(tcp + 1) > end || eth->h_proto != bpf_htons(ETH_P_IP) || ip->ihl != 5 || ip->protocol != IPPROTO_TCP)
		return XDP_PASS;
	__u8 *o = (void *)(tcp + 1), *stop = (__u8 *)tcp + tcp->doff * 4;
	if ((void *)stop > end)
		return XDP_DROP;
	for (int i = 0; i < 10; i++) {
		if (o + 1 > stop || (void *)(o + 1) > end)
			return XDP_PASS;
		__u8 kind = *o;
		if (kind == 0)
			return XDP_PASS;
		if (kind == 1) {
			o++;
			continue;
		}
		if ((void *)(o + 2) > end)
			return XDP_DROP;
		__u8 length = o[1];
		if (length < 2)
			return XDP_DROP;
		if (kind < 9 && fixed[kind] && length != fixed[kind])
			return XDP_DROP;
		if (kind == 5) {
			__u32 count = (length - 2) >> 3;
			blocks += count;
			if (count > 3)
				return XDP_DROP;
		}
		o += length;
	}
	return XDP_PASS;
}
