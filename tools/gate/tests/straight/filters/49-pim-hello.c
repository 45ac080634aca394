/* PIM hello: options with their fixed lengths, holdtime first, from a table by type. */
#include <linux/bpf.h>
#include <linux/if_ether.h>
#include <linux/in.h>
#include <linux/ip.h>
#include <bpf/bpf_endian.h>
#include <bpf/bpf_helpers.h>

static const __s16 length_of[25] = {
	[0 ... 24] = -1, [1] = 2, [2] = 4, [19] = 4, [20] = 4, [22] = 0,
};
SEC("xdp") int pim(struct xdp_md *ctx)
{
	void *data = (void *)(long)ctx->data, *data_end = (void *)(long)ctx->data_end;
	struct ethhdr *eth = data;
	struct iphdr *ip = (void *)(eth + 1);
	if ((void *)(ip + 1) > data_end || eth->h_proto != bpf_htons(ETH_P_IP) || ip->protocol != IPPROTO_PIM)
		return XDP_PASS;
	__u8 *pim = (__u8 *)ip + ip->ihl * 4;
	if ((void *)(pim + 4) > data_end || pim[0] >> 4 != 2)
		return XDP_DROP;
	if ((pim[0] & 15) != 0)
		return XDP_PASS;
	__u8 *opt = pim + 4;
	for (int i = 0; i < 6; i++) {
		if ((void *)opt == data_end)
			return i ? XDP_PASS : XDP_DROP;
		if ((void *)(opt + 4) > data_end)
			return XDP_DROP;
		__u16 type = opt[0] << 8 | opt[1], len = opt[2] << 8 | opt[3];
		if (i == 0 && type != 1)
			return XDP_DROP;
		if (type < 25 && length_of[type] >= 0 && length_of[type] != len)
			return XDP_DROP;
		if (len > 64)
			return XDP_DROP;
		opt += 4 + len;
	}
	return XDP_DROP;
}
