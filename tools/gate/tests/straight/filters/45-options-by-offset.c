/* Drops IPv4 with a source route: the walk ends where the options do, and no constant says when. */
#include <linux/bpf.h>
#include <linux/if_ether.h>
#include <linux/ip.h>
#include <bpf/bpf_endian.h>
#include <bpf/bpf_helpers.h>

SEC("xdp") int options(struct xdp_md *ctx)
{
	__u8 *data = (void *)(long)ctx->data, *end = (void *)(long)ctx->data_end, *base = data + sizeof(struct ethhdr);
	struct ethhdr *eth = (void *)data;
	struct iphdr *ip = (void *)base;
	__u32 length, at = sizeof(*ip);

	if ((void *)(ip + 1) > (void *)end || eth->h_proto != bpf_htons(ETH_P_IP))
		return XDP_PASS;
	length = ip->ihl * 4;
	if (length < sizeof(*ip))
		return XDP_DROP;
	while (at < length) {
		__u8 kind, size;

		if (base + at + 2 > end)
			return XDP_DROP;
		kind = base[at];
		if (kind == 0)
			break;
		if (kind == 1) {
			at++;
			continue;
		}
		if (kind == 131 || kind == 137)
			return XDP_DROP;
		size = base[at + 1];
		if (size < 2)
			return XDP_DROP;
		at += size;
	}
	return XDP_PASS;
}
