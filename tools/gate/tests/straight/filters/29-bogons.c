/* Drops IPv4 from sources that can't be on the internet, from a table of prefixes. */
#include <linux/bpf.h>
#include <linux/if_ether.h>
#include <linux/ip.h>
#include <bpf/bpf_endian.h>
#include <bpf/bpf_helpers.h>

struct prefix {
	__u32 address;
	__u32 mask;
};

SEC("xdp")
int bogons(struct xdp_md *ctx)
{
	static const struct prefix table[] = {
		{ 0x00000000, 0xff000000 }, { 0x0a000000, 0xff000000 }, { 0x64400000, 0xffc00000 },
		{ 0x7f000000, 0xff000000 }, { 0xa9fe0000, 0xffff0000 }, { 0xac100000, 0xfff00000 },
		{ 0xc0000200, 0xffffff00 }, { 0xc0a80000, 0xffff0000 }, { 0xc6120000, 0xfffe0000 },
		{ 0xe0000000, 0xe0000000 },
	};
	void *data_end = (void *)(long)ctx->data_end;
	void *data = (void *)(long)ctx->data;
	struct ethhdr *eth = data;
	struct iphdr *ip = (void *)(eth + 1);
	__u32 source;

	if ((void *)(ip + 1) > data_end || eth->h_proto != bpf_htons(ETH_P_IP))
		return XDP_PASS;
	source = bpf_ntohl(ip->saddr);
#pragma unroll
	for (int i = 0; i < 10; i++)
		if ((source & table[i].mask) == table[i].address)
			return XDP_DROP;
	return XDP_PASS;
}

char _license[] SEC("license") = "GPL";
