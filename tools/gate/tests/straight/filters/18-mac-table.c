/* Lets frames to the gateway, to the two name servers and to everybody through. */
#include <linux/bpf.h>
#include <linux/if_ether.h>
#include <bpf/bpf_helpers.h>

static const unsigned char allowed[][ETH_ALEN] = {
	{ 0x52, 0x54, 0x00, 0x12, 0x34, 0x01 },
	{ 0x52, 0x54, 0x00, 0x12, 0x34, 0x35 },
	{ 0x52, 0x54, 0x00, 0x12, 0x34, 0x36 },
	{ 0xff, 0xff, 0xff, 0xff, 0xff, 0xff },
};

SEC("xdp")
int mac_table(struct xdp_md *ctx)
{
	void *data_end = (void *)(long)ctx->data_end;
	void *data = (void *)(long)ctx->data;
	struct ethhdr *eth = data;

	if ((void *)(eth + 1) > data_end)
		return XDP_DROP;
#pragma unroll
	for (int i = 0; i < 4; i++)
		if (__builtin_memcmp(eth->h_dest, allowed[i], ETH_ALEN) == 0)
			return XDP_PASS;
	return XDP_DROP;
}

char _license[] SEC("license") = "GPL";
