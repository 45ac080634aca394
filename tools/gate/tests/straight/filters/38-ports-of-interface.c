/* Which EtherTypes an interface's queue may send: a table of queues, each a mask of a list. */
#include <linux/bpf.h>
#include <linux/if_ether.h>
#include <bpf/bpf_endian.h>
#include <bpf/bpf_helpers.h>

struct rule { __u16 type; __u8 queues; };
static const struct rule rules[] = {{0x0800, 0x0f}, {0x0806, 0x03}, {0x86dd, 0x05}, {0x8100, 0x01}, {0x88cc, 0x08}};
SEC("xdp") int ports(struct xdp_md *ctx)
{
	void *data = (void *)(long)ctx->data, *data_end = (void *)(long)ctx->data_end;
	struct ethhdr *eth = data;
	__u32 queue = ctx->rx_queue_index;
	if ((void *)(eth + 1) > data_end || queue > 7)
		return XDP_DROP;
	__u16 type = bpf_ntohs(eth->h_proto);
	for (int i = 0; i < sizeof(rules) / sizeof(rules[0]); i++)
		if (rules[i].type == type)
			return rules[i].queues >> queue & 1 ? XDP_PASS : XDP_DROP;
	return XDP_DROP;
}
