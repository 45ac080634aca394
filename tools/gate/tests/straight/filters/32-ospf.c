/* OSPF hello: our area, no authentication of type 0, ttl 1. */
#include <linux/bpf.h>
#include <linux/if_ether.h>
#include <linux/ip.h>
#include <bpf/bpf_endian.h>
#include <bpf/bpf_helpers.h>

const volatile __u32 area = 0x0000000a;
static const __u16 lengths[6] = {0, 44, 32, 24, 28, 20};
SEC("xdp") int ospf(struct xdp_md *ctx)
{
	void *data = (void *)(long)ctx->data, *data_end = (void *)(long)ctx->data_end;
	struct ethhdr *eth = data;
	struct iphdr *ip = data + 14;
	struct { __u8 version, type; __be16 length; __be32 router, area; __be16 checksum, auth; } *o = data + 34;
	if ((void *)(o + 1) > data_end || eth->h_proto != bpf_htons(ETH_P_IP) || ip->ihl != 5 || ip->protocol != 89)
		return XDP_PASS;
	if (ip->ttl != 1 || o->version != 2 || o->type < 1 || o->type > 5)
		return XDP_DROP;
	if (bpf_ntohs(o->length) < lengths[o->type])
		return XDP_DROP;
	if (bpf_ntohl(o->area) != area || o->auth == 0)
		return XDP_DROP;
	return XDP_PASS;
}
