/* GTP-U: TEIDs of a table, and the inner source has to be in the subscriber's net; end markers are counted. */
#include <linux/bpf.h>
#include <linux/if_ether.h>
#include <linux/in.h>
#include <linux/ip.h>
#include <linux/udp.h>
#include <bpf/bpf_endian.h>
#include <bpf/bpf_helpers.h>

struct session {
	__u32 teid, net, mask;
};
static const struct session sessions[4] = {
	{0x1001, 0x0a2d0000, 0xffff0000}, {0x1002, 0x0a2e0100, 0xffffff00}, {0x2001, 0x64400000, 0xffc00000}, {7, 0, 0},
};
static __u64 end_markers;
SEC("xdp") int teid(struct xdp_md *ctx)
{
	void *data = (void *)(long)ctx->data, *data_end = (void *)(long)ctx->data_end;
	struct ethhdr *eth = data;
	struct iphdr *ip = (void *)(eth + 1), *inner;
	struct udphdr *udp = (void *)(ip + 1);
	__u8 *gtp = (void *)(udp + 1);
	if ((void *)(gtp + 8) > data_end || eth->h_proto != bpf_htons(ETH_P_IP) || ip->ihl != 5)
		return XDP_PASS;
	if (ip->protocol != IPPROTO_UDP || udp->dest != bpf_htons(2152))
		return XDP_PASS;
	if (gtp[1] == 254) {
		end_markers++;
		return XDP_PASS;
	}
	if (gtp[1] != 255)
		return XDP_PASS;
	__u32 id = bpf_ntohl(*(__be32 *)(gtp + 4));
	const struct session *s = 0;
	for (int i = 0; i < 4; i++)
		if (sessions[i].teid == id)
			s = &sessions[i];
	if (!s)
		return XDP_DROP;
	inner = (void *)(gtp + 8) + (gtp[0] & 7 ? 4 : 0);
	if ((void *)(inner + 1) > data_end || inner->version != 4)
		return XDP_DROP;
	return (bpf_ntohl(inner->saddr) & s->mask) == s->net ? XDP_PASS : XDP_DROP;
}
