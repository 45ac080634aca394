/* A game's handshake: length and protocol as varints, then the next state, which is 1 or 2. */
#include <linux/bpf.h>
#include <linux/if_ether.h>
#include <linux/in.h>
#include <linux/ip.h>
#include <linux/tcp.h>
#include <bpf/bpf_endian.h>
#include <bpf/bpf_helpers.h>

static __always_inline int varint(__u8 **at, void *data_end, __u32 *value)
{
	__u8 *p = *at;
	__u32 v = 0;
	for (int i = 0; i < 3; i++) {
		if ((void *)(p + 1) > data_end)
			return -1;
		__u8 b = *p++;
		v |= (__u32)(b & 0x7f) << (7 * i);
		if (!(b & 0x80)) {
			*at = p;
			*value = v;
			return 0;
		}
	}
	return -1;
}
SEC("xdp") int minecraft(struct xdp_md *ctx)
{
	void *data = (void *)(long)ctx->data, *data_end = (void *)(long)ctx->data_end;
	struct ethhdr *eth = data;
	struct iphdr *ip = (void *)(eth + 1);
	struct tcphdr *tcp = (void *)(ip + 1);
	if ((void *)(tcp + 1) > data_end || eth->h_proto != bpf_htons(ETH_P_IP) || ip->ihl != 5 || ip->protocol != IPPROTO_TCP)
		return XDP_PASS;
	if (tcp->dest != bpf_htons(25565) || !tcp->psh)
		return XDP_PASS;
	__u8 *p = (__u8 *)tcp + tcp->doff * 4;
	__u32 length, id, protocol, host, state;
	if (varint(&p, data_end, &length) || varint(&p, data_end, &id) || varint(&p, data_end, &protocol))
		return XDP_DROP;
	if (id != 0 || length > 300 || protocol < 47 || protocol > 1000)
		return XDP_DROP;
	if (varint(&p, data_end, &host) || host == 0 || host > 255)
		return XDP_DROP;
	p += host + 2;
	if (varint(&p, data_end, &state))
		return XDP_DROP;
	return state == 1 || state == 2 ? XDP_PASS : XDP_DROP;
}
