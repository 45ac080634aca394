/* A load balancer like katran: a hash of five numbers picks one of eight backends, whose MAC is written. */
#include <linux/bpf.h>
#include <linux/if_ether.h>
#include <linux/in.h>
#include <linux/ip.h>
#include <linux/udp.h>
#include <bpf/bpf_endian.h>
#include <bpf/bpf_helpers.h>

struct flow_key {
	__be32 src, dst;
	union {
		__u32 ports;
		__u16 port16[2];
	};
	__u8 proto;
};
static const __u8 backend_mac[8][ETH_ALEN] = {
	{0x02, 0, 0, 0, 1, 1}, {0x02, 0, 0, 0, 1, 2}, {0x02, 0, 0, 0, 1, 3}, {0x02, 0, 0, 0, 1, 4},
	{0x02, 0, 0, 0, 2, 1}, {0x02, 0, 0, 0, 2, 2}, {0x02, 0, 0, 0, 2, 3}, {0x02, 0, 0, 0, 2, 4},
};
#define JHASH_INITVAL 0xdeadbeef
static __always_inline __u32 rol32(__u32 word, unsigned int shift)
{
	return (word << shift) | (word >> ((-shift) & 31));
}
static __always_inline __u32 jhash_3words(__u32 a, __u32 b, __u32 c, __u32 initval)
{
	a += initval + JHASH_INITVAL + (3 << 2);
	b += initval + JHASH_INITVAL + (3 << 2);
	c += initval + JHASH_INITVAL + (3 << 2);
	c ^= b; c -= rol32(b, 14);
	a ^= c; a -= rol32(c, 11);
	b ^= a; b -= rol32(a, 25);
	c ^= b; c -= rol32(b, 16);
	a ^= c; a -= rol32(c, 4);
	b ^= a; b -= rol32(a, 14);
	c ^= b; c -= rol32(b, 24);
	return c;
}
static __always_inline int parse_ports(void *l4, void *data_end, struct flow_key *key)
{
	struct udphdr *udp = l4;
	if ((void *)(udp + 1) > data_end)
		return -1;
	key->port16[0] = udp->source;
	key->port16[1] = udp->dest;
	return 0;
}
SEC("xdp") int l4lb(struct xdp_md *ctx)
{
	void *data = (void *)(long)ctx->data, *data_end = (void *)(long)ctx->data_end;
	struct ethhdr *eth = data;
	struct iphdr *iph = data + sizeof(*eth);
	struct flow_key key = {};
	if ((void *)(iph + 1) > data_end)
		return XDP_DROP;
	if (eth->h_proto != bpf_htons(ETH_P_IP))
		return XDP_PASS;
	if (iph->ihl != 5)
		return XDP_DROP;
	key.src = iph->saddr;
	key.dst = iph->daddr;
	key.proto = iph->protocol;
	if (key.proto != IPPROTO_TCP && key.proto != IPPROTO_UDP)
		return XDP_PASS;
	if (parse_ports(iph + 1, data_end, &key) < 0)
		return XDP_DROP;
	__u32 hash = jhash_3words(key.src, key.dst, key.ports, key.proto);
	__u32 pick = hash % 8;
	__builtin_memcpy(eth->h_source, eth->h_dest, ETH_ALEN);
	__builtin_memcpy(eth->h_dest, backend_mac[pick], ETH_ALEN);
	return XDP_TX;
}
