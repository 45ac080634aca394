/* The first of 64 rules that matches decides: wildcard masks, ranges of ports, replies of TCP, fragments. An unused one ends them. */
#include <linux/bpf.h>
#include <linux/if_ether.h>
#include <linux/in.h>
#include <linux/ip.h>
#include <linux/tcp.h>
#include <linux/udp.h>
#include <bpf/bpf_endian.h>
#include <bpf/bpf_helpers.h>

#define MOST_RULES 64
#define REPLIES 1
#define FRAGMENTS 2

struct rule {
	__u8 used, permit, proto, flags;
	__u32 src, src_wild;
	__u32 dst, dst_wild;
	__u16 sport_lo, sport_hi;
	__u16 dport_lo, dport_hi;
};

struct packet {
	__u32 src, dst;
	__u16 sport, dport;
	__u8 proto, fragment, reply, pad;
};

struct {
	__uint(type, BPF_MAP_TYPE_ARRAY);
	__uint(max_entries, MOST_RULES);
	__type(key, __u32);
	__type(value, struct rule);
} acl SEC(".maps");

struct {
	__uint(type, BPF_MAP_TYPE_PERCPU_ARRAY);
	__uint(max_entries, MOST_RULES + 1);
	__type(key, __u32);
	__type(value, __u64);
} matched SEC(".maps");

static __always_inline int match(const struct rule *r, const struct packet *p)
{
	if (r->proto && r->proto != p->proto)
		return 0;
	if ((r->src ^ p->src) & ~r->src_wild)
		return 0;
	if ((r->dst ^ p->dst) & ~r->dst_wild)
		return 0;
	if (r->flags & FRAGMENTS)
		return p->fragment;
	if (r->proto != IPPROTO_TCP && r->proto != IPPROTO_UDP)
		return 1;
	if (p->fragment)
		return r->permit;
	if (p->sport < r->sport_lo || p->sport > r->sport_hi)
		return 0;
	if (p->dport < r->dport_lo || p->dport > r->dport_hi)
		return 0;
	if ((r->flags & REPLIES) && !p->reply)
		return 0;
	return 1;
}

static __always_inline void count(__u32 rule)
{
	__u64 *counter = bpf_map_lookup_elem(&matched, &rule);

	if (counter)
		*counter += 1;
}

SEC("xdp")
int long_acl(struct xdp_md *ctx)
{
	void *data = (void *)(long)ctx->data, *end = (void *)(long)ctx->data_end;
	struct ethhdr *eth = data;
	struct packet p = {};
	struct iphdr *ip;
	void *l4;

	if ((void *)(eth + 1) > end)
		return XDP_DROP;
	if (eth->h_proto != bpf_htons(ETH_P_IP))
		return XDP_PASS;
	ip = (void *)(eth + 1);
	if ((void *)(ip + 1) > end)
		return XDP_DROP;
	p.src = ip->saddr;
	p.dst = ip->daddr;
	p.proto = ip->protocol;
	p.fragment = !!(ip->frag_off & bpf_htons(0x1fff));
	l4 = (void *)ip + ip->ihl * 4;
	if (!p.fragment && p.proto == IPPROTO_TCP) {
		struct tcphdr *tcp = l4;

		if ((void *)(tcp + 1) > end)
			return XDP_DROP;
		p.sport = bpf_ntohs(tcp->source);
		p.dport = bpf_ntohs(tcp->dest);
		p.reply = tcp->ack || tcp->rst;
	} else if (!p.fragment && p.proto == IPPROTO_UDP) {
		struct udphdr *udp = l4;

		if ((void *)(udp + 1) > end)
			return XDP_DROP;
		p.sport = bpf_ntohs(udp->source);
		p.dport = bpf_ntohs(udp->dest);
	}
	for (__u32 i = 0; i < MOST_RULES; i++) {
		__u32 key = i;
		struct rule *r = bpf_map_lookup_elem(&acl, &key);

		if (!r || !r->used)
			break;
		if (match(r, &p)) {
			count(key);
			return r->permit ? XDP_PASS : XDP_DROP;
		}
	}
	count(MOST_RULES);
	return XDP_DROP;
}

char _license[] SEC("license") = "GPL";
