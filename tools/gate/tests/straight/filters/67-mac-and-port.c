/* Passes senders of a list alone, and of these by a table of all ports, whose bytes may have been found behind options. */
#include <linux/bpf.h>
#include <linux/if_ether.h>
#include <linux/in.h>
#include <linux/ip.h>
#include <linux/udp.h>
#include <bpf/bpf_endian.h>
#include <bpf/bpf_helpers.h>
struct sender { __u8 mac[ETH_ALEN]; };
struct seen { __u32 packets; __u16 last, other; };
struct { __uint(type, BPF_MAP_TYPE_HASH); __uint(max_entries, 16); __type(key, struct sender); __type(value, struct seen); } senders SEC(".maps");
#define COUNTS(name, entries) struct { __uint(type, BPF_MAP_TYPE_PERCPU_ARRAY); __uint(max_entries, entries); __type(key, __u32); __type(value, __u64); } name SEC(".maps")
COUNTS(ports, 65536);
COUNTS(actions, 4);
COUNTS(protocols, 256);
COUNTS(lengths, 2048);
static __always_inline int done(int action) {
	__u32 key = action;
	__u64 *count = bpf_map_lookup_elem(&actions, &key);
	if (count) *count += 1;
	return action;
}
static __always_inline void add(void *map, __u32 key) {
	__u64 *count = bpf_map_lookup_elem(map, &key);
	if (count) *count += 1;
}
SEC("xdp") int f(struct xdp_md *ctx) {
	void *data = (void *)(long)ctx->data, *end = (void *)(long)ctx->data_end;
	struct ethhdr *eth = data;
	struct sender from;
	if ((void *)(eth + 1) > end) return done(XDP_ABORTED);
	__builtin_memcpy(from.mac, eth->h_source, ETH_ALEN);
	struct seen *seen = bpf_map_lookup_elem(&senders, &from);
	if (!seen) return done(XDP_DROP);
	seen->packets++;
	add(&lengths, end - data);
	struct iphdr *ip = (void *)(eth + 1);
	if (eth->h_proto != bpf_htons(ETH_P_IP) || (void *)(ip + 1) > end) return done(XDP_PASS);
	add(&protocols, ip->protocol);
	struct udphdr *udp = (void *)ip + ip->ihl * 4;
	if (ip->protocol != IPPROTO_UDP || ip->ihl < 5 || (void *)(udp + 1) > end) return done(XDP_PASS);
	__u16 port = bpf_ntohs(udp->dest);
	add(&ports, port);
	if (seen->last == port) return done(XDP_TX);
	seen->last = port;
	return done(XDP_PASS);
}
char _license[] SEC("license") = "GPL";
