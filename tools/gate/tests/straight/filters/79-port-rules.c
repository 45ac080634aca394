/* Rules that the host gives, each with a network, ports, a protocol and an action: the first that holds is counted. */
#include <linux/bpf.h>
#include <linux/if_ether.h>
#include <linux/in.h>
#include <linux/ip.h>
#include <linux/udp.h>
#include <bpf/bpf_endian.h>
#include <bpf/bpf_helpers.h>
#define RULES 6
struct rule { __be32 mask, network; __u16 low, high; __u8 protocol, action, used; };
struct { __uint(type, BPF_MAP_TYPE_ARRAY); __uint(max_entries, RULES); __type(key, __u32); __type(value, struct rule); } rules SEC(".maps");
struct { __uint(type, BPF_MAP_TYPE_PERCPU_ARRAY); __uint(max_entries, RULES); __type(key, __u32); __type(value, __u64); } hits SEC(".maps");
static __always_inline int holds(const struct rule *rule, const struct iphdr *ip, __u16 port) {
	if (rule->protocol && rule->protocol != ip->protocol) return 0;
	return (ip->saddr & rule->mask) == rule->network && port >= rule->low && port <= rule->high;
}
SEC("xdp") int f(struct xdp_md *ctx) {
	void *data = (void *)(long)ctx->data, *end = (void *)(long)ctx->data_end;
	struct ethhdr *eth = data;
	struct iphdr *ip = (void *)(eth + 1);
	struct udphdr *udp = (void *)(ip + 1);
	if ((void *)(udp + 1) > end || eth->h_proto != bpf_htons(ETH_P_IP) || ip->ihl != 5) return XDP_PASS;
	for (__u32 at = 0; at < RULES; at++) {
		__u32 key = at;
		struct rule *rule = bpf_map_lookup_elem(&rules, &key);
		if (!rule || !rule->used) break;
		if (!holds(rule, ip, bpf_ntohs(udp->dest))) continue;
		__u64 *count = bpf_map_lookup_elem(&hits, &key);
		if (count) *count += 1;
		return rule->action ? XDP_DROP : XDP_PASS;
	}
	return XDP_PASS;
}
char _license[] SEC("license") = "GPL";
