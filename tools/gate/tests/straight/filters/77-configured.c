/* Ports and rates that the host gives: a configuration, and a list of networks with an action and a limit each. */
#include <linux/bpf.h>
#include <linux/if_ether.h>
#include <linux/in.h>
#include <linux/ip.h>
#include <linux/udp.h>
#include <bpf/bpf_endian.h>
#include <bpf/bpf_helpers.h>
struct config { __u32 on; __u16 port, action; __u64 most; };
struct rule { __u64 packets, most; __u8 action, ttl; };
struct { __uint(type, BPF_MAP_TYPE_ARRAY); __uint(max_entries, 1); __type(key, __u32); __type(value, struct config); } config SEC(".maps");
struct { __uint(type, BPF_MAP_TYPE_ARRAY); __uint(max_entries, 4); __type(key, __u32); __type(value, __u64); } seen SEC(".maps");
struct network { __u32 bits, address; };
struct { __uint(type, BPF_MAP_TYPE_LPM_TRIE); __uint(max_entries, 8); __uint(map_flags, BPF_F_NO_PREALLOC);
	__type(key, struct network); __type(value, struct rule); } rules SEC(".maps");
SEC("xdp") int f(struct xdp_md *ctx) {
	void *data = (void *)(long)ctx->data, *end = (void *)(long)ctx->data_end;
	struct ethhdr *eth = data;
	struct iphdr *ip = (void *)(eth + 1);
	struct udphdr *udp = (void *)(ip + 1);
	__u32 key = 0;
	struct config *config_of = bpf_map_lookup_elem(&config, &key);
	if (!config_of || !config_of->on) return XDP_PASS;
	if ((void *)(udp + 1) > end || eth->h_proto != bpf_htons(ETH_P_IP) || ip->ihl != 5) return XDP_PASS;
	struct network network = {32, ip->saddr};
	struct rule *rule = bpf_map_lookup_elem(&rules, &network);
	if (rule && ip->ttl >= rule->ttl) {
		__sync_fetch_and_add(&rule->packets, 1);
		if (rule->packets > rule->most) return rule->action;
	}
	if (ip->protocol != IPPROTO_UDP || udp->dest != bpf_htons(config_of->port)) return XDP_PASS;
	__u64 *count = bpf_map_lookup_elem(&seen, &key);
	if (!count) return XDP_ABORTED;
	__sync_fetch_and_add(count, 1);
	return *count > config_of->most ? config_of->action : XDP_PASS;
}
char _license[] SEC("license") = "GPL";
