/* Looks up in maps by what the packet before left in another map: its sender, and its receiver with the ports. */
#include <linux/bpf.h>
#include <linux/if_ether.h>
#include <linux/in.h>
#include <linux/ip.h>
#include <bpf/bpf_endian.h>
#include <bpf/bpf_helpers.h>
struct flow { __u32 to, ports; };
struct last { __u64 packets; __u32 from; struct flow flow; };
struct { __uint(type, BPF_MAP_TYPE_ARRAY); __uint(max_entries, 2); __type(key, __u32); __type(value, struct last); } lasts SEC(".maps");
struct { __uint(type, BPF_MAP_TYPE_HASH); __uint(max_entries, 8); __type(key, __u32); __type(value, __u64); } hosts SEC(".maps");
struct { __uint(type, BPF_MAP_TYPE_HASH); __uint(max_entries, 8); __type(key, struct flow); __type(value, __u64); } flows SEC(".maps");
SEC("xdp") int f(struct xdp_md *ctx) {
	void *data = (void *)(long)ctx->data, *end = (void *)(long)ctx->data_end;
	struct ethhdr *eth = data;
	struct iphdr *ip = (void *)(eth + 1);
	__u32 *ports = (void *)(ip + 1), key;
	int action = XDP_PASS;
	if ((void *)(ports + 1) > end || eth->h_proto != bpf_htons(ETH_P_IP)) return XDP_PASS;
	key = ip->protocol == IPPROTO_UDP;
	struct last *last = bpf_map_lookup_elem(&lasts, &key);
	if (!last) return XDP_ABORTED;
	__u64 *host = bpf_map_lookup_elem(&hosts, &last->from);
	if (host) {
		*host += 1;
		action = XDP_DROP;
	} else {
		__u64 *flow = bpf_map_lookup_elem(&flows, &last->flow);
		if (flow) {
			*flow += 1;
			action = XDP_TX;
		}
	}
	last->packets += 1;
	last->from = ip->saddr;
	last->flow.to = ip->daddr;
	last->flow.ports = *ports;
	return action;
}
char _license[] SEC("license") = "GPL";
