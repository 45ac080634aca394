/* Looks up in the packet itself: a sender, an address of IPv4 and one of IPv6. */
#include <linux/bpf.h>
#include <linux/if_ether.h>
#include <linux/in.h>
#include <linux/ip.h>
#include <linux/ipv6.h>
#include <bpf/bpf_endian.h>
#include <bpf/bpf_helpers.h>
#define LIST(name, size) struct { __uint(type, BPF_MAP_TYPE_HASH); __uint(max_entries, 64); __uint(key_size, size); __uint(value_size, 8); } name SEC(".maps")
LIST(hosts, 4);
LIST(hosts6, 16);
LIST(senders, 6);
SEC("xdp") int f(struct xdp_md *ctx) {
	void *data = (void *)(long)ctx->data, *end = (void *)(long)ctx->data_end;
	struct ethhdr *eth = data;
	__u64 *count = 0;
	if ((void *)(eth + 1) > end) return XDP_ABORTED;
	count = bpf_map_lookup_elem(&senders, eth->h_source);
	if (count) {
		*count += 1;
		return XDP_TX;
	}
	if (eth->h_proto == bpf_htons(ETH_P_IP)) {
		struct iphdr *ip = (void *)(eth + 1);
		if ((void *)(ip + 1) > end) return XDP_PASS;
		ip->ttl--;
		count = bpf_map_lookup_elem(&hosts, &ip->saddr);
	} else if (eth->h_proto == bpf_htons(ETH_P_IPV6)) {
		struct ipv6hdr *ip = (void *)(eth + 1);
		if ((void *)(ip + 1) > end) return XDP_PASS;
		count = bpf_map_lookup_elem(&hosts6, &ip->saddr);
	}
	if (!count) return XDP_PASS;
	*count += 1;
	return XDP_DROP;
}
char _license[] SEC("license") = "GPL";
