/* Drops what has no route, sends back what has one through this port, by the longest prefix of IPv4 and of IPv6. */
#include <linux/bpf.h>
#include <linux/if_ether.h>
#include <linux/ip.h>
#include <linux/ipv6.h>
#include <bpf/bpf_endian.h>
#include <bpf/bpf_helpers.h>
struct four { __u32 bits; __u8 address[4]; };
struct six { __u32 bits; __u8 address[16]; };
#define TRIE(name, of) struct { __uint(type, BPF_MAP_TYPE_LPM_TRIE); __uint(max_entries, 64); __uint(map_flags, BPF_F_NO_PREALLOC); \
	__type(key, struct of); __type(value, __u64); } name SEC(".maps")
TRIE(routes, four);
TRIE(routes6, six);
SEC("xdp") int f(struct xdp_md *ctx) {
	void *data = (void *)(long)ctx->data, *end = (void *)(long)ctx->data_end;
	struct ethhdr *eth = data;
	__u64 *count = 0;
	if ((void *)(eth + 1) > end) return XDP_ABORTED;
	if (eth->h_proto == bpf_htons(ETH_P_IP)) {
		struct iphdr *ip = (void *)(eth + 1);
		if ((void *)(ip + 1) > end) return XDP_ABORTED;
		struct four key = { .bits = 32 };
		__builtin_memcpy(key.address, &ip->daddr, 4);
		count = bpf_map_lookup_elem(&routes, &key);
	} else if (eth->h_proto == bpf_htons(ETH_P_IPV6)) {
		struct ipv6hdr *ip = (void *)(eth + 1);
		if ((void *)(ip + 1) > end) return XDP_ABORTED;
		struct six key = { .bits = 128 };
		__builtin_memcpy(key.address, &ip->daddr, 16);
		count = bpf_map_lookup_elem(&routes6, &key);
	} else {
		return XDP_PASS;
	}
	if (!count) return XDP_DROP;
	*count += 1;
	return XDP_TX;
}
char _license[] SEC("license") = "GPL";
