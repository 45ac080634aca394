/* Drops what comes from a prefix of a list, of IPv4 or of IPv6, and counts what it passes and what it drops. */
#include <linux/bpf.h>
#include <linux/if_ether.h>
#include <linux/in.h>
#include <linux/ip.h>
#include <linux/ipv6.h>
#include <linux/tcp.h>
#include <linux/udp.h>
#include <bpf/bpf_helpers.h>
#include <bpf/bpf_endian.h>
struct lpm4 { __u32 prefixlen; __be32 addr; }; struct lpm6 { __u32 prefixlen; struct in6_addr addr; };
struct { __uint(type, BPF_MAP_TYPE_LPM_TRIE); __type(key, struct lpm4); __type(value, __u32); __uint(max_entries, 10000); __uint(map_flags, BPF_F_NO_PREALLOC); } block4 SEC(".maps");
struct { __uint(type, BPF_MAP_TYPE_LPM_TRIE); __type(key, struct lpm6); __type(value, __u32); __uint(max_entries, 10000); __uint(map_flags, BPF_F_NO_PREALLOC); } block6 SEC(".maps");
struct { __uint(type, BPF_MAP_TYPE_ARRAY); __type(key, __u32); __type(value, __u64[2]); __uint(max_entries, 2); } seen SEC(".maps");
static __always_inline void seen_add(__u32 which, __u64 bytes) { __u64 *v = bpf_map_lookup_elem(&seen, &which); if (v) { __sync_fetch_and_add(&v[0], 1); __sync_fetch_and_add(&v[1], bytes); } }
SEC("xdp") int f(struct xdp_md *ctx) {
	void *data = (void *)(long)ctx->data, *end = (void *)(long)ctx->data_end;
	struct ethhdr *eth = data; if ((void *)(eth + 1) > end) return XDP_DROP;
	__u32 *found = 0;
	switch (bpf_ntohs(eth->h_proto)) {
	case ETH_P_IP: { struct iphdr *ip = (void *)(eth + 1); if ((void *)(ip + 1) > end) return XDP_DROP;
		struct lpm4 k = { .prefixlen = 32, .addr = ip->saddr }; found = bpf_map_lookup_elem(&block4, &k); break; }
	case ETH_P_IPV6: { struct ipv6hdr *ip = (void *)(eth + 1); if ((void *)(ip + 1) > end) return XDP_DROP;
		struct lpm6 k = { .prefixlen = 128, .addr = ip->saddr }; found = bpf_map_lookup_elem(&block6, &k); break; }
	}
	seen_add(!!found, end - data);
	if (!found) return XDP_PASS;
	(*found)++;
	return XDP_DROP;
}
char _license[] SEC("license") = "GPL";
