/* What was seen last of each kind of packet, by a function that is called wherever a kind is known: numbers of several sizes. */
#include <linux/bpf.h>
#include <linux/if_ether.h>
#include <linux/in.h>
#include <linux/ip.h>
#include <linux/ipv6.h>
#include <bpf/bpf_endian.h>
#include <bpf/bpf_helpers.h>
enum kind { ALL, ARP, IPV4, FRAGMENT, UDP, TCP, IPV6, OTHER, SHORT, KINDS };
struct seen { __u32 packets; __u16 length; __u8 limit, queue; __u64 bytes; };
struct { __uint(type, BPF_MAP_TYPE_PERCPU_ARRAY); __uint(max_entries, KINDS); __type(key, __u32); __type(value, struct seen); } links SEC(".maps");
static __noinline void note(struct xdp_md *ctx, __u32 kind, __u8 limit) {
	struct seen *seen = bpf_map_lookup_elem(&links, &kind);
	__u32 length = ctx->data_end - ctx->data;
	if (!seen) return;
	seen->packets++;
	seen->bytes += length;
	seen->length = length;
	seen->limit = limit;
	seen->queue = ctx->rx_queue_index + 1;
}
SEC("xdp") int f(struct xdp_md *ctx) {
	void *data = (void *)(long)ctx->data, *end = (void *)(long)ctx->data_end;
	struct ethhdr *eth = data;
	note(ctx, ALL, 0);
	if ((void *)(eth + 1) > end) return XDP_ABORTED;
	if (eth->h_proto == bpf_htons(ETH_P_ARP)) { note(ctx, ARP, 0); return XDP_PASS; }
	if (eth->h_proto == bpf_htons(ETH_P_IP)) {
		struct iphdr *ip = (void *)(eth + 1);
		if ((void *)(ip + 1) > end) { note(ctx, SHORT, 0); return XDP_DROP; }
		note(ctx, IPV4, ip->ttl);
		if (ip->frag_off & bpf_htons(0x3fff)) { note(ctx, FRAGMENT, ip->ttl); return XDP_DROP; }
		if (ip->protocol == IPPROTO_UDP) note(ctx, UDP, ip->ttl);
		else if (ip->protocol == IPPROTO_TCP) note(ctx, TCP, ip->ttl);
		else { note(ctx, OTHER, ip->ttl); return ip->ttl < 2 ? XDP_DROP : XDP_PASS; }
		return XDP_PASS;
	}
	if (eth->h_proto == bpf_htons(ETH_P_IPV6)) {
		struct ipv6hdr *ip = (void *)(eth + 1);
		if ((void *)(ip + 1) > end) { note(ctx, SHORT, 0); return XDP_DROP; }
		note(ctx, IPV6, ip->hop_limit);
		return XDP_PASS;
	}
	note(ctx, OTHER, 0);
	return XDP_DROP;
}
char _license[] SEC("license") = "GPL";
