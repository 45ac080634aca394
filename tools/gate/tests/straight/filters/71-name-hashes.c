/* Drops questions of DNS whose name has a hash that is listed. */
#include <linux/bpf.h>
#include <linux/if_ether.h>
#include <linux/in.h>
#include <linux/ip.h>
#include <linux/ipv6.h>
#include <linux/tcp.h>
#include <linux/udp.h>
#include <bpf/bpf_helpers.h>
#include <bpf/bpf_endian.h>
struct { __uint(type, BPF_MAP_TYPE_HASH); __uint(max_entries, 1000); __type(key, __u64); __type(value, __u64); } names SEC(".maps");
SEC("xdp") int f(struct xdp_md *ctx) {
	void *data = (void *)(long)ctx->data, *end = (void *)(long)ctx->data_end;
	struct ethhdr *eth = data; struct iphdr *ip = (void *)(eth + 1); struct udphdr *u = (void *)(ip + 1);
	if ((void *)(u + 1) > end || eth->h_proto != bpf_htons(ETH_P_IP) || ip->protocol != IPPROTO_UDP || ip->ihl != 5 || u->dest != bpf_htons(53)) return XDP_PASS;
	unsigned char *q = (void *)(u + 1) + 12; __u64 h = 14695981039346656037ull;
	for (int i = 0; i < 48; i++) { if (q + i + 1 > (unsigned char *)end) return XDP_DROP; if (!q[i]) break; h = (h ^ q[i]) * 1099511628211ull; }
	__u64 *n = bpf_map_lookup_elem(&names, &h);
	if (!n) return XDP_PASS;
	__sync_fetch_and_add(n, 1); return XDP_DROP;
}
char _license[] SEC("license") = "GPL";
