/* Drops what comes from a list of addresses, and counts packets and bytes of each. */
#include <linux/bpf.h>
#include <linux/if_ether.h>
#include <linux/ip.h>
#include <bpf/bpf_endian.h>
#include <bpf/bpf_helpers.h>
struct row { __u64 packets, bytes; };
struct { __uint(type, BPF_MAP_TYPE_PERCPU_HASH); __uint(max_entries, 10000); __type(key, __u32); __type(value, struct row); } hosts SEC(".maps");
SEC("xdp") int f(struct xdp_md *ctx) {
	void *data = (void *)(long)ctx->data, *end = (void *)(long)ctx->data_end;
	struct ethhdr *eth = data;
	struct iphdr *ip = (void *)(eth + 1);
	if ((void *)(ip + 1) > end || eth->h_proto != bpf_htons(ETH_P_IP)) return XDP_PASS;
	__u32 source = ip->saddr;
	struct row *row = bpf_map_lookup_elem(&hosts, &source);
	if (!row) return XDP_PASS;
	row->packets++;
	row->bytes += end - data;
	return XDP_DROP;
}
char _license[] SEC("license") = "GPL";
