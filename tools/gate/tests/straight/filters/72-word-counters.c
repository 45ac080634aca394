/* Counts in numbers of four bytes by atomic additions: alone, beside another one, below and above one. */
#include <linux/bpf.h>
#include <linux/if_ether.h>
#include <bpf/bpf_helpers.h>
#include <bpf/bpf_endian.h>
struct both { __u32 packets, bytes; __u64 sum; };
struct { __uint(type, BPF_MAP_TYPE_HASH); __uint(max_entries, 8); __type(key, __u16); __type(value, struct both); } kinds SEC(".maps");
struct { __uint(type, BPF_MAP_TYPE_ARRAY); __uint(max_entries, 1); __type(key, __u32); __type(value, __u32); } all SEC(".maps");
SEC("xdp") int f(struct xdp_md *ctx) {
	void *data = (void *)(long)ctx->data, *end = (void *)(long)ctx->data_end;
	struct ethhdr *eth = data;
	__u32 zero = 0, *total = bpf_map_lookup_elem(&all, &zero);
	if ((void *)(eth + 1) > end || !total) return XDP_ABORTED;
	__sync_fetch_and_add(total, 0x40000000);
	__u16 kind = eth->h_proto;
	struct both *seen = bpf_map_lookup_elem(&kinds, &kind);
	if (!seen) return XDP_DROP;
	__sync_fetch_and_add(&seen->packets, 0xffffffff);
	__sync_fetch_and_add(&seen->bytes, end - data);
	__sync_fetch_and_add(&seen->sum, seen->bytes);
	if (!*total) return XDP_TX;
	return seen->packets == 0xfffffffe ? XDP_DROP : XDP_PASS;
}
char _license[] SEC("license") = "GPL";
