/* One store is to values of two maps, and the bytes between two numbers of one are a number of the other. */
#include <linux/bpf.h>
#include <bpf/bpf_helpers.h>
struct few { __u32 first; __u16 second; } __attribute__((aligned(8)));
struct all { __u32 first, second; } __attribute__((aligned(8)));
struct { __uint(type, BPF_MAP_TYPE_ARRAY); __uint(max_entries, 1); __type(key, __u32); __type(value, struct few); } few SEC(".maps");
struct { __uint(type, BPF_MAP_TYPE_ARRAY); __uint(max_entries, 1); __type(key, __u32); __type(value, struct all); } all SEC(".maps");
SEC("xdp") int f(struct xdp_md *ctx)
{
	__u8 *p = (void *)(long)ctx->data;
	__u32 key = 0;
	if (p + 14 > (__u8 *)(long)ctx->data_end) return XDP_ABORTED;
	struct few *a = bpf_map_lookup_elem(&few, &key);
	if (!a) return XDP_ABORTED;
	struct all *b = bpf_map_lookup_elem(&all, &key);
	if (!b) return XDP_ABORTED;
	*(volatile __u64 *)(p[0] & 1 ? (void *)a : (void *)b) = (__u64)p[1] << 56 | p[2];
	a->first = p[3];
	a->second = p[4];
	return b->second ? XDP_PASS : XDP_DROP;
}
