/* A union is loaded with what lies behind it: its members aren't numbers beside each other. */
#include <linux/bpf.h>
#include <bpf/bpf_helpers.h>
struct either { union { __u32 all; int with_sign; __u16 half; } of; } __attribute__((aligned(8)));
struct row { struct either either; __u64 count; };
struct { __uint(type, BPF_MAP_TYPE_ARRAY); __uint(max_entries, 1); __type(key, __u32); __type(value, struct row); } rows SEC(".maps");
SEC("xdp") int f(struct xdp_md *ctx)
{
	__u8 *p = (void *)(long)ctx->data;
	__u32 key = 0;
	if (p + 14 > (__u8 *)(long)ctx->data_end) return XDP_ABORTED;
	struct row *row = bpf_map_lookup_elem(&rows, &key);
	if (!row) return XDP_ABORTED;
	__u64 whole = *(volatile __u64 *)&row->either;
	row->either.of.all = p[0] | p[1] << 8;
	row->count++;
	return whole >> 32 ? XDP_DROP : XDP_PASS;
}
