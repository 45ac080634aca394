/* Counts in numbers of 1, 2, 4 and 8 bytes of one value. */
#include <linux/bpf.h>
#include <bpf/bpf_helpers.h>
struct row { __u32 packets; __u16 flags; __u8 x, y; __u64 bytes; };
struct { __uint(type, BPF_MAP_TYPE_ARRAY); __uint(max_entries, 4); __type(key, __u32); __type(value, struct row); } rows SEC(".maps");
struct { __uint(type, BPF_MAP_TYPE_ARRAY); __uint(max_entries, 4); __type(key, __u32); __type(value, __u32); } small SEC(".maps");
const volatile __u32 limit = 2;
SEC("xdp") int f(struct xdp_md *ctx) {
	__u32 k = 1; struct row *row = bpf_map_lookup_elem(&rows, &k); __u32 *n = bpf_map_lookup_elem(&small, &k);
	if (!row || !n) return XDP_ABORTED;
	if (row->flags & 1) return XDP_DROP;
	row->packets++; row->bytes += ctx->data_end - ctx->data; row->y ^= 3;
	*n += 1;
	return row->packets > limit ? XDP_DROP : XDP_PASS;
}
