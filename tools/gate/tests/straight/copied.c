/* Copies of as many bytes as a number says that is bounded: from the packet, and back to another place of it. */
#include <linux/bpf.h>
#include <bpf/bpf_helpers.h>
struct { __uint(type, BPF_MAP_TYPE_ARRAY); __uint(max_entries, 256); __type(key, __u32); __type(value, __u64); } seen SEC(".maps");
SEC("xdp") int f(struct xdp_md *ctx) {
	__u8 *data = (void *)(long)ctx->data, *end = (void *)(long)ctx->data_end, part[24] = {}, more[40] = {};
	volatile __u8 above[160];
	__u32 size, sum = 0, i;
	__u64 *count;
	if (data + 14 > end) return XDP_ABORTED;
	size = end - data - 6;
	if (data[0] & 1) size = data[2] & 31;
	if (size > 24) size = 24;
	if (size < 1) return XDP_DROP;
	if (bpf_xdp_load_bytes(ctx, data[1] & 3 ? 6 : 70000, part, size)) return XDP_DROP;
	for (i = 0; i < 24; i++) sum += part[i];
	sum &= 255;
	count = bpf_map_lookup_elem(&seen, &sum);
	if (count) __sync_fetch_and_add(count, 1);
	size = sum & 15;
	if (size < 1) return XDP_PASS;
	if (bpf_xdp_store_bytes(ctx, sum >> 3, part, size)) return XDP_ABORTED;
	above[3] = part[1];
	size = (data[3] >> 4) * 4;
	if (size < 4 || size > 40) return XDP_TX;
	if (bpf_xdp_load_bytes(ctx, 2, more, size)) return XDP_PASS;
	more[1] ^= above[3];
	return bpf_xdp_store_bytes(ctx, 3, more, size) ? XDP_ABORTED : XDP_TX;
}
char LICENSE[] SEC("license") = "GPL";
