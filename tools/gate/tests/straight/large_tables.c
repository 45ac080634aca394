/* Rows of a hash map that a program adds, whose values have more bytes than settings can have, one of them reached by an index. */
#include <linux/bpf.h>
#include <bpf/bpf_helpers.h>
struct row { __u64 of_class[8], bytes; __u32 most, dropped; };
struct { __uint(type, BPF_MAP_TYPE_HASH); __uint(max_entries, 30); __type(key, __u32); __type(value, struct row); } labels SEC(".maps");
struct { __uint(type, BPF_MAP_TYPE_LRU_HASH); __uint(max_entries, 40); __type(key, __u64); __type(value, struct row); } flows SEC(".maps");
SEC("xdp") int f(struct xdp_md *ctx) {
	__u8 *data = (void *)(long)ctx->data, *end = (void *)(long)ctx->data_end;
	if (data + 20 > end) return XDP_DROP;
	__u32 label = *(__u32 *)(data + 1);
	__u64 flow = *(__u64 *)(data + 5);
	struct row *row, fresh = { .bytes = data[17] };
	if (data[0] > 8) {
		row = bpf_map_lookup_elem(&flows, &flow);
		if (row) { row->of_class[3]++; return row->of_class[3] > 2 ? XDP_TX : XDP_PASS; }
		fresh.most = data[18];
		bpf_map_update_elem(&flows, &flow, &fresh, BPF_ANY);
		return XDP_PASS;
	}
	if (data[0] == 8) return bpf_map_delete_elem(&labels, &label) ? XDP_ABORTED : XDP_PASS;
	row = bpf_map_lookup_elem(&labels, &label);
	if (!row) {
		if (bpf_map_update_elem(&labels, &label, &fresh, BPF_NOEXIST)) return XDP_ABORTED;
		row = bpf_map_lookup_elem(&labels, &label);
		if (!row) return XDP_DROP;
	}
	__sync_fetch_and_add(&row->of_class[data[18] & 7], 1);
	row->bytes += end - data;
	__sync_fetch_and_add(&row->dropped, 1);
	if (data[19] > row->most) row->most = data[19];
	return row->of_class[data[18] & 7] > 3 ? XDP_DROP : XDP_PASS;
}
char LICENSE[] SEC("license") = "GPL";
