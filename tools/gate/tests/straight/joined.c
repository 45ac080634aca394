/* Two updates, of which clang makes one call: a row is set, or added with other flags and from another place. */
#include <linux/bpf.h>
#include <bpf/bpf_helpers.h>
struct row { __u64 bytes, seen; };
struct { __uint(type, BPF_MAP_TYPE_LRU_HASH); __uint(max_entries, 60); __type(key, __u32); __type(value, struct row); } hosts SEC(".maps");
struct { __uint(type, BPF_MAP_TYPE_HASH); __uint(max_entries, 50); __type(key, __u32); __type(value, struct row); } peers SEC(".maps");
static __always_inline int set(__u32 *key, __u64 bytes) {
	struct row fresh = { .bytes = bytes, .seen = 1 };
	if (bytes & 1) {
		struct row *row = bpf_map_lookup_elem(&peers, key);
		if (row && row->seen > 2) return XDP_DROP;
	}
	bpf_map_update_elem(&hosts, key, &fresh, BPF_ANY);
	return XDP_PASS;
}
static __always_inline int add(__u32 *key, __u64 bytes, __u8 kind) {
	struct row *row = bpf_map_lookup_elem(&hosts, key);
	if (!row) {
		struct row one = { .bytes = bytes };
		if (kind & 4) {
			bpf_map_update_elem(&hosts, key, &one, BPF_NOEXIST);
			return XDP_PASS;
		}
		return kind & 8 ? XDP_TX : XDP_ABORTED;
	}
	row->seen++;
	if (kind & 8) bpf_map_delete_elem(&hosts, key);
	else if (kind & 2) bpf_map_update_elem(&peers, key, row, BPF_ANY);
	return XDP_PASS;
}
SEC("xdp") int f(struct xdp_md *ctx) {
	__u8 *data = (void *)(long)ctx->data, *end = (void *)(long)ctx->data_end;
	if (data + 20 > end) return XDP_DROP;
	__u32 host = *(__u32 *)(data + 1);
	return data[0] & 1 ? set(&host, end - data + data[17]) : add(&host, data[18], data[0]);
}
char LICENSE[] SEC("license") = "GPL";
