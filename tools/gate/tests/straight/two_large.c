/* Values of more than 64 bytes in two maps: what is found in the one, or else in the other. */
#include <linux/bpf.h>
#include <bpf/bpf_helpers.h>
struct traffic { __u64 packets, bytes, kinds[8]; __u32 last, dropped; };
struct { __uint(type, BPF_MAP_TYPE_LRU_HASH); __uint(max_entries, 60); __type(key, __u32); __type(value, struct traffic); } hosts SEC(".maps");
struct { __uint(type, BPF_MAP_TYPE_LRU_HASH); __uint(max_entries, 60); __type(key, __u8); __type(value, struct traffic); } others SEC(".maps");
SEC("xdp") int f(struct xdp_md *ctx) {
	__u8 *data = (void *)(long)ctx->data, *end = (void *)(long)ctx->data_end, kind;
	if (data + 20 > end) return XDP_DROP;
	__u32 host = *(__u32 *)(data + 1);
	kind = data[5] & 15;
	struct traffic fresh = { .packets = 1, .last = data[18] };
	if (data[0] == 7) return bpf_map_update_elem(&hosts, &host, &fresh, BPF_ANY) ? XDP_ABORTED : XDP_PASS;
	if (data[0] == 6) return bpf_map_update_elem(&others, &kind, &fresh, BPF_ANY) ? XDP_ABORTED : XDP_PASS;
	struct traffic *traffic = bpf_map_lookup_elem(&hosts, &host);
	if (!traffic) traffic = bpf_map_lookup_elem(&others, &kind);
	if (!traffic) return XDP_ABORTED;
	traffic->packets++;
	traffic->bytes += end - data;
	traffic->kinds[data[0] & 7]++;
	if (traffic->last == data[18]) {
		traffic->dropped++;
		return XDP_DROP;
	}
	traffic->last = data[18];
	return traffic->packets & 2 ? XDP_TX : XDP_PASS;
}
char LICENSE[] SEC("license") = "GPL";
