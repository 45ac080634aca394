/* Values of two maps, with numbers of fewer than eight bytes, on ways that meet; keys of another size have other counters behind the value. */
#include <linux/bpf.h>
#include <bpf/bpf_helpers.h>
struct window { __u64 epoch; __u32 count, before; };
struct net { __u64 high, low; };
struct { __uint(type, BPF_MAP_TYPE_LRU_HASH); __uint(max_entries, 60); __type(key, __u32); __type(value, struct window); } hosts SEC(".maps");
struct { __uint(type, BPF_MAP_TYPE_HASH); __uint(max_entries, 90); __type(key, struct net); __type(value, struct window); } nets SEC(".maps");
static __always_inline int is_over(struct window *window, __u64 epoch) {
	if (window->epoch != epoch) {
		window->before = window->epoch + 1 == epoch ? window->count : 0;
		window->count = 0;
		window->epoch = epoch;
	}
	window->count++;
	return window->count + window->before > 5;
}
SEC("xdp") int f(struct xdp_md *ctx) {
	__u8 *data = (void *)(long)ctx->data, *end = (void *)(long)ctx->data_end;
	if (data + 20 > end) return XDP_DROP;
	struct window *window = 0, first = { .epoch = data[18] & 3, .count = 1 };
	if (data[0] & 1) {
		__u32 host = *(__u32 *)(data + 1);
		window = bpf_map_lookup_elem(&hosts, &host);
		if (!window) return bpf_map_update_elem(&hosts, &host, &first, BPF_ANY) ? XDP_ABORTED : XDP_PASS;
	} else {
		struct net net = { .high = *(__u64 *)(data + 1), .low = data[9] };
		window = bpf_map_lookup_elem(&nets, &net);
		if (!window) return bpf_map_update_elem(&nets, &net, &first, BPF_NOEXIST) ? XDP_ABORTED : XDP_PASS;
	}
	return is_over(window, data[18] & 3) ? XDP_DROP : data[0] & 8 ? XDP_TX : XDP_PASS;
}
char LICENSE[] SEC("license") = "GPL";
