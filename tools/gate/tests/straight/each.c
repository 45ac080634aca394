/* bpf_for_each_map_elem: all values of an array, left early, with the map and the key used, and one in another; and a lock. */
#include <linux/bpf.h>
#include <bpf/bpf_helpers.h>
struct { __uint(type, BPF_MAP_TYPE_ARRAY); __uint(max_entries, 9); __type(key, __u32); __type(value, __u64); } seen SEC(".maps");
struct { __uint(type, BPF_MAP_TYPE_PERCPU_ARRAY); __uint(max_entries, 3); __type(key, __u32); __type(value, __u64); } rounds SEC(".maps");
struct { __uint(type, BPF_MAP_TYPE_ARRAY); __uint(max_entries, 1); __type(key, __u32); __type(value, struct { struct bpf_spin_lock lock; __u64 most; }); } longest SEC(".maps");
struct walk { __u64 sum, limit; __u32 last; };
static long add(void *map, const __u32 *key, __u64 *value, void *given) {
	struct walk *walk = given;
	walk->sum += *value * (*key + 1);
	walk->last = *key;
	if (walk->sum > walk->limit) return 1;
	__sync_fetch_and_add(value, *key & 3);
	return 0;
}
static long again(void *map, const __u32 *key, __u64 *value, void *given) {
	struct walk *walk = given;
	*value += bpf_for_each_map_elem(&seen, add, walk, 0);
	return walk->last == 5;
}
SEC("xdp") int f(struct xdp_md *ctx) {
	__u8 *data = (void *)(long)ctx->data, *end = (void *)(long)ctx->data_end;
	if (data + 4 > end) return XDP_ABORTED;
	__u32 key = data[3], zero = 0;
	struct walk walk = { .limit = 3000 + data[1] };
	struct { struct bpf_spin_lock lock; __u64 most; } *one = bpf_map_lookup_elem(&longest, &zero);
	if (!one) return XDP_ABORTED;
	bpf_spin_lock(&one->lock);
	if (data[2] > one->most) one->most = data[2];
	bpf_spin_unlock(&one->lock);
	__u64 *value = bpf_map_lookup_elem(&seen, &key);
	if (value) *value += data[2];
	long count = 0;
	if (data[1] & 1) count = bpf_for_each_map_elem(&seen, add, &walk, 0);
	if (data[1] & 4) count += bpf_for_each_map_elem(&rounds, again, &walk, 0);
	return walk.sum > walk.limit ? XDP_DROP : count & 1 || data[0] & 1 ? XDP_PASS : XDP_TX;
}
char LICENSE[] SEC("license") = "GPL";
