/* Rows of hash maps that a program adds, changes and takes away, by what the first byte says; the key is what follows. */
#include <linux/bpf.h>
#include <bpf/bpf_helpers.h>
struct row { __u64 bytes; __u32 seen; __u16 last; };
struct pair { __u64 sum, more[5]; __u32 low, high; };
struct { __uint(type, BPF_MAP_TYPE_HASH); __uint(max_entries, 60); __type(key, __u32); __type(value, struct row); } hosts SEC(".maps");
struct { __uint(type, BPF_MAP_TYPE_LRU_HASH); __uint(max_entries, 40); __type(key, __u8[16]); __type(value, __u64); } flows SEC(".maps");
struct { __uint(type, BPF_MAP_TYPE_HASH); __uint(max_entries, 20); __type(key, __u64[2]); __type(value, struct pair); } pairs SEC(".maps");
struct { __uint(type, BPF_MAP_TYPE_PERCPU_HASH); __uint(max_entries, 9); __type(key, __u8[3]); __type(value, __u32); } kinds SEC(".maps");
static int action(long answer) { return answer == -7 ? XDP_DROP : answer == -17 ? XDP_TX : answer == -2 ? XDP_ABORTED : XDP_PASS; }
SEC("xdp") int f(struct xdp_md *ctx) {
	__u8 *data = (void *)(long)ctx->data, *end = (void *)(long)ctx->data_end;
	if (data + 20 > end) return XDP_DROP;
	__u32 host = *(__u32 *)(data + 1), *of_kind;
	__u8 kind[3] = { data[1], data[2], data[3] };
	struct row *row, fresh = { .bytes = end - data, .seen = 1, .last = data[17] };
	__u64 *flow, one = data[18];
	struct pair *pair, both = { .sum = one, .more = { 1, 2, 3, 4, 5 }, .low = 99, .high = data[19] };
	switch (data[0]) {
	case 0:
		row = bpf_map_lookup_elem(&hosts, &host);
		if (!row) return XDP_ABORTED;
		row->bytes += end - data;
		row->seen++;
		row->last = data[17];
		return row->seen & 1 ? XDP_DROP : XDP_PASS;
	case 1: return action(bpf_map_update_elem(&hosts, &host, &fresh, BPF_ANY));
	case 2: return action(bpf_map_update_elem(&hosts, &host, &fresh, BPF_NOEXIST));
	case 3: return action(bpf_map_update_elem(&hosts, &host, &fresh, BPF_EXIST));
	case 4: return action(bpf_map_delete_elem(&hosts, &host));
	case 5:
		flow = bpf_map_lookup_elem(&flows, data + 1);
		if (flow) __sync_fetch_and_add(flow, 1);
		return flow ? XDP_PASS : XDP_DROP;
	case 6: return action(bpf_map_update_elem(&flows, data + 1, &one, BPF_ANY));
	case 7: return action(bpf_map_delete_elem(&flows, data + 1));
	case 8:
		pair = bpf_map_lookup_elem(&pairs, data + 1);
		if (!pair) return action(bpf_map_update_elem(&pairs, data + 1, &both, BPF_ANY));
		pair->sum += one;
		pair->low -= one;
		pair->high++;
		return pair->low > 9 ? XDP_PASS : XDP_DROP;
	case 9: return action(bpf_map_delete_elem(&pairs, data + 1));
	default:
		of_kind = bpf_map_lookup_elem(&kinds, kind);
		if (of_kind) { *of_kind += data[0]; return *of_kind > 99 ? XDP_TX : XDP_PASS; }
		return action(bpf_map_update_elem(&kinds, kind, &host, BPF_NOEXIST));
	}
}
char LICENSE[] SEC("license") = "GPL";
