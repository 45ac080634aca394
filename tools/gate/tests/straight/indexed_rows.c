/* Rows of a hash map that a program adds, in whose values an index reaches small numbers, and words that have some beside them. */
#include <linux/bpf.h>
#include <bpf/bpf_helpers.h>
#include <bpf/bpf_endian.h>
struct scan { __u64 first, ports[4]; __u32 count, blocked; };
struct { __uint(type, BPF_MAP_TYPE_LRU_HASH); __uint(max_entries, 60); __type(key, __u32); __type(value, struct scan); } scans SEC(".maps");
struct flow { __u32 packets[2]; __u64 last; __u8 state, flags; __u16 rest; };
struct { __uint(type, BPF_MAP_TYPE_HASH); __uint(max_entries, 60); __type(key, __u16); __type(value, struct flow); } flows SEC(".maps");
static __always_inline int scanned(__u8 *data, __u64 now) {
	__u32 host = *(__u32 *)(data + 1);
	struct scan *scan = bpf_map_lookup_elem(&scans, &host), first = { .first = now, .count = 1 };
	if (!scan) return bpf_map_update_elem(&scans, &host, &first, BPF_ANY) ? XDP_ABORTED : XDP_PASS;
	if (scan->blocked) return XDP_DROP;
	if (now - scan->first > 100) {
		__builtin_memset(scan->ports, 0, sizeof(scan->ports));
		scan->first = now;
		scan->count = 0;
	}
	__u8 at = bpf_ntohs(*(__u16 *)(data + 16)) ^ data[18];
	if (!(scan->ports[at >> 6] & 1ULL << (at & 63))) {
		scan->ports[at >> 6] |= 1ULL << (at & 63);
		scan->count++;
	}
	if (scan->count > 2) scan->blocked = 1;
	return scan->count & 1 ? XDP_PASS : XDP_TX;
}
static __always_inline int followed(__u8 *data, __u64 now) {
	__u16 key = *(__u16 *)(data + 1);
	int way = data[17] & 1;
	struct flow *flow = bpf_map_lookup_elem(&flows, &key);
	if (flow && now - flow->last > 60) {
		bpf_map_delete_elem(&flows, &key);
		flow = 0;
	}
	if (!flow) {
		struct flow first = { .last = now, .state = 1 };
		first.packets[0] = 1;
		return bpf_map_update_elem(&flows, &key, &first, BPF_NOEXIST) ? XDP_ABORTED : XDP_TX;
	}
	flow->last = now;
	flow->packets[way]++;
	switch (flow->state) {
	case 1: if (way) flow->state = 2; break;
	case 2: if (!way) flow->flags |= 1; break;
	}
	return flow->packets[!way] > 1 ? XDP_DROP : XDP_PASS;
}
SEC("xdp") int f(struct xdp_md *ctx) {
	__u8 *data = (void *)(long)ctx->data, *end = (void *)(long)ctx->data_end;
	if (data + 20 > end) return XDP_DROP;
	return data[0] & 1 ? scanned(data, data[19]) : followed(data, data[19]);
}
char LICENSE[] SEC("license") = "GPL";
