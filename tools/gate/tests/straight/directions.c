/* Rows of connections in two directions: addresses that are one of two places of the packet, a header that there is on some ways and 0 on others,
   also behind a lookup, and an index behind the first numbers of a value. */
#include <linux/bpf.h>
#include <bpf/bpf_helpers.h>
struct header { __u8 flags, rest; __u16 number; };
struct ends { __u32 near, far; __u16 near_port, far_port; __u8 kind; __u8 none[3]; };
struct entry { __u64 until; __u32 state, from; __u64 packets[2]; };
struct { __uint(type, BPF_MAP_TYPE_LRU_HASH); __uint(max_entries, 60); __type(key, struct ends); __type(value, struct entry); } connections SEC(".maps");
static __always_inline void advance(struct entry *entry, struct header *header, int from) {
	if (!header) {
		if (entry->state == 0 && from != entry->from) entry->state = 1;
		return;
	}
	if (header->flags & 1) entry->state = 3;
	else if (entry->state == 0 && (header->flags & 6) == 6 && from != entry->from) entry->state = 1;
	else if (entry->state == 1 && (header->flags & 4)) entry->state = 2;
}
static __always_inline __u64 until(struct entry *entry, __u8 kind, __u64 now) {
	if (kind == 1) return now + (entry->state == 2 ? 90 : entry->state == 3 ? 10 : 40);
	return now + (entry->state ? 60 : 30);
}
SEC("xdp") int f(struct xdp_md *ctx) {
	__u8 *data = (void *)(long)ctx->data, *end = (void *)(long)ctx->data_end;
	struct header *header = 0;
	struct ends ends = {};
	struct entry *entry, fresh = {};
	if (data + 20 > end) return XDP_DROP;
	int from = (data[1] & 1) == 0;
	if (data[0] & 1) {
		header = (void *)data + 12 + (data[2] & 1) * 4;
		if ((void *)(header + 1) > (void *)end) return XDP_ABORTED;
	} else if (data[0] > 7) return data[0] > 8 ? XDP_ABORTED : XDP_TX;
	ends.kind = data[0] & 1;
	ends.near = from ? *(__u32 *)(data + 1) & 0xffff : *(__u32 *)(data + 3) & 0xffff;
	ends.far = from ? *(__u32 *)(data + 3) & 0xffff : *(__u32 *)(data + 1) & 0xffff;
	ends.near_port = *(__u16 *)(from ? data + 5 : data + 7);
	__u64 now = data[19];
	entry = bpf_map_lookup_elem(&connections, &ends);
	if (entry && now < entry->until) {
		advance(entry, header, from);
		entry->until = until(entry, ends.kind, now);
		__sync_fetch_and_add(&entry->packets[from & 1], 1);
		return entry->state == 2 ? XDP_TX : XDP_PASS;
	}
	if (header && (!(header->flags & 2) || header->flags & 4)) return XDP_DROP;
	fresh.from = from;
	fresh.packets[0] = 1;
	fresh.until = until(&fresh, ends.kind, now);
	return bpf_map_update_elem(&connections, &ends, &fresh, BPF_ANY) ? XDP_ABORTED : XDP_PASS;
}
char LICENSE[] SEC("license") = "GPL";
