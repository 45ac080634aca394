/* Rows of a hash map that a program adds, whose values have more small numbers than there are counters: of these the topmost alone is stored later. */
#include <linux/bpf.h>
#include <bpf/bpf_helpers.h>
struct nat { __u32 addr; __u16 port; __u8 mac[6]; __u32 backend; };
struct tuple { __u32 addr; __u16 port; __u8 proto, dir; };
struct { __uint(type, BPF_MAP_TYPE_LRU_HASH); __uint(max_entries, 60); __type(key, struct tuple); __type(value, struct nat); } nats SEC(".maps");
SEC("xdp") int f(struct xdp_md *ctx) {
	__u8 *data = (void *)(long)ctx->data, *end = (void *)(long)ctx->data_end;
	if (data + 20 > end) return XDP_DROP;
	struct tuple tuple = { .addr = *(__u32 *)(data + 1), .port = *(__u16 *)(data + 5), .proto = data[7] };
	struct nat *nat = bpf_map_lookup_elem(&nats, &tuple), fresh = {};
	if (!nat) {
		fresh.addr = *(__u32 *)(data + 8);
		fresh.port = *(__u16 *)(data + 12);
		__builtin_memcpy(fresh.mac, data + 14, 6);
		fresh.backend = data[0] & 3;
		if (bpf_map_update_elem(&nats, &tuple, &fresh, BPF_NOEXIST)) return XDP_ABORTED;
		return data[0] & 4 ? XDP_PASS : XDP_DROP;
	}
	if (data[0] == 7) return bpf_map_delete_elem(&nats, &tuple) ? XDP_DROP : XDP_ABORTED;
	data[14] = nat->mac[0] ^ nat->mac[5];
	*(__u16 *)(data + 12) = nat->port;
	*(__u32 *)(data + 8) = nat->addr;
	nat->backend += data[13] & 1;
	return nat->backend == 2 ? XDP_TX : XDP_PASS;
}
char LICENSE[] SEC("license") = "GPL";
