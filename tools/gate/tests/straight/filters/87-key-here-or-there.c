/* A route that was found, or one that is made here: the key of the next lookup lies in a map's value on some ways, and on the stack on others. */
#include <linux/bpf.h>
#include <linux/types.h>
#include <bpf/bpf_helpers.h>

struct route {
	__u32 addr;
	__u16 port;
	__u16 flags;
	__u8 mac[4];
	__u32 next;
};

struct {
	__uint(type, BPF_MAP_TYPE_ARRAY);
	__uint(max_entries, 4);
	__type(key, __u32);
	__type(value, struct route);
} routes SEC(".maps");

struct {
	__uint(type, BPF_MAP_TYPE_ARRAY);
	__uint(max_entries, 8);
	__type(key, __u32);
	__type(value, __u64);
} hops SEC(".maps");

SEC("xdp") int route(struct xdp_md *ctx)
{
	__u8 *p = (void *)(long)ctx->data, *end = (void *)(long)ctx->data_end;
	struct route *found, fresh = {};
	__u64 *count;
	__u32 at;

	if (p + 14 > end)
		return XDP_ABORTED;
	at = p[0] & 7;
	found = bpf_map_lookup_elem(&routes, &at);
	if (!found || !found->flags) {
		if (p[1] & 1)
			return XDP_DROP;
		fresh.addr = p[2];
		fresh.port = p[3];
		fresh.mac[1] = p[4];
		fresh.next = p[5] & 15;
		found = &fresh;
	}
	count = bpf_map_lookup_elem(&hops, &found->next);
	if (count)
		__sync_fetch_and_add(count, 1);
	p[6] = found->port;
	p[7] = found->mac[1];
	p[8] = found->addr;
	return count ? XDP_TX : XDP_PASS;
}

char _license[] SEC("license") = "GPL";
