/* Who spoke last, by port: the struct is copied whole, and some of its numbers are set alone. */
#include <linux/bpf.h>
#include <linux/types.h>
#include <bpf/bpf_helpers.h>

struct talk {
	__u32 turns, again;
	__u16 last, before;
	__u32 kind;
};

struct {
	__uint(type, BPF_MAP_TYPE_ARRAY);
	__uint(max_entries, 4);
	__type(key, __u32);
	__type(value, struct talk);
} talks SEC(".maps");

SEC("xdp") int who(struct xdp_md *ctx)
{
	__u8 *p = (void *)(long)ctx->data, *end = (void *)(long)ctx->data_end;
	__u32 at;

	if (p + 14 > end)
		return XDP_ABORTED;
	at = p[0] & 3;
	struct talk *talk = bpf_map_lookup_elem(&talks, &at), old;
	if (!talk)
		return XDP_ABORTED;
	old = *talk;
	talk->turns++;
	if (old.last == p[1]) {
		talk->again++;
		talk->kind = old.before;
	}
	talk->before = old.last;
	talk->last = p[1];
	if (old.kind == p[2])
		return XDP_TX;
	return old.turns > 5 && old.again > 1 ? XDP_DROP : XDP_PASS;
}

char _license[] SEC("license") = "GPL";
