/* Knocks by stages. Structs are cleared whole, number by number, and by an assignment; clang stores several numbers at once. */
#include <linux/bpf.h>
#include <linux/types.h>
#include <bpf/bpf_helpers.h>

struct knock {
	__u64 seen;
	__u32 stage;
	__u32 left;
	__u16 wrong;
	__u8 kind;
	__u8 last;
	__u32 sum;
};

struct {
	__uint(type, BPF_MAP_TYPE_ARRAY);
	__uint(max_entries, 4);
	__type(key, __u32);
	__type(value, struct knock);
} knocks SEC(".maps");

SEC("xdp") int knock(struct xdp_md *ctx)
{
	__u8 *p = (void *)(long)ctx->data, *end = (void *)(long)ctx->data_end;
	__u32 at;

	if (p + 14 > end)
		return XDP_ABORTED;
	at = p[0] & 3;
	struct knock *k = bpf_map_lookup_elem(&knocks, &at);
	if (!k)
		return XDP_ABORTED;
	switch (p[1]) {
	case 0:
		__builtin_memset(k, 0, sizeof(*k));
		return XDP_DROP;
	case 1:
		k->stage = 1;
		k->left = 0;
		return XDP_DROP;
	case 2:
		if (k->stage != 1)
			k->wrong++;
		k->stage = k->stage == 1 ? 2 : 0;
		k->left = k->stage + 1;
		return XDP_DROP;
	case 3:
		*k = (struct knock){ .seen = k->seen + 1, .kind = p[2] };
		return XDP_TX;
	}
	k->seen++;
	k->last = p[2];
	k->sum += p[3];
	if (k->stage != 2 || k->left == 0)
		return k->sum > 900 || k->wrong > 3 ? XDP_ABORTED : XDP_DROP;
	k->left--;
	return k->last == k->kind ? XDP_TX : XDP_PASS;
}

char _license[] SEC("license") = "GPL";
