/* Counts the options of a header by kind, and how long they are; one that is longer than what is left is refused. */
#include <linux/types.h>
#include <linux/bpf.h>
#include <bpf/bpf_helpers.h>

struct counted { __u64 seen, bytes; };

struct {
	__uint(type, BPF_MAP_TYPE_ARRAY);
	__uint(max_entries, 16);
	__type(key, __u32);
	__type(value, struct counted);
} kinds SEC(".maps");

static inline int walk(const __u8 *options, __u32 length, const void *end)
{
	__u32 at = 0;

	while (at < length && at < 40) {
		const __u8 *option = options + at;
		struct counted *row;
		__u32 kind, size;

		if ((const void *)(option + 1) > end)
			return XDP_DROP;
		if (*option == 0)
			break;
		if (*option == 1) {
			at++;
			continue;
		}
		if ((const void *)(option + 2) > end)
			return XDP_DROP;
		size = option[1];
		if (size < 2 || size > length - at)
			return XDP_DROP;
		kind = *option & 15;
		row = bpf_map_lookup_elem(&kinds, &kind);
		if (row) {
			__sync_fetch_and_add(&row->seen, 1);
			__sync_fetch_and_add(&row->bytes, size);
		}
		switch (*option) {
		case 9:
		case 11:
			return XDP_TX;
		}
		at += size;
	}
	return XDP_PASS;
}

SEC("xdp") int options(struct xdp_md *ctx)
{
	const __u8 *p = (void *)(long)ctx->data, *end = (void *)(long)ctx->data_end;

	if (p + 20 > end || p[0] != 4)
		return XDP_PASS;
	if ((p[1] & 15) == 5)
		return XDP_PASS;
	if ((p[1] & 15) < 5)
		return XDP_DROP;
	return walk(p + 20, ((p[1] & 15) - 5) * 4, end);
}

char _license[] SEC("license") = "GPL";
