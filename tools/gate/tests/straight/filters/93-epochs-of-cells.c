/* A sketch of two rows whose cells begin anew with each epoch of 16 packets: a count that is set on one way and raised on another. */
#include <linux/bpf.h>
#include <linux/types.h>
#include <bpf/bpf_helpers.h>

struct cell {
	__u32 epoch;
	__u32 count;
};

struct {
	__uint(type, BPF_MAP_TYPE_ARRAY);
	__uint(max_entries, 16);
	__type(key, __u32);
	__type(value, struct cell);
} sketch SEC(".maps");

static __u64 total;

SEC("xdp") int f(struct xdp_md *ctx)
{
	__u8 *p = (void *)(long)ctx->data, *end = (void *)(long)ctx->data_end;
	__u32 epoch = total >> 4, least = -1;

	if (p + 14 > end)
		return XDP_ABORTED;
	total++;
	for (__u32 row = 0; row < 2; row++) {
		__u32 at = row * 8 + (row ? p[0] >> 3 & 7 : p[0] & 7);
		struct cell *cell = bpf_map_lookup_elem(&sketch, &at);
		if (!cell)
			return XDP_ABORTED;
		if (cell->epoch != epoch) {
			cell->epoch = epoch;
			cell->count = 0;
		}
		cell->count++;
		if (cell->count < least)
			least = cell->count;
	}
	return least > 2 ? XDP_DROP : XDP_PASS;
}

char _license[] SEC("license") = "GPL";
