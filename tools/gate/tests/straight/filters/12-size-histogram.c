/* A histogram of packet lengths by powers of two, per CPU; drops giants. */
#include <linux/bpf.h>
#include <bpf/bpf_helpers.h>

#define SLOTS 17

struct {
	__uint(type, BPF_MAP_TYPE_PERCPU_ARRAY);
	__uint(max_entries, SLOTS);
	__type(key, __u32);
	__type(value, __u64);
} sizes SEC(".maps");

static __always_inline __u32 log2_of(__u32 v)
{
	__u32 r = 0;

	while (v > 1 && r < SLOTS - 1) {
		v >>= 1;
		r++;
	}
	return r;
}

SEC("xdp")
int size_histogram(struct xdp_md *ctx)
{
	__u32 length = ctx->data_end - ctx->data;
	__u32 slot = log2_of(length);
	__u64 *count = bpf_map_lookup_elem(&sizes, &slot);

	if (count)
		*count += 1;
	return length > 9014 ? XDP_DROP : XDP_PASS;
}

char _license[] SEC("license") = "GPL";
