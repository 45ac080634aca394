/* How many packets have a first byte in each eighth, and in each pair of eighths: an index without its lowest bits. */
#include <linux/bpf.h>
#include <linux/types.h>
#include <bpf/bpf_helpers.h>

struct eighths {
	__u64 packets[8];
};

struct {
	__uint(type, BPF_MAP_TYPE_PERCPU_ARRAY);
	__uint(max_entries, 4);
	__type(key, __u32);
	__type(value, struct eighths);
} counts SEC(".maps");

SEC("xdp") int f(struct xdp_md *ctx)
{
	__u8 *p = (void *)(long)ctx->data, *end = (void *)(long)ctx->data_end;
	__u32 at;

	if (p + 14 > end)
		return XDP_ABORTED;
	at = p[0] >> 6;
	struct eighths *found = bpf_map_lookup_elem(&counts, &at);
	if (found)
		found->packets[(p[0] >> 3) & 7]++;
	return p[0] >> 3 & 1 ? XDP_PASS : XDP_DROP;
}

char _license[] SEC("license") = "GPL";
