/* Two functions in one section, each with maps of its own, and one that both use. */
#include <linux/bpf.h>
#include <bpf/bpf_helpers.h>

struct {
	__uint(type, BPF_MAP_TYPE_ARRAY);
	__uint(max_entries, 4);
	__type(key, __u32);
	__type(value, __u64);
} first SEC(".maps"), second SEC(".maps");

struct {
	__uint(type, BPF_MAP_TYPE_HASH);
	__uint(max_entries, 100);
	__uint(key_size, 4);
	__uint(value_size, 16);
} both SEC(".maps");

SEC("xdp")
int early(struct xdp_md *ctx)
{
	__u32 key = 1;
	__u64 *a = bpf_map_lookup_elem(&first, &key);
	__u64 *b = bpf_map_lookup_elem(&both, &key);
	return a && b ? XDP_PASS : XDP_DROP;
}

SEC("xdp")
int late(struct xdp_md *ctx)
{
	__u32 key = 2;
	__u64 *a = bpf_map_lookup_elem(&both, &key);
	__u64 *b = bpf_map_lookup_elem(&second, &key);
	__u64 *c = bpf_map_lookup_elem(&both, &key);
	return a && b && c ? XDP_PASS : XDP_TX;
}

SEC("xdp")
int none(struct xdp_md *ctx)
{
	return XDP_PASS;
}
