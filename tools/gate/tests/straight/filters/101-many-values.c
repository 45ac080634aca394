/* A counter for each of 200,000 numbers, and a state of each of 70,000: more than a map has entries. */
#include <linux/bpf.h>
#include <linux/types.h>
#include <bpf/bpf_helpers.h>

struct {
	__uint(type, BPF_MAP_TYPE_ARRAY);
	__uint(max_entries, 200000);
	__type(key, __u32);
	__type(value, __u64);
} seen SEC(".maps");

struct {
	__uint(type, BPF_MAP_TYPE_ARRAY);
	__uint(max_entries, 70000);
	__type(key, __u32);
	__type(value, __u32);
} states SEC(".maps");

SEC("xdp") int many(struct xdp_md *ctx)
{
	__u8 *p = (void *)(long)ctx->data, *end = (void *)(long)ctx->data_end;
	__u32 number, *state;
	__u64 *times;

	if (p + 14 > end)
		return XDP_ABORTED;
	number = p[0] << 16 | p[1] << 8 | p[2];
	times = bpf_map_lookup_elem(&seen, &number);
	if (!times)
		return XDP_TX;
	*times += 1;
	state = bpf_map_lookup_elem(&states, &number);
	if (!state)
		return *times > 2 ? XDP_DROP : XDP_PASS;
	*state = p[3];
	return *times > 1 ? XDP_DROP : XDP_PASS;
}

char _license[] SEC("license") = "GPL";
