/* The bytes of four headers, weighed by their places: of the first one nothing. */
#include <linux/bpf.h>
#include <linux/if_ether.h>
#include <bpf/bpf_helpers.h>

struct {
	__uint(type, BPF_MAP_TYPE_ARRAY);
	__uint(max_entries, 1);
	__type(key, __u32);
	__type(value, __u64);
} weighed SEC(".maps");

SEC("xdp") int f(struct xdp_md *ctx)
{
	__u8 *data = (void *)(long)ctx->data, *end = (void *)(long)ctx->data_end;
	__u64 found = 0;
	__u32 key = 0;

	if (data + ETH_HLEN > end)
		return XDP_DROP;
#pragma unroll
	for (__u64 i = 0; i < 4; i++) {
		__u64 *sum = bpf_map_lookup_elem(&weighed, &key);
		if (!sum)
			return XDP_ABORTED;
		found = __sync_fetch_and_add(sum, i);
	}
	return found > data[0] ? XDP_DROP : XDP_PASS;
}
char copying[] SEC("license") = "GPL";
