/* A call of a function, a table of constants, a static map, and a map's name for a function. */
#include <linux/bpf.h>
#include <bpf/bpf_helpers.h>

struct {
	__uint(type, BPF_MAP_TYPE_ARRAY);
	__uint(max_entries, 4);
	__type(key, __u32);
	__type(value, __u64);
} map SEC(".maps");

static struct {
	__uint(type, BPF_MAP_TYPE_ARRAY);
	__uint(max_entries, 4);
	__type(key, __u32);
	__type(value, __u64);
} hidden SEC(".maps");

const int table[16] = { 3, 1, 4, 1, 5, 9, 2, 6, 5, 3, 5, 8, 9, 7, 9, 3 };

__attribute__((noinline)) int twice(int x)
{
	return 2 * x + table[x & 15];
}

SEC("xdp")
int calls(struct xdp_md *ctx)
{
	return twice(ctx->ingress_ifindex);
}

SEC("xdp")
int reads(struct xdp_md *ctx)
{
	__u32 key = 0;
	__u64 *a = bpf_map_lookup_elem(&map, &key);
	return a ? table[ctx->ingress_ifindex & 15] : XDP_PASS;
}

SEC("xdp")
int looks(struct xdp_md *ctx)
{
	__u32 key = 0;
	__u64 *a = bpf_map_lookup_elem(&hidden, &key);
	return a ? XDP_DROP : XDP_PASS;
}
