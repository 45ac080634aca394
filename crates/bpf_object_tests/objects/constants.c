/* Settings, tables and texts among constants, constants in a section of their own, and globals. */
#include <linux/bpf.h>
#include <bpf/bpf_helpers.h>

struct {
	__uint(type, BPF_MAP_TYPE_ARRAY);
	__uint(max_entries, 4);
	__type(key, __u32);
	__type(value, __u64);
} seen SEC(".maps");

const volatile __u32 limit = 1500;
const volatile __u16 port = 53;
static const __u32 digits[16] = { 3, 1, 4, 1, 5, 9, 2, 6, 5, 3, 5, 8, 9, 7, 9, 3 };
const __u32 actions[8] = { 1, 2, 1, 1, 2, 2, 1, 1 };
const __u64 far[4] SEC(".rodata.far") = { 1, 2, 3, 4 };
static const char *const texts[] SEC(".rodata.texts") = { "drop", "pass" };
int start = 1;
int count;

SEC("xdp")
int settings(struct xdp_md *ctx)
{
	return ctx->data_end - ctx->data > limit ? XDP_DROP : port == 53 ? XDP_PASS : XDP_TX;
}

SEC("xdp")
int tables(struct xdp_md *ctx)
{
	return digits[ctx->ingress_ifindex & 15] + actions[ctx->rx_queue_index & 7];
}

SEC("xdp")
int before(struct xdp_md *ctx)
{
	__u32 number = ctx->rx_queue_index;

	if (number < 2 || number > 8)
		return XDP_PASS;
	return actions[number - 2] + (int)far[number & 3];
}

SEC("xdp")
int text(struct xdp_md *ctx)
{
	return texts[ctx->ingress_ifindex & 1][ctx->rx_queue_index & 3];
}

SEC("xdp")
int counted(struct xdp_md *ctx)
{
	return count++ ? XDP_PASS : XDP_DROP;
}

SEC("xdp")
int started(struct xdp_md *ctx)
{
	return start;
}

SEC("xdp")
int both(struct xdp_md *ctx)
{
	__u32 key = limit & 3;
	__u64 *value = bpf_map_lookup_elem(&seen, &key);

	return value ? digits[*value & 15] : far[ctx->rx_queue_index & 3];
}
