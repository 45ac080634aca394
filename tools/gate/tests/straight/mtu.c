/* bpf_check_mtu of the packet's own device, by its number and by 0, and of another one, with a length that is given or not. */
#include <linux/bpf.h>
#include <bpf/bpf_helpers.h>
struct { __uint(type, BPF_MAP_TYPE_ARRAY); __uint(max_entries, 8); __type(key, __u32); __type(value, __u64); } answers SEC(".maps");
SEC("xdp") int f(struct xdp_md *ctx) {
	__u8 *data = (void *)(long)ctx->data;
	if ((void *)(data + 4) > (void *)(long)ctx->data_end) return XDP_DROP;
	__u32 length = data[0] < 128 ? 0 : data[0] * 12, device = data[1] & 1 ? ctx->ingress_ifindex : data[1] & 2 ? 999 : 0;
	int more = data[2] < 64 ? -(int)length - data[2] : data[2];
	long answer = bpf_check_mtu(ctx, device, &length, more, data[3] & 1);
	__u32 kind = answer < 0 ? answer == -19 ? 2 : 3 : answer + 4 * (length == 1500);
	__u64 *n = bpf_map_lookup_elem(&answers, &kind);
	if (n) __sync_fetch_and_add(n, 1);
	return answer < 0 ? XDP_ABORTED : answer ? XDP_DROP : XDP_PASS;
}
char LICENSE[] SEC("license") = "GPL";
