/* Sums of each kind: what is added, what is taken off, both, and nothing. */
#include <linux/bpf.h>
#include <bpf/bpf_helpers.h>
SEC("xdp") int f(struct xdp_md *ctx) {
	__u8 *data = (void *)(long)ctx->data, *end = (void *)(long)ctx->data_end;
	if (data + 120 > end) return XDP_DROP;
	__u32 size = data[0] & 28, seed = *(__u32 *)(data + 40);
	__u64 *out = (void *)(data + 48);
	out[0] = bpf_csum_diff(0, 0, (void *)(data + 4), size, seed);
	out[1] = bpf_csum_diff((void *)(data + 4), size, 0, 0, seed);
	out[2] = bpf_csum_diff((void *)(data + 4), 8, (void *)(data + 12), 12, seed);
	out[3] = bpf_csum_diff((void *)(data + 4), 8, 0, 0, seed);
	out[4] = bpf_csum_diff(0, 0, (void *)(data + 12), 12, seed);
	out[5] = bpf_csum_diff((void *)(data + 4), 8, (void *)(data + 4), 8, seed);
	out[6] = bpf_csum_diff(0, 0, 0, 0, seed);
	out[7] = bpf_csum_diff((void *)(data + 4), 4, (void *)(data + 8), 4, 0);
	return XDP_PASS;
}
char LICENSE[] SEC("license") = "GPL";
