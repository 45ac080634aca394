/* bpf_strncmp, bpf_for and bpf_repeat, and a buffer that clang loads from before it looks at what bpf_xdp_load_bytes answered. */
#include <linux/bpf.h>
#include <bpf/bpf_helpers.h>
SEC("xdp") int f(struct xdp_md *ctx) {
	__u8 *data = (void *)(long)ctx->data, *end = (void *)(long)ctx->data_end;
	__u16 tail[2];
	char word[8];
	int i, sum = 0;
	if (data + 14 > end) return XDP_ABORTED;
	__builtin_memcpy(word, data, sizeof(word));
	if (!bpf_strncmp(word, 4, "GET ")) return XDP_TX;
	if (!bpf_strncmp(word, 8, "PUT")) return XDP_DROP;
	if (data[13] == 7 && bpf_strncmp(word, 4, "GET ") < 0) return XDP_ABORTED;
	bpf_for(i, 8, 14) sum += data[i];
	bpf_repeat(3) sum += i;
	if (bpf_xdp_load_bytes(ctx, data[8], tail, sizeof(tail))) return XDP_PASS;
	return tail[1] + sum & 1 ? XDP_DROP : XDP_PASS;
}
char LICENSE[] SEC("license") = "GPL";
