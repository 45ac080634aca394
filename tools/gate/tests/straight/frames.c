/* Bytes of the stack that no instruction names: loops that go down, and functions that go down from an address in an array. */
#include <linux/bpf.h>
#include <bpf/bpf_helpers.h>
static __attribute__((noinline)) int put(__u64 *p, __u8 *data) {
	p[-1] = data[1]; p[-2] = data[2]; p[-3] = data[3]; p[-4] = data[4];
	return 0;
}
static __attribute__((noinline)) int get(__u64 *p, __u8 *data) {
	data[5] = p[-1]; data[6] = p[-2]; data[7] = p[-3]; data[8] = p[-4];
	return data[0];
}
static __attribute__((noinline)) int around(__u8 *data) {
	__u64 four[4];
	put(four + 4, data);
	__u32 random = bpf_get_prandom_u32();
	return get(four + 4, data) + random % 3;
}
static __attribute__((noinline)) __u64 down(__u8 *data) {
	__u64 rows[8], sum = bpf_get_prandom_u32();
#pragma clang loop unroll(disable)
	for (int i = 7; i >= 0; i--) rows[i] = data[i + 9];
	sum += bpf_get_prandom_u32();
#pragma clang loop unroll(disable)
	for (int i = 7; i >= 0; i--) sum += rows[i] << i;
	return sum;
}
SEC("xdp") int f(struct xdp_md *ctx) {
	__u8 *data = (void *)(long)ctx->data, *end = (void *)(long)ctx->data_end;
	if (data + 32 > end) return XDP_DROP;
	int answer = around(data) & 1 ? XDP_PASS : XDP_TX;
	*(__u64 *)(data + 20) = down(data);
	return answer;
}
char LICENSE[] SEC("license") = "GPL";
