/* Globals that begin with a number and change: how many packets are left, a number that grows, and which place in an array is next. */
#include <linux/bpf.h>
#include <linux/if_ether.h>
#include <bpf/bpf_endian.h>
#include <bpf/bpf_helpers.h>

int left = 5;
static __u64 grown = 1000;
__u64 rounds[2] = { 7, 1 };
volatile __u16 next = 1;
__u32 kind = 0x88cc;  /* nobody changes it */

SEC("xdp") int f(struct xdp_md *ctx)
{
	void *data = (void *)(long)ctx->data, *end = (void *)(long)ctx->data_end;
	struct ethhdr *eth = data;

	if ((void *)(eth + 1) > end)
		return XDP_ABORTED;
	if (bpf_ntohs(eth->h_proto) == kind)
		return XDP_TX;
	if (eth->h_dest[0] & 1) {
		rounds[next & 1] += 2;
		next = next + 1;
		return rounds[0] > rounds[1] * 2 ? XDP_DROP : XDP_PASS;
	}
	grown += eth->h_source[5];
	if (left <= 0)
		return grown > 1100 ? XDP_DROP : XDP_ABORTED;
	left--;
	return XDP_PASS;
}
char copying[] SEC("license") = "GPL";
